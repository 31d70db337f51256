# What ./desk, tools/install, tests/run, the examples, bench/run and the gate share: messages, and how things are built one call at a time.
# The script that reads this file has set `home`, the repository's folder, and `name`, its own name in messages.

say() {
    printf '%s: %s\n' "$name" "$1" >&2
}

# What cannot be done is one line on standard error, with exit status 2, also where that line cannot be written.
stop() {
    say "$1" || true
    exit 2
}

need_kit() {
    command -v rt >/dev/null || stop "rt is not on the PATH; it comes with the Rattle kit, which proves and builds what is run here"
}

# The version of the library, which the header has.
version() {
    sed -n 's/^#define MARNIPODE_VERSION "\(.*\)"$/\1/p' "$home/include/marnipode.h"
}

# Whether a file stands, and nothing that it could be made of is newer. What rt makes, and the edits that must fail, are no part of that.
is_built() {
    [ -e "$1" ] && [ ! "$home/crates.txt" -nt "$1" ] &&
        [ -z "$(find "$home/crates" -mindepth 2 \( -path '*/out' -o -path '*/must-fail' \) -prune -o -newer "$1" -print | head -n 1)" ]
}

# One build at a time in a checkout: rt works in the out/ of each crate, and what comes of that is put into target/. The lock's file is in
# neither, as they may be removed. The rt that is started holds the lock too, so it is not free before that has ended.
lock_target() {
    local file=$home/target.lock place
    for place in "$home/target" "$home/crates"; do
        [ ! -e "$place" ] || [ -w "$place" ] || stop "nothing can be built here: $place may not be written"
    done
    (exec 9>>"$file") 2>/dev/null || stop "nothing can be built here: $home may not be written; copy the clone to a folder of your own"
    exec 9>>"$file"
    if flock --nonblock 9; then return; fi
    say "another call is building here; waiting for it"
    flock 9
}

free_target() {
    exec 9>&-
}

# The crates that one is made of, lowest first and itself last, which is the order in which rt builds them.
crates_of() {
    awk -v crate="$1" '
        function reach(name, words, n, i) {
            if (!(name in needs) || name in seen) return
            seen[name]
            n = split(needs[name], words, " ")
            for (i = 1; i <= n; i++) reach(words[i])
            print name
        }
        { sub(/#.*/, "") }
        /:/ { name = $1; sub(/:.*/, "", name); sub(/^[^:]*:/, ""); needs[name] = $0 }
        END { reach(crate) }' "$home/crates.txt"
}

# Passes on what rt says for people as it comes, each proved crate with how many are to come after it.
tell_progress() {
    local crates line proved= began=$SECONDS left
    mapfile -t crates < <(crates_of "$1")
    while IFS= read -r line; do
        case $line in
        'crate '*': modules '*)
            proved=${line#crate }
            proved=${proved%%:*}
            ;;
        'logic=proved '*)
            left=${#crates[@]}
            while [ "$left" -gt 0 ] && [ "${crates[${#crates[@]} - left]}" != "$proved" ]; do left=$((left - 1)); done
            say "$proved proved ($((SECONDS - began)) s), $((left - 1)) to come"
            began=$SECONDS
            ;;
        'rt: chose '* | 'rt: running '* | 'rt: nothing has changed '* | 'rt: rt check '* | 'rt: '*': begins with '*) ;;
        'rt: '*) say "${line#rt: }" ;;
        esac
    done
}

# Ends all that was started, waits a little for the last of it, and then ends this script by the same signal.
break_off() {
    trap - INT TERM HUP
    kill -TERM -- "-$started" 2>/dev/null || true
    wait "$started" 2>/dev/null || true
    for _ in {1..50}; do
        kill -0 -- "-$started" 2>/dev/null || break
        sleep 0.1
    done
    say "broken off, with all that was started; the next call goes on from here"
    kill -s "$1" $$
}

# Runs a command in a process group of its own that ends with this script: what rt starts does not heed a Ctrl-C by itself.
in_group() {
    local ended=0
    set -m
    "$@" </dev/null &
    started=$!
    set +m
    trap 'break_off INT' INT
    trap 'break_off TERM' TERM
    trap 'break_off HUP' HUP
    wait "$started" || ended=$?
    trap - INT TERM HUP
    return "$ended"
}

# A command of rt in a crate's folder, told as it goes. What it said stands in target/CRATE.log.
run_rt() {
    local crate=$1 count
    shift
    count=$(crates_of "$crate" | wc -l)
    say "building: rt $* in crates/$crate proves what is not proved yet of $count crates, which takes some minutes where nothing is"
    mkdir -p "$home/target"
    # a program is run as soon as it is built, and what it prints then, on standard output, is not wanted
    (cd "$home/crates/$crate" && { [ "$1" != run ] || exec >/dev/null; } && rt "$@" 2>&3) 3>&1 | tee "$home/target/$crate.log" | tell_progress "$crate"
}

# Whether rt made a program. Its status is then the program's own, so what it says before it starts one is looked at.
make_program() {
    run_rt "$1" run || true
    grep -q "^rt: running out/$1;" "$home/target/$1.log"
}

# Makes the archive, for every x86-64 processor, and puts it where it has its name.
make_archive() {
    run_rt marnipode_c lib --cpu=x86-64 && install -m 644 "$home/crates/marnipode_c/out/libmarnipode_c.a" "$archive"
}

# Makes a file by a command unless it stands. An edit elsewhere leaves the file as it was, so its time is set here.
build() {
    local file=$1 crate=$2 began=$SECONDS
    shift 2
    if is_built "$file"; then return; fi
    lock_target
    if ! is_built "$file"; then
        in_group "$@" || stop "$crate was not built; target/$crate.log has what rt said"
        touch "$file"
        say "built in $((SECONDS - began)) s"
    fi
    free_target
}

# A program, as rt or `rt ci` left it.
program_of() {
    printf '%s\n' "$home/crates/$1/out/$1"
}

build_program() {
    build "$(program_of "$1")" "$1" make_program "$1"
}

# The archive that C is linked with. rt names it after its crate, and `rt ci` removes it there.
archive=$home/target/libmarnipode.a

build_archive() {
    build "$archive" marnipode_c make_archive
}

# Debian's packages with a command.
packages_of() {
    case $1 in
    cc) echo gcc libc6-dev ;;
    c++) echo g++ ;;
    objdump) echo binutils ;;
    *) echo "$1" ;;
    esac
}

# Stops where a command is missing. Only the gate installs anything.
need() {
    command -v "$1" >/dev/null || stop "there is no $1; Debian has it in: $(packages_of "$1")"
}
