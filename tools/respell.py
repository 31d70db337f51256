#!/usr/bin/env python3
"""Brings this repository's own definitions and lemmas to the spelling that port.py leaves to it: words in snake case (`below-past` and
`nextIn` become `below_past` and `next_in`). Run once, at the top, right behind port.py; names that would fall together stop it, with
nothing written."""
import collections
import os
import re
import sys

ROOT = "crates"
DECLARED = re.compile(r"^(\s*)((?:pub |abbrev |unfoldable )*)((?:record |data |module |ruleset )?)([^\s:(){}.,;=λ→←≡\[\]]+)((?: \{[^}]*\})*)\s*(?:\([^=]*\)\s*)*:(?!=)\s")
WORD = r"[\w'₀-₉-]"
# Lemmas that port.py has in snake case already and that would have a definition's name now, with the files in which they are named.
BESIDE = {
    "goes_on": ["crates/meaning/proofs/Existence.antt"],
    "with_mode": ["crates/written/proofs/%s.antt" % name for name in ("Entered", "ReadBack", "AcceptedAgain", "WrittenBack")],
}
IMPORT = re.compile(r"^(?:pub )?use ([\w.·◌+-]+)\.\{([^}]*)\}", re.M)


def files():
    for folder, folders, names in os.walk(ROOT):
        folders[:] = sorted(f for f in folders if f != "out")
        for name in sorted(names):
            if name.endswith((".antt", ".rt", ".edit")):
                yield os.path.join(folder, name)


def is_lemmas(path):
    parts = path.split("/")
    return path.endswith(".antt") and (parts[2] == "specs" or (parts[2] == "proofs" and len(parts) == 4))


def is_walk(path):
    return path.endswith(".antt") and not is_lemmas(path)


def snake(name):
    name = re.sub(r"(?<=[a-z0-9])([A-Z])", lambda m: "_" + m.group(1).lower(), name) if re.match(r"[a-z]", name) else name
    return name.replace("-", "_")


def main():
    texts = {}
    for path in files():
        with open(path, encoding="utf-8") as file:
            texts[path] = file.read()
    before = dict(texts)
    for name, paths in BESIDE.items():
        for path in paths:
            texts[path] = re.sub(r"(?<!%s)%s(?!%s)" % (WORD, name, WORD), name + "_lem", texts[path])
    crates = set(os.listdir(ROOT))
    new, fields, kept = {}, set(), set()
    for path, text in texts.items():
        if not is_lemmas(path):
            continue
        for line in text.split("\n"):
            if re.match(r"\s*(use |pub use |--|let )", line):
                continue
            m = DECLARED.match(line)
            if m and snake(m.group(4)) != m.group(4):
                new[m.group(4)] = snake(m.group(4))
                if m.group(1) and m.group(2):
                    fields.add(m.group(4))
            elif m:
                kept.add(m.group(4))
    # A lemma that would have a definition's name is told apart by what ends it.
    kept.update(b for a, b in new.items() if "-" not in a)
    new.update({a: b + "_lem" for a, b in new.items() if "-" in a and b in kept})
    old = collections.defaultdict(list)
    for a, b in new.items():
        old[b].append(a)
    wrong = [f"{b} would stand for {' and '.join(names)}" for b, names in old.items() if len(names) > 1]
    words = re.compile(r"(?<!%s)(%s)(?!%s)" % (WORD, "|".join(re.escape(n) for n in sorted(new, key=len, reverse=True)), WORD))
    done = {}
    for path, text in texts.items():
        foreign, own = set(), set()
        for m in IMPORT.finditer(text):
            parts = m.group(1).split(".")
            names = {n.strip() for n in m.group(2).split(",")}
            (own if parts[0] == "Rattle" and parts[1] in crates else foreign).update(names)
        for name in foreign & set(new):
            wrong.append(f"{path}: {name} is the kit's too")
        there = set(re.findall(r"(?<![\w'.-])[^\W\d][\w'₀-₉-]*", text))
        for name in set(words.findall(text)):
            if new[name] in there and is_lemmas(path):
                wrong.append(f"{path}: {name} falls together with {new[name]}")

        def turned(m, text=text, path=path, own=own):
            name = m.group(1)
            if is_walk(path) and name not in own:
                before = text[max(0, m.start() - 1):m.start()]
                if not (name in fields and before == ".") and name not in fields:
                    return name
            return new[name]

        done[path] = words.sub(turned, text)
    if wrong:
        print("\n".join(sorted(set(wrong))))
        sys.exit(1)
    for path, text in done.items():
        if text != before[path]:
            with open(path, "w", encoding="utf-8") as file:
                file.write(text)
    print(f"{len(new)} names respelled")


main()
