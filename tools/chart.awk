# Draws a sheet's demand up to a horizon as an SVG picture, from the lines label, horizon, step, fixed, and holds or fails.

BEGIN {
    # Where the plot stands in the picture, which is 720 wide and 534 high.
    left = 72; width = 562; right = left + width
    top = 130; height = 320; bottom = top + height
}

NR == 1 && /^label ./ { label = escaped(substr($0, 7)); next }
NR == 2 && /^horizon [0-9]+$/ { horizon = $2 + 0; next }
NR > 2 && !verdict && /^step [0-9]+ [0-9]+$/ {
    engine_rise[$2 + 0] = $3 - engine
    together_rise[$2 + 0] += $3 - engine
    engine = $3 + 0
    next
}
NR > 2 && !verdict && /^fixed [0-9]+ [0-9]+$/ {
    together_rise[$2 + 0] += $3 - fixed
    fixed = $3 + 0
    next
}
NR > 2 && !verdict && /^holds$/ { verdict = "holds up to " both_units(horizon); next }
NR > 2 && !verdict && /^fails [0-9]+$/ { overrun = $2 + 0; verdict = "overrun at " both_units(overrun); next }
# Any other line, or one out of its order, leaves no picture.
{ verdict = ""; exit }

END {
    if (!verdict) exit 1
    set_reach()
    open_picture()
    print "<style>"
    style_sizes()
    style_light()
    style_dark()
    print "</style>"
    print "<rect class=\"paper\" width=\"100%\" height=\"100%\"/>"
    headings()
    numbers_across()
    numbers_up()
    plot()
    say_verdict()
    print "</svg>"
}

# Whole numbers are printed like this, since some awks give large ones an exponent, or cut %d to 32 bits.
function whole(number) { return sprintf("%.0f", number) }

function smaller(one, other) { return one < other ? one : other }

# A tick is 10 microseconds.
function milliseconds(ticks,    text) {
    text = sprintf("%.2f", ticks / 100)
    sub(/\.?0+$/, "", text)
    return text
}

function both_units(ticks) { return whole(ticks) (ticks == 1 ? " tick, " : " ticks, ") milliseconds(ticks) " ms" }

function escaped(text) {
    gsub(/&/, "\\&amp;", text)
    gsub(/</, "\\&lt;", text)
    gsub(/>/, "\\&gt;", text)
    return text
}

# How far the axes reach: one tick at least; and demand is cut off before the line where it equals the interval gets too flat.
function set_reach() {
    interval_reach = horizon > 0 ? horizon : 1
    cut_off = engine + fixed > 2 * interval_reach
    demand_reach = smaller(engine + fixed, 2 * interval_reach)
    if (demand_reach < interval_reach) demand_reach = interval_reach
}

function across(interval) { return sprintf("%.2f", left + width * interval / interval_reach) }
function up(demand) { return sprintf("%.2f", bottom - height * demand / demand_reach) }

# The distance of grid lines, for at most 8 of them: 1, 2 or 5 times a power of ten, in ticks and so in milliseconds.
function spacing(reach,    power) {
    power = 1
    while (reach > 40 * power) power *= 10
    if (reach <= 8 * power) return power
    return reach <= 16 * power ? 2 * power : 5 * power
}

function open_picture() {
    print "<svg xmlns=\"http://www.w3.org/2000/svg\" viewBox=\"0 0 720 534\" role=\"img\">"
    print "<title>" label "</title>"
    printf "<desc>Within the horizon of %s, the engine asks for %s", both_units(horizon), both_units(engine)
    if (fixed) printf ", and with the fixed tasks for %s", both_units(engine + fixed)
    print ": " verdict ".</desc>"
}

# Lines differ in more than colour. Their width follows the window, or the plot in viewers that can only stretch it with that.
function style_sizes() {
    print ":root { font: 14px system-ui, -apple-system, 'Segoe UI', Roboto, 'Helvetica Neue', Arial, sans-serif }"
    print "@media (max-width: 480px) { :root { font-size: 18px } }"
    print ".label { font-size: 19px }"
    print ".label, .holds, .fails { font-weight: 600 }"
    print "path, line, circle { fill: none; stroke-width: 0.3% }"
    print ".grid, .frame { stroke-width: 0.2% }"
    print ".together { stroke-width: 0.7% }"
    print ".overrun { stroke-width: 1.4% }"
    print ".limit { stroke-dasharray: 1.2% 0.9% }"
    print "@supports (vector-effect: non-scaling-stroke) and (stroke-width: max(1px, 1vmin)) {"
    print "path, line, circle { vector-effect: non-scaling-stroke; stroke-width: max(1.2px, 0.28vmin) }"
    print ".grid, .frame { stroke-width: max(1px, 0.14vmin) }"
    print ".together { stroke-width: max(2.2px, 0.56vmin) }"
    print ".overrun { stroke-width: max(4px, 1vmin) }"
    print ".limit { stroke-dasharray: max(4px, 1vmin) max(3px, 0.7vmin) }"
    print "}"
}

function style_light() {
    print ":root { background: #ffffff }"
    print ".paper { fill: #ffffff }"
    print ".label, .name, .ms { fill: #1f2328 }"
    print ".ticks { fill: #57606a }"
    print ".holds { fill: #14692d }"
    print ".fails { fill: #b3261e }"
    print ".grid { stroke: #dde1e6 }"
    print ".frame { stroke: #848d97 }"
    print ".limit { stroke: #57606a }"
    print ".engine { stroke: #0a66c2 }"
    print ".together { stroke: #1f2328 }"
    print ".overrun { stroke: #f5c0bb }"
    print ".crossing { stroke: #b3261e }"
}

# On paper the ink is dark, whatever the screen prefers.
function style_dark() {
    print "@media screen and (prefers-color-scheme: dark) {"
    print ":root { background: #0f1419 }"
    print ".paper { fill: #0f1419 }"
    print ".label, .name, .ms { fill: #e6e9ed }"
    print ".ticks { fill: #9da7b1 }"
    print ".holds { fill: #6fdc8c }"
    print ".fails { fill: #ff8a80 }"
    print ".grid { stroke: #2a3139 }"
    print ".frame { stroke: #6b7580 }"
    print ".limit { stroke: #9da7b1 }"
    print ".engine { stroke: #5aa9ff }"
    print ".together { stroke: #e6e9ed }"
    print ".overrun { stroke: #6b2a27 }"
    print ".crossing { stroke: #ff8a80 }"
    print "}"
}

function write(class, anchor, x, y, text) {
    print "<text class=\"" class "\" text-anchor=\"" anchor "\" x=\"" x "\" y=\"" y "\">" text "</text>"
}

# Places are in units of the letters' size, since letters are larger where the window is small.
function legend_entry(class, place, text) {
    print "<line class=\"" class "\" x1=\"" place "em\" x2=\"" place + 2 "em\" y1=\"59\" y2=\"59\"/>"
    write("name", "start", place + 2.5 "em", 64, text)
}

function headings() {
    print "<text class=\"label\" x=\"20\" y=\"36\" xml:space=\"preserve\">" label "</text>"
    print "<g transform=\"translate(20 0)\">"
    legend_entry("engine", 0, "engine")
    if (fixed) legend_entry("together", 7.7, "engine and fixed tasks")
    legend_entry("limit", fixed ? 23.3 : 7.7, "demand = interval")
    print "</g>"
    write("ms", "start", 20, 95, "demand, ms")
    write("ticks", "end", 700, 95, "demand, ticks")
    if (cut_off) write("name", "middle", left + width / 2, 95, "cut off, reaches " whole(engine + fixed) " ticks")
    write("ms", "end", left - 18, bottom + 23, "ms")
    write("ticks", "end", left - 18, bottom + 44, "ticks")
    write("name", "middle", left + width / 2, bottom + 69, "interval")
}

function numbers_across(    interval) {
    for (interval = 0; interval <= interval_reach; interval += spacing(interval_reach)) {
        write("ms", "middle", across(interval), bottom + 23, milliseconds(interval))
        write("ticks", "middle", across(interval), bottom + 44, whole(interval))
    }
}

function numbers_up(    demand) {
    for (demand = 0; demand <= demand_reach; demand += spacing(demand_reach)) {
        write("ms", "end", left - 10, up(demand) + 5, milliseconds(demand))
        write("ticks", "start", right + 10, up(demand) + 5, whole(demand))
    }
}

function draw(class, path) { print "<path class=\"" class "\" d=\"" path "\"/>" }

# Inside the plot all is in ticks, so that every step is exact, and an inner picture scales them. Its edges do not cut lines in half.
function plot(    across_all, up_all) {
    across_all = whole(interval_reach)
    up_all = whole(demand_reach)
    printf "<svg x=\"%s\" y=\"%s\" width=\"%s\" height=\"%s\"", left, top, width, height
    print " viewBox=\"0 -" up_all " " across_all " " up_all "\" preserveAspectRatio=\"none\" overflow=\"visible\">"
    print "<g transform=\"scale(1 -1)\">"
    grid(across_all, up_all)
    draw("frame", "M0 0h" across_all "v" up_all "h-" across_all "z")
    if (overrun) draw("overrun", "M" whole(overrun) " 0v" up_all)
    draw("limit", "M0 0l" across_all " " across_all)
    if (fixed) staircase("together", together_rise)
    staircase("engine", engine_rise)
    print "</g>"
    print "</svg>"
}

function grid(across_all, up_all,    interval, demand) {
    for (interval = 0; interval <= interval_reach; interval += spacing(interval_reach)) draw("grid", "M" whole(interval) " 0v" up_all)
    for (demand = 0; demand <= demand_reach; demand += spacing(demand_reach)) draw("grid", "M0 " whole(demand) "h" across_all)
}

# Demand never falls, so a staircase that leaves the plot is not seen again and ends there.
function staircase(class, rise,    interval, last, room) {
    print "<path class=\"" class "\" d=\"M0 0"
    last = 0
    room = demand_reach
    for (interval = 0; interval <= horizon && room >= 0; interval++) {
        if (!(interval in rise)) continue
        printf "h%.0fv%.0f\n", interval - last, smaller(rise[interval], room)
        room -= rise[interval]
        last = interval
    }
    if (room >= 0) print "h" whole(horizon - last)
    print "\"/>"
}

# The words stand above the plot, where no line crosses them, and reach to the side that has room.
function say_verdict(    anchor) {
    if (!overrun) {
        write("holds", "end", right, top - 11, verdict)
        return
    }
    anchor = 3 * overrun < horizon ? "start" : 3 * overrun > 2 * horizon ? "end" : "middle"
    write("fails", anchor, across(overrun), top - 11, verdict)
    print "<circle class=\"crossing\" cx=\"" across(overrun) "\" cy=\"" up(overrun) "\" r=\"6\"/>"
}
