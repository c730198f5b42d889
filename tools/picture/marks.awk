# This part of ./picture draws the events.
#
# A trace of up to THIN events has a row for each of them. In a longer one pure steps have no row, rows are lower, every tenth
# event has its number, and only undos, refusals, cuts, pins and releases are told in words, where there is room: the titles of the
# marks tell the rest.

BEGIN { THIN = 300 }

function measure(    e, near) {
    is_thin = events > THIN
    for (e = 1; e <= events; e++) {
        row[e] = is_thin && kind[e] == "local" ? rows + 0 : ++rows
        if (is_told(kind[e])) for (near = -2; near <= 2; near++) near_told[row[e] + near] = 1
    }
    height = is_thin ? (rows > 1500 ? 4 : 7) : events > 60 ? 15 : 20
    gap = threads > 80 ? 10 : threads > 30 ? 18 : threads > 12 ? 32 : threads > 6 ? 60 : 84
    half = gap > 24 ? 9 : gap / 2 - 1
    size = is_thin ? 1.6 : height > 15 ? 4 : 3.2
    left = 64
    words_at = left + threads * gap + 16
    width = words_at + 264
    if (width < 700) width = 700
    legends = legend()
    top = 62 + 18 * int((legends + 1) / 2) + 34
}

function across(t) { return left + (column[t] - 0.5) * gap }
function down(e) { return top + (row[e] - 0.5) * height }

# Pieces are gathered in layers, the lowest first.
function put(layer, text) { piece[layer, ++pieces[layer]] = text }

function draw(e,    k) {
    k = kind[e]
    if (k == "undo") draw_undo(e)
    if (k == "cut") put("final", line_of("cut" grey(e), left, down(e), left + threads * gap, down(e)))
    if (k == "pin") draw_pin(e)
    if (k == "enter") draw_section(e)
    if (k == "get" && source[e]) draw_read(e)
    if (k == "spawn" || k == "comm") put("acts", line_of(k grey(e) " to", across(one[e]), down(e), beside(e), down(e)))
    if (!is_thin || k != "local") draw_mark(e)
    if (!is_thin || is_told(k) && row[e] > told_row + 1) {
        if (is_told(k)) told_row = row[e]
        draw_number(e)
        draw_words(e)
    } else if (row[e] % 10 == 0 && k != "local" && !(row[e] in near_told)) {
        draw_number(e)
    }
}

function grey(e) { return sign[e] == "-" ? " x" : "" }
function is_told(k) { return k == "undo" || k == "refuse" || k == "cut" || k == "pin" || k == "release" }

# Where an arrow to the other thread of an event ends.
function beside(e) { return across(two[e]) + (across(two[e]) > across(one[e]) ? -size - 1 : size + 1) }

function attribute(name, value) { return " " name "=\"" value "\"" }
function element(name, class, attributes) { return "<" name attribute("class", class) attributes "/>" }

function line_of(class, x1, y1, x2, y2) {
    return element("line", class, attribute("x1", x1) attribute("y1", y1) attribute("x2", x2) attribute("y2", y2))
}

function rectangle(class, x, y, width, height, more) {
    return element("rect", class, attribute("x", x) attribute("y", y) attribute("width", width) attribute("height", height) more)
}

function path_of(class, d) { return element("path", class, attribute("d", d)) }

function text_of(class, x, y, text) {
    return "<text" attribute("class", class) attribute("x", x) attribute("y", y + 4) ">" text "</text>"
}

function draw_read(e,    x1, y1, x2, y2, far) {
    x1 = across(one[source[e]]); y1 = down(source[e]); x2 = across(one[e]); y2 = down(e)
    if (again[e]) {
        # The line of the first of these reads stands for all.
        if (x1 == x2) return
        far = 16 / ((x1 < x2 ? x2 - x1 : x1 - x2) + y2 - y1)
        put("reads", line_of("get" grey(e), x2 + (x1 - x2) * far, y2 + (y1 - y2) * far, x2, y2))
    } else if (x1 == x2) {
        put("reads", path_of("get" grey(e) " to", "M" x1 " " y1 "q" gap / 3 " " (y2 - y1) / 2 " " size + 1 " " y2 - y1))
    } else {
        put("reads", line_of("get" grey(e) " to", x1, y1, x2 + (x1 < x2 ? -size - 1 : size + 1), y2))
    }
}

# A section of which a trace tells the entry alone; one that was taken back reaches down to the undo.
function draw_section(e,    f, t, low) {
    t = one[e]
    if (struck_by[e]) {
        low = down(struck_by[e])
    } else {
        low = down(last[t]) + height / 2
        for (f = e + 1; f <= last[t] && !(kind[f] == "enter" && one[f] == t); f++) ;
        if (f <= last[t]) low = down(f)
    }
    put("sections", rectangle("section" (struck_by[e] ? " x" : ""), across(t) - half / 2, down(e), half, low - down(e)))
}

# Grey behind what was taken back, and an arrow along each thread that it is in, to where the thread goes back.
function draw_undo(e,    n, t, i, at, from, to, high) {
    n = split(put_back_by[e], t, " ")
    for (i = 1; i <= n; i++) {
        high = down(back_to[e, t[i]]) - height / 2
        at = across(t[i])
        put("boxes", rectangle("box", at - half, high, 2 * half, down(e) - high, attribute("rx", 3)))
        put("back", path_of("back to", "M" at - half " " down(e) "V" high + 2))
        if (i == 1 || at < from) from = at
        if (i == 1 || at > to) to = at
    }
    if (n) put("back", line_of("undone", from - half, down(e), to + half, down(e)))
}

# The line below the steps that the pin makes final: in each thread the last one on which it depends.
function draw_pin(pin,    e, f, t, i, low, d, was) {
    low[one[pin]] = pin
    for (e = pin; e >= 1; e--) {
        if (sign[e] == "!" || sign[e] == "=" || struck_by[e] && struck_by[e] < pin) continue
        if (!(e <= low[one[e]] || (kind[e] == "comm" || kind[e] == "spawn") && e <= low[two[e]])) continue
        if (low[one[e]] < e) low[one[e]] = e
        if (kind[e] == "comm" && low[two[e]] < e) low[two[e]] = e
        if (kind[e] == "get" && source[e] && low[one[source[e]]] < source[e]) low[one[source[e]]] = source[e]
    }
    for (i = 1; i <= threads; i++) {
        t = thread[i]
        if (!low[t]) {
            was = 0
            continue
        }
        f = down(low[t]) + height / 2
        d = d (was ? "V" f : "M" across(t) - gap / 2 " " f) "H" across(t) + gap / 2
        was = 1
    }
    put("final", path_of("pin" grey(pin), d))
}

function draw_mark(e,    at) {
    at = kind[e] == "release" ? left - 8 : across(one[e])
    put("marks", "<g><title>" title(e) "</title>" mark(kind[e], grey(e), at, down(e), size) \
        (kind[e] == "comm" ? mark("comm", grey(e), across(two[e]), down(e), size * 0.7) : "") "</g>")
}

# The mark of an act, of which size is half of the height.
function mark(k, suffix, x, y, size,    class, wide) {
    class = k "-mark" suffix
    wide = size * 1.2
    if (k == "newchan" || k == "newref" || k == "print") return rectangle(class, x - size, y - size, 2 * size, 2 * size)
    if (k == "cut") return rectangle(class, x - 2 * size, y - size / 2, 4 * size, size)
    if (k == "enter") return path_of(class, "M" x - wide " " y - size "h" 2 * wide "l" (-wide) " " 2 * size "z")
    if (k == "release") return path_of(class, "M" x - wide " " y "l" wide " " (-wide) "l" wide " " wide "z")
    if (k == "undo") return path_of(class, "M" x - wide " " y "l" wide " " (-wide) "l" wide " " wide "l" (-wide) " " wide "z")
    if (k == "refuse")
        return path_of(class, "M" x - size " " y - size "l" 2 * size " " 2 * size "m0 " (-2 * size) "l" (-2 * size) " " 2 * size)
    return element("circle", class, attribute("cx", x) attribute("cy", y) attribute("r", k == "local" ? size * 0.55 : size))
}

function draw_number(e) { put("words", text_of("number" grey(e), left - 18, down(e), e)) }

function draw_words(e) {
    put("words", text_of("word" (grey(e) ? " gone" : "") (is_told(kind[e]) ? " told" : ""), words_at, down(e), words(e)))
}

function title(e) {
    return "event " e " by worker " worker[e] ": " words(e) \
        (struck_by[e] ? " (taken back by event " struck_by[e] ")" : grey(e) ? " (taken back)" : "")
}

function words(e,    k, a) {
    k = kind[e]
    a = k == "release" ? one[e] : "thread " one[e]
    if (k == "local") return a " makes " two[e] (two[e] == 1 ? " step" : " steps")
    if (k == "spawn") return a " starts thread " two[e]
    if (k == "newchan") return a " makes channel " two[e]
    if (k == "newref") return a " makes reference " two[e]
    if (k == "comm") return a " sends to " two[e] " on channel " three[e]
    if (k == "get") return a " reads reference " two[e]
    if (k == "set") return a " writes reference " two[e]
    if (k == "enter") return a " enters a section"
    if (k == "cut") return a " cuts: all above is final"
    if (k == "pin") return a " pins"
    if (k == "print") return a " prints"
    if (k == "probe") return a " probes and gets " two[e]
    if (k == "attempt") return a " was put back " (two[e] == 1 ? "once" : two[e] " times")
    if (k == "refuse") return a " may not stabilize"
    if (k == "undo") return a " stabilizes: back before " two[e]
    return a (a == 1 ? " value is" : " values are") " handed out"
}
