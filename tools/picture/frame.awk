# This part of ./picture draws the legend and the threads, and writes all.

function legend() {
    legend_entry("thread", "a thread, from its start on")
    legend_entry("local", "pure steps")
    legend_entry("spawn", "a thread is started")
    legend_entry("comm", "a message, from sender to receiver")
    legend_entry("newchan", "a channel is made")
    legend_entry("newref", "a reference is made")
    legend_entry("set", "a reference is written")
    legend_entry("get", "a reference is read, with its last write")
    legend_entry("enter", "a section is entered (not where it ends)")
    legend_entry("undo", "an undo: in grey what it took back")
    legend_entry("refuse", "a stabilize that was refused")
    legend_entry("probe", "a number from outside")
    legend_entry("attempt", "how often it was put back")
    legend_entry("print", "a value is printed")
    legend_entry("release", "printed values are handed out")
    legend_entry("cut", "a cut: all above is final")
    legend_entry("pin", "a pin: above the line is final")
    return entries
}

function legend_entry(k, text,    at_x, at_y) {
    if (k != "thread" && !(k in has) || is_thin && k == "local") return
    at_x = 30 + 330 * (entries % 2)
    at_y = 62 + 18 * int(entries / 2)
    entries++
    if (k == "thread") put("legend", line_of("thread", at_x, at_y - 8, at_x, at_y + 8))
    if (k == "enter") put("legend", rectangle("section", at_x - 4.5, at_y - 4, 9, 14))
    if (k == "undo") {
        put("legend", rectangle("box", at_x - 9, at_y - 9, 18, 16, attribute("rx", 3)))
        put("legend", path_of("back to", "M" at_x - 9 " " at_y + 7 "v-14"))
    }
    if (k == "spawn" || k == "comm" || k == "get") put("legend", line_of(k " to", at_x - 14, at_y, at_x + 9, at_y))
    if (k == "cut") put("legend", line_of(k, at_x - 16, at_y, at_x + 16, at_y))
    if (k == "pin") put("legend", line_of(k, at_x - 16, at_y + 6, at_x + 16, at_y + 6))
    if (k != "thread") put("legend", mark(k, "", at_x + (k == "spawn" || k == "comm" ? -12 : k == "get" ? 12 : 0), at_y, 4))
    put("legend", text_of("word", at_x + 26, at_y, text))
}

function draw_threads(    i, t, low) {
    for (i = 1; i <= threads; i++) {
        t = thread[i]
        put("guides", line_of("guide", across(t), top, across(t), bottom))
        if (gap > 24 || t == 1 || i % 5 == 0) put("words", text_of("head", across(t), top - 16, (gap > 70 ? "thread " : "") t))
        low = down(last[t]) + (kind[last[t]] == "undo" ? 0 : height / 2)
        put("threads", line_of("thread", across(t), first[t] ? down(first[t]) : top - 6, across(t), low))
    }
}

function heading(    undos, gone, e) {
    for (e = 1; e <= events; e++) {
        undos += kind[e] == "undo"
        gone += sign[e] == "-"
    }
    return events + 0 (events == 1 ? " event" : " events") " of " threads + 0 (threads == 1 ? " thread" : " threads") \
        (undos ? ", " gone " taken back by " undos (undos == 1 ? " undo" : " undos") : "")
}

function write_out(    names, n, i, k) {
    bottom = top + rows * height
    draw_threads()
    print "<?xml version=\"1.0\" encoding=\"UTF-8\"?>"
    print "<svg xmlns=\"http://www.w3.org/2000/svg\" version=\"1.1\"" attribute("width", width) attribute("height", bottom + 20) \
        attribute("viewBox", "0 0 " width " " bottom + 20) ">"
    print "<title>" heading() "</title>"
    write_style()
    print "<rect width=\"100%\" height=\"100%\" fill=\"#fff\"/>"
    if (!is_thin) for (i = 2; i <= rows; i += 2)
        print rectangle("band", 20, top + (i - 1) * height, width - 40, height)
    print text_of("heading", 20, 26, heading())
    n = split("legend guides boxes sections threads reads final back acts marks words", names, " ")
    for (i = 1; i <= n; i++) {
        print "<g>"
        for (k = 1; k <= pieces[names[i]]; k++) print piece[names[i], k]
        print "</g>"
    }
    print "</svg>"
}

function write_style() {
    print "<defs>"
    print "<linearGradient id=\"fade\" x1=\"0\" y1=\"0\" x2=\"0\" y2=\"1\">"
    print "<stop offset=\"0\" stop-color=\"#fab005\" stop-opacity=\"0.7\"/>"
    print "<stop offset=\"1\" stop-color=\"#fab005\" stop-opacity=\"0\"/></linearGradient>"
    write_arrow("spawn", "#495057")
    write_arrow("comm", "#1c6dd0")
    write_arrow("get", "#2b8a3e")
    write_arrow("back", "#d9480f")
    write_arrow("x", "#98a2ab")
    print "</defs>"
    print "<style type=\"text/css\">"
    print "text{font-family:'DejaVu Sans',Verdana,Arial,sans-serif;font-size:" (height < 20 ? 10 : 12) "px;fill:#343a40}"
    print ".heading{font-size:15px;font-weight:bold}.head{text-anchor:middle;font-weight:bold}"
    print ".number{text-anchor:end;fill:#868e96}.told{font-weight:bold}"
    print ".band{fill:#f8f9fa}.guide{stroke:#e9ecef}.thread{stroke:#868e96;stroke-width:" (gap > 24 ? 2 : 1) "}"
    print ".box{fill:#dee2e6;fill-opacity:0.8}"
    print ".section{fill:url(#fade)}.section.x{fill:#fab005;fill-opacity:0.35}"
    print ".spawn,.comm,.get,.back,.undone,.cut,.pin{fill:none;stroke-width:" (is_thin ? 0.8 : 1.5) "}"
    print ".spawn{stroke:#495057}.spawn.to{marker-end:url(#spawn)}"
    print ".comm{stroke:#1c6dd0}.comm.to{marker-end:url(#comm)}"
    print ".get{stroke:#2b8a3e;stroke-dasharray:3 2;stroke-width:1}.get.to{marker-end:url(#get)}"
    print ".back{stroke:#d9480f}.back.to{marker-end:url(#back)}.undone{stroke:#d9480f;stroke-dasharray:5 3}"
    print ".cut{stroke:#c2255c}.pin{stroke:#7048e8;stroke-dasharray:7 3}"
    print ".local-mark{fill:#868e96}.spawn-mark{fill:#495057}.comm-mark{fill:#1c6dd0}.set-mark{fill:#2b8a3e}"
    print ".newchan-mark{fill:#fff;stroke:#1c6dd0;stroke-width:1.5}"
    print ".newref-mark,.get-mark{fill:#fff;stroke:#2b8a3e;stroke-width:1.5}"
    print ".probe-mark{fill:#ff922b}.attempt-mark{fill:#fff;stroke:#ff922b;stroke-width:2}"
    print ".enter-mark{fill:#fab005;stroke:#e67700}.undo-mark{fill:#d9480f}.refuse-mark{fill:none;stroke:#e03131;stroke-width:2}"
    print ".print-mark,.release-mark{fill:#0b7285}.cut-mark{fill:#c2255c}.pin-mark{fill:#7048e8}"
    # What was taken back is grey.
    print ".number.x,.gone{fill:#98a2ab}.gone{text-decoration:line-through}"
    print ".spawn.x,.comm.x,.get.x,.cut.x,.pin.x{stroke:#98a2ab}.spawn.x.to,.comm.x.to,.get.x.to{marker-end:url(#x)}"
    print ".local-mark.x,.spawn-mark.x,.comm-mark.x,.set-mark.x,.print-mark.x,.probe-mark.x{fill:#98a2ab}"
    print ".cut-mark.x,.pin-mark.x,.enter-mark.x{fill:#98a2ab}"
    print ".enter-mark.x,.newchan-mark.x,.newref-mark.x,.get-mark.x,.attempt-mark.x,.refuse-mark.x{stroke:#98a2ab}"
    print "</style>"
}

function write_arrow(name, colour,    side) {
    side = is_thin ? 4 : 8
    print "<marker" attribute("id", name) " viewBox=\"0 0 8 8\" refX=\"7\" refY=\"4\"" attribute("markerWidth", side) \
        attribute("markerHeight", side) " markerUnits=\"userSpaceOnUse\" orient=\"auto\">"
    print "<path d=\"M0 0.5L8 4L0 7.5z\"" attribute("fill", colour) "/></marker>"
}
