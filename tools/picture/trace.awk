# Draws the journal of a trace (docs/trace.md) as SVG 1.1, a space-time diagram, for ./picture. This part reads the trace.

BEGIN {
    ID = "4000000000"; COUNT = "4294967295"; LONG = "18446744073709551615"
    # The numbers of each word: t a thread, o another one, c a channel or reference, n a count, g a count that may be 0, i a number
    # with a sign, m an event.
    numbers["local"] = "tn"; numbers["spawn"] = "to"; numbers["newchan"] = "tc"; numbers["newref"] = "tc"
    numbers["comm"] = "toc"; numbers["get"] = "tc"; numbers["set"] = "tc"; numbers["enter"] = "t"; numbers["cut"] = "t"
    numbers["pin"] = "t"; numbers["print"] = "t"; numbers["probe"] = "ti"; numbers["attempt"] = "tg"; numbers["refuse"] = "t"
    numbers["undo"] = "tm"; numbers["release"] = "n"
}

# A line is read when the next one has come: the last one has the dot alone that ./picture adds.
NR > 1 && !refused { read_line(line) }
{ line = $0 }

END {
    if (!refused && !has_end) refuse("NoEnd", "")
    if (!refused && line != ".") refuse("BadLine", place)
    if (refused) exit 1
    for (e = 1; e <= events; e++) follow(e)
    measure()
    for (e = 1; e <= events; e++) draw(e)
    write_out()
}

function refuse(fault, at) {
    refused = 1
    print "picture: BadTrace " fault (at == "" ? "" : " " at) | "cat >&2"
}

function read_line(text,    at, n, word, i) {
    at = place + 0
    place += length(text) + 1
    if (NR == 2) {
        version = text == "stab trace 2" ? 2 : 1
        if (version == 1 && text != "stab trace 1") refuse("BadLine", at)
        return
    }
    n = split(text, word, / /)
    for (i = 1; i <= n; i++) if (word[i] == "") n = 0
    if (has_end || n == 0) refuse("BadLine", at)
    else if (n == 2 && word[1] == "end") read_end(word[2], at)
    else if (!is_event(word, n)) refuse("BadLine", at)
    else if (!has_numbers(word)) refuse("BadNumber", at)
    else if (word[2] != events + 1 || word[4] == "undo" && word[6] + 0 >= word[2] + 0) refuse("OutOfOrder", at)
    else keep(word)
}

function read_end(count, at) {
    if (!is_number(count, 0, LONG)) refuse("BadNumber", at)
    else if (count != events + 0) refuse("OutOfOrder", at)
    has_end = 1
}

function is_event(word, n) {
    if (n < 5 || word[3] !~ /^w./ || !(word[4] in numbers) || n != 4 + length(numbers[word[4]])) return 0
    if (word[4] == "undo") return word[1] == "!"
    if (word[4] == "release") return word[1] == "=" && version == 2
    return word[1] == "+" || word[1] == "-"
}

function has_numbers(word,    i, what) {
    if (!is_number(word[2], 1, LONG) || !is_number(substr(word[3], 2), 1, "64")) return 0
    for (i = 1; i <= length(numbers[word[4]]); i++) {
        what = substr(numbers[word[4]], i, 1)
        if (what == "i" ? !is_signed(word[4 + i]) : !is_number(word[4 + i], what == "g" ? 0 : 1,
            what == "n" || what == "g" ? COUNT : what == "m" ? LONG : ID)) return 0
    }
    return 1
}

# Numbers of more digits than awk keeps are compared as texts.
function is_number(text, least, most) {
    return text ~ /^(0|[1-9][0-9]*)$/ && text + 0 >= least &&
        (length(text) < length(most) || length(text) == length(most) && (text "") <= (most ""))
}

function is_signed(text) {
    if (text ~ /^-/) return text != "-0" && is_number(substr(text, 2), 0, "9223372036854775808")
    return is_number(text, 0, "9223372036854775807")
}

function keep(word) {
    events++
    sign[events] = word[1]
    worker[events] = substr(word[3], 2)
    kind[events] = word[4]
    one[events] = word[5]
    two[events] = word[6]
    three[events] = word[7]
}
