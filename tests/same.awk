# Says where the first file differs from the second, and ends with 1 then: awk -f same.awk GOT WANT. A line `...` of the second
# stands for any lines.

FILENAME == ARGV[1] { got[++gots] = $0; next }
{ want[++wants] = $0 }

END {
    for (i = 1; i <= wants && want[i] != "..."; i++) if (i > gots || got[i] != want[i]) differs(i, i)
    if (i > wants) {
        if (gots > wants) differs(i, i)
        exit 0
    }
    # From the end up to the dots.
    for (back = 0; want[wants - back] != "..."; back++) {
        if (gots - back < i || got[gots - back] != want[wants - back]) differs(gots - back, wants - back)
    }
}

function differs(at, of) {
    print "line " at " is " (at <= gots && at > 0 ? "\"" got[at] "\"" : "missing") ", and not " (of <= wants ? "\"" want[of] "\"" : "expected")
    exit 1
}
