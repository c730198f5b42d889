# This part of ./picture follows the events: which threads there are, what a read got, and what an undo took back.

function follow(e,    k) {
    k = kind[e]
    has[k] = 1
    if (k == "release") return
    see(one[e], e)
    if (k == "spawn" || k == "comm") {
        see(two[e], e)
    } else if (k == "newref" || k == "set") {
        write_at[two[e], ++writes[two[e]]] = e
    } else if (k == "get") {
        # What the last write gave it that is left.
        while (writes[two[e]] > 0 && struck_by[write_at[two[e], writes[two[e]]]]) writes[two[e]]--
        if (writes[two[e]] > 0) source[e] = write_at[two[e], writes[two[e]]]
        again[e] = read_last[one[e], two[e]] == source[e]
        read_last[one[e], two[e]] = source[e]
    } else if (k == "undo") {
        strike(e)
    }
}

function see(t, e) {
    if (!(t in column)) {
        column[t] = ++threads
        thread[threads] = t
        first[t] = t == 1 ? 0 : e
    }
    last[t] = e
}

# The struck steps from the entry on that depend on it, directly or through others, are those that this undo took back.
function strike(undo,    e, lost) {
    for (e = two[undo] + 0; e < undo; e++) {
        if (sign[e] != "-" || struck_by[e]) continue
        if (e == two[undo] || (one[e] in lost) || kind[e] == "comm" && (two[e] in lost) ||
            kind[e] == "get" && source[e] && struck_by[source[e]] == undo) {
            struck_by[e] = undo
            put_back(undo, one[e], e)
            lost[one[e]] = 1
            if (kind[e] == "spawn" || kind[e] == "comm") {
                put_back(undo, two[e], e)
                lost[two[e]] = 1
            }
        }
    }
}

# Notes that the undo puts the thread back to before the event, the first of its own that is taken back.
function put_back(undo, t, e) {
    if ((undo, t) in back_to) return
    back_to[undo, t] = e
    put_back_by[undo] = put_back_by[undo] " " t
    last[t] = undo
}
