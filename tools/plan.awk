# How long it takes yet to prove the crates of the program:
#   awk -v now=S -v lanes=N -v pace=P -f tools/plan.awk docs/gate.md crates.txt [EVENTS]
# where S seconds have gone, N crates are proved side by side, and a minute of docs/gate.md is taken for P minutes before anything is
# measured; with -v apart=1 no crate waits for another. EVENTS has a line `begun CRATE SECOND`, `ended CRATE SECOND` or `kept CRATE
# SECOND` for each that happened. It prints how many crates there are, how many of them have ended, and about how many minutes are
# left: docs/gate.md says how crates compare, and what a minute of it takes is measured, by the crates that ended and by those that run
# for longer than they should.

# A row of the table: crate | proofs | tests | edits.
FILENAME ~ /gate\.md$/ {
    if (split($0, cell, "|") > 4 && cell[3] + 0 > 0) {
        gsub(/[` ]/, "", cell[2])
        minutes[cell[2]] = cell[3] + 0
    }
    next
}

$1 == "begun" { begun[$2] = $3; next }
$1 == "ended" { ended[$2] = $3; next }
$1 == "kept" { kept[$2] = 1; next }

{ sub(/#.*/, "") }

/:/ {
    split($0, side, ":")
    split(side[1], word, " ")
    needs[word[1]] = side[2]
}

# A crate without a row is as long as most are.
function cost(name) {
    return (name in minutes) ? minutes[name] : 1
}

# Lists the crate after all that it needs.
function list(name,    dep, n, i) {
    if (name in listed) return
    listed[name] = 1
    n = split(needs[name], dep, " ")
    for (i = 1; i <= n; i++) if (dep[i] in needs) list(dep[i])
    crate[++crates] = name
}

# How much is made of what was measured at a second: half as much for each quarter of the time that went since.
function weight(second) {
    return exp(-log(2) * (now - second) / (now / 4 + 60))
}

# What a minute of the table takes here. Two such minutes as they were guessed are counted in, so that the first crates don't decide
# alone.
function measure(    i, name, part, took, stood) {
    stood = 2 * weight(0)
    took = stood * pace
    for (i = 1; i <= crates; i++) {
        name = crate[i]
        if ((name in ended) && (name in begun)) {
            part = weight(ended[name])
            took += part * (ended[name] - begun[name]) / 60
            stood += part * cost(name)
        }
    }
    for (i = 1; i <= crates; i++) {
        name = crate[i]
        if ((name in begun) && !(name in done) && now - begun[name] > 60 * cost(name) * took / stood) {
            took += (now - begun[name]) / 60
            stood += cost(name)
        }
    }
    return took / stood
}

# The minutes from the crate's beginning to that of the end of all, if nothing waits but for what it needs.
function find_chains(    dep, n, i, j) {
    for (i = crates; i >= 1; i--) {
        behind[crate[i]] += cost(crate[i])
        if (apart) continue
        n = split(needs[crate[i]], dep, " ")
        for (j = 1; j <= n; j++) if (behind[dep[j]] + 0 < behind[crate[i]]) behind[dep[j]] = behind[crate[i]]
    }
}

function is_ready(name,    dep, n, i) {
    if ((name in done) || (name in left)) return 0
    if (apart) return 1
    n = split(needs[name], dep, " ")
    for (i = 1; i <= n; i++) if ((dep[i] in needs) && !(dep[i] in done)) return 0
    return 1
}

# Begins those that are ready, the longest chain first, as `rt ci` does: where fewer are ready than there are lanes, one gets several,
# which brings little.
function fill(    i, name, best, ready, lanes_of) {
    for (;;) {
        best = ""
        ready = 0
        for (i = 1; i <= crates; i++) {
            name = crate[i]
            if (!is_ready(name)) continue
            ready++
            if (best == "" || behind[name] > behind[best]) best = name
        }
        if (best == "" || idle < 1) return
        lanes_of = int(idle / ready)
        if (lanes_of > 4) lanes_of = 4
        if (lanes_of < 1) lanes_of = 1
        held[best] = lanes_of
        left[best] = cost(best) * speed / (1 + (lanes_of - 1) / 18)
        idle -= lanes_of
    }
}

# Goes on to the next end of a crate, and gives the minutes up to it, or -1 where none runs.
function go_on(    name, first, step) {
    first = ""
    for (name in left) if (first == "" || left[name] < left[first]) first = name
    if (first == "") return -1
    step = left[first]
    for (name in left) left[name] -= step
    idle += held[first]
    delete left[first]
    done[first] = 1
    return step
}

END {
    if (!pace) pace = 1
    list("stab_cli")
    for (i = 1; i <= crates; i++) {
        name = crate[i]
        if ((name in ended) || (name in kept)) done[name] = 1
        if (name in done) count++
    }
    speed = measure()
    find_chains()
    idle = lanes
    for (i = 1; i <= crates; i++) {
        name = crate[i]
        if (!(name in begun) || (name in done)) continue
        left[name] = cost(name) * speed - (now - begun[name]) / 60
        if (left[name] < cost(name) * speed / 10) left[name] = cost(name) * speed / 10
        held[name] = 1
        idle--
    }
    # At first the sources of all are read, and at the end the program runs once.
    whole = count < crates ? 0.3 : 0
    for (fill(); (step = go_on()) >= 0; fill()) whole += step
    print crates, count + 0, int(whole + 1)
}
