# Prints the lines of crates.txt of a crate and of all that it needs, lowest first: awk -v wanted=CRATE -f tools/below.awk crates.txt

{ sub(/[ \t]*#.*/, "") }

/:/ {
    split($0, side, ":")
    split(side[1], word, " ")
    line[word[1]] = $0
    needs[word[1]] = side[2]
}

function list(name,    dep, n, i) {
    if (name in listed) return
    listed[name] = 1
    n = split(needs[name], dep, " ")
    for (i = 1; i <= n; i++) if (dep[i] in needs) list(dep[i])
    print line[name]
}

END { if (wanted in needs) list(wanted) }
