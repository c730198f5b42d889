# Takes the transcripts out of a document: awk -v room=FOLDER -f blocks.awk DOCUMENT. The N-th that calls ./stab or ./picture comes
# to FOLDER/N.sh, which runs its commands: the K-th writes N.K.got, where N.K.want is what the document has, and N.K.at where.

/^```/ {
    if (is_open && calls) write_block()
    is_open = !is_open
    commands = 0
    calls = 0
    explains = 0
    next
}
!is_open { next }
/^\$ / {
    command[++commands] = substr($0, 3)
    at[commands] = FILENAME ":" FNR ": " $0
    lines[commands] = 0
    if ($0 ~ /\.\/(stab|picture)( |$)/) calls = 1
    next
}
commands {
    if (before ~ /^stab: (Bad|File|Held|No|Sink|Spent|TooBig|Untyped)/ && lines[commands] && $0 ~ /: [a-z`0-9]/) explains = 1
    before = line[commands, ++lines[commands]] = $0
}

function write_block(    k, i, name, script) {
    name = room "/" ++blocks
    script = name ".sh"
    print (explains ? "STAB_EXPLAIN=1; export STAB_EXPLAIN" : "") >script
    for (k = 1; k <= commands; k++) {
        if (is_left_out(command[k])) continue
        kept++
        printf "" >(name "." kept ".want")
        for (i = 1; i <= lines[k]; i++) print line[k, i] >(name "." kept ".want")
        print at[k] >(name "." kept ".at")
        close(name "." kept ".want")
        close(name "." kept ".at")
        if (command[k] ~ /^cat [A-Za-z0-9_.\/-]+$/) write_file(substr(command[k], 5), script)
        print "{ " command[k] "\n} >\"$block." kept ".got\" 2>&1" >script
    }
    close(script)
    kept = 0
}

# ./try takes a minute, and the others work on the repository.
function is_left_out(text) {
    return text ~ /(^|[ ;&|])(\.\/try|\.ci\/run|rt|git)( |$)/
}

# The document's own text of a file, unless the file is there from elsewhere.
function write_file(file, script) {
    print "if ! [ -e " file " ] || grep -qxF " file " .made 2>/dev/null; then cat \"$block." kept ".want\" >" file "; echo " file " >>.made; fi" >script
}
