# Read by other scripts, behind tools/built.sh: proves the crates of the program and builds it, of the clone in $top. It does it in a
# copy of their sources outside of the clone, by `rt ci` there, so it proves as the gate does: from nothing, the longest chain first,
# the libraries as statements. The copy has neither the other crates nor the edits. What rt ci proved it keeps, and it isn't proved
# again by the next build or gate on this machine; with STAB_ANEW=1 all is. Where $statements is a folder of statements that were
# handed on, it is tools/apart that proves, each crate over these; where $keep is a folder, the statements that were made come there.

say() { echo "stab: $*" >&2; }

minutes() { if [ "$1" -eq 1 ]; then echo 'a minute'; else echo "$1 minutes"; fi; }

# How many crates rt ci proves side by side here: one for each processor, as far as memory goes.
side_by_side() {
    cores=$(nproc 2>/dev/null || echo 1)
    rooms=$(awk '/^MemAvailable:/ { print int($2 / 3145728) }' /proc/meminfo 2>/dev/null)
    [ "${rooms:-$cores}" -lt "$cores" ] && cores=$rooms
    [ "$cores" -ge 1 ] && echo "$cores" || echo 1
}

# How much longer a check takes here before anything is measured, by how many other processes want a processor.
guess() {
    LC_ALL=C awk -v lanes="$lanes" -v cores="$(nproc 2>/dev/null || echo 1)" \
        '{ print (lanes + $1 > cores) ? (lanes + $1) / cores : 1 }' /proc/loadavg 2>/dev/null || echo 1
}

# Sets how many crates there are, how many have ended, and how many minutes are left.
plan() {
    # shellcheck disable=SC2046 # three numbers
    set -- $(LC_ALL=C awk -v now="$(seconds)" -v lanes="$lanes" -v pace="$pace" -v apart="${statements:+1}" \
        -f "$top/tools/plan.awk" "$top/docs/gate.md" "$top/crates.txt" "$room/events")
    crates=$1 done=$2 left=$3
}

seconds() { echo $(($(date +%s) - start)); }

# Says what will take how long.
announce() {
    plan
    if [ -n "${statements-}" ]; then
        say "$crates crates are proved over these statements, $lanes at a time, which takes about $(minutes "$left")"
    elif [ -n "${keep-}" ]; then
        say "the statements of $crates crates are made, $lanes at a time: what wasn't proved on this machine before is proved"
    elif [ -e "$program" ]; then
        say "the program isn't of this text and kit: what changed in its $crates crates is proved again"
    else
        say "the program isn't built yet: $crates crates are proved first, $lanes at a time, which takes about $(minutes "$left"), once"
    fi
}

# Waits until no other call builds here. It fails where that call built the program.
take_turn() {
    exec 9>>"$top/out/building" || stop 125
    flock -n 9 && return
    say "another call proves and builds the program: waiting for it to end"
    flock 9
    [ -n "${keep-}${statements-}" ] || ! is_built
}

# A folder for the build, which is removed as it ends. One that a killed call left is removed first.
make_room() {
    room=$(cat "$top/out/room" 2>/dev/null)
    case $room in
    */stab-build-*) rm -rf -- "$room" ;;
    esac
    kept=${TMPDIR:-/var/tmp}
    [ -d "$kept" ] || kept=/tmp
    room=$(mktemp -d "$kept/stab-build-XXXXXX") || stop 125
    echo "$room" >"$top/out/room"
    copy=$room/copy
    : >"$room/events"
    : >"$room/log"
}

# Copies the crates of the program as they stand now, and takes the sum of the copy. rt ci wants to be at the top of a repository.
copy_sources() {
    touch "$room/begun"
    mkdir -p "$copy/.git"
    program_crates "$top/crates.txt" >"$copy/crates.txt"
    if ! (cd "$top" && program_parts) | while IFS= read -r part; do
        mkdir -p "$(dirname -- "$copy/$part")" && cp -R -- "$top/$part" "$copy/$part" || exit 1
    done; then
        say "the sources couldn't be copied to $copy"
        stop 125
    fi
    text=$(text_sum "$copy")
}

# Starts rt ci over the copy, or tools/apart, with what it says in the log.
start_proving() {
    if [ -n "${statements-}" ]; then
        set -- "$top/tools/apart" "$statements"
    else
        set -- rt ci ${STAB_ANEW:+--anew}
    fi
    : >"$room/log"
    (cd "$copy" && exec "$@") >"$room/log" 2>&1 </dev/null &
    child=$!
}

# Notes which crates have begun: rt ci makes their out/ then.
note_begun() {
    for made in "$copy"/crates/*/out; do
        name=${made%/out}
        name=${name##*/}
        case $begun in
        *" $name "*) ;;
        *)
            [ -e "$made" ] || continue
            begun="$begun$name "
            echo "begun $name $(seconds)" >>"$room/events"
            ;;
        esac
    done
}

# Says how many were found proved, where there are more of them than it said.
tell_found() {
    [ "$found" -gt "$told" ] || return
    told=$found
    last=$(seconds)
    plan
    say "$found of $crates were proved on this machine before; about $(minutes "$left") left"
}

# Notes what a line of rt ci says.
note_line() {
    name=${1#rt: }
    name=${name%% *}
    case $1 in
    'rt: '*' NOT PROVED: its library '*) ;;
    'rt: '*' NOT PROVED') failed=$name ;;
    'rt: the check was killed'*)
        tell_found
        say "a check was killed, most likely for memory: it is tried once more"
        ;;
    'rt: '*' proved')
        tell_found
        echo "ended $name $(seconds)" >>"$room/events"
        plan
        last=$(seconds)
        say "$done of $crates, $name; about $(minutes "$left") left"
        ;;
    'rt: '*' is kept: '*)
        echo "kept $name $(seconds)" >>"$room/events"
        found=$((found + 1))
        ;;
    'rt: waiting for '* | 'rt: note: '* | *'; waiting for it') say "${1#rt: }" ;;
    esac
}

# Says every three minutes in which nothing ended at what rt ci works.
tell_work() {
    [ $(($(seconds) - last)) -ge 180 ] || return
    last=$(seconds)
    plan
    work=$(awk '
        $1 == "begun" { at[$2] = 1; next }
        { delete at[$2] }
        END { for (name in at) printf "%s%s", (n++ ? ", " : ""), name }' "$room/events")
    [ -z "$work" ] || say "at work on $work; about $(minutes "$left") left"
}

# Follows the log until rt ci has ended or has refused a crate, but for one whose check was killed.
follow() {
    begun=' ' failed='' found=0 before=0 told=0 last=$(seconds) line=''
    exec 4<"$room/log"
    while :; do
        if kill -0 "$child" 2>/dev/null; then runs=yes; else runs=''; fi
        note_begun
        while IFS= read -r more <&4 || { line=$line$more && false; }; do
            note_line "$line$more"
            line=''
        done
        # Once no more of them come.
        if [ -z "$runs" ] || [ "$found" -eq "$before" ]; then tell_found; fi
        before=$found
        tell_work
        if [ -z "$runs" ] || { [ -n "$failed" ] && ! was_killed; }; then break; fi
        sleep 1
    done
    exec 4<&-
}

# Whether a check was killed.
was_killed() { grep -q '^rt: the check was killed' "$room/log"; }

# Waits for rt ci, and gives its status.
ended() {
    wait "$child" 2>/dev/null
    set -- $?
    child=''
    return "$1"
}

# Shows what was said of the crate that wasn't proved; where none is named, what rt itself says.
show_failed() {
    if [ -n "$failed" ]; then
        awk -v head="== $failed" -v foot="rt: $failed NOT PROVED" '
            $0 == head { on = shown = 1 }
            on { print }
            $0 == foot { on = 0 }
            !on && !shown { before = before $0 "\n" }
            END { if (!shown) printf "%s", before }' "$room/log" >&2
        say "$failed was not proved, so the program was not built"
    else
        grep -v '^rt: .* is kept: \|^rt: .* proved$' "$room/log" | grep '^rt: \|^Traceback\|^[0-9]* passed' >&2
        say "the program was not built"
    fi
}

# Proves all, and once more, one crate after the other, where a check was killed.
prove() {
    start_proving
    [ "$lanes" -eq 1 ] || first_look "$@"
    follow
    [ -z "$failed" ] || was_killed || kill "$child" 2>/dev/null
    ended && return
    if was_killed && [ -z "${RT_JOBS-}" ]; then
        say "memory is short, so the other crates are proved in turn"
        lanes=1
        RT_JOBS=1
        export RT_JOBS
        : >"$room/events"
        rm -rf -- "$copy"/crates/*/out
        start_proving
        follow
        [ -z "$failed" ] || kill "$child" 2>/dev/null
        ended && return
    fi
    show_failed
    return 1
}

# Puts the program in its place, with what it is of. It is as old as the sources that were copied.
put_program() {
    made=$copy/crates/stab_cli/out/stab_cli
    how="proved and built on this machine${statements:+, over statements that were handed on and came out the same}"
    [ -x "$made" ] || { say "rt ci left no program"; return 1; }
    mkdir -p "$top/crates/stab_cli/out" && cp -- "$made" "$program.new" && touch -r "$room/begun" "$program.new" &&
        mv -f -- "$program.new" "$program" &&
        printf '%s\n' "text $text" "kit $(rt version)" "origin $how" >"$program.of" &&
        touch -r "$room/begun" "$program" "$program.of"
}

# Keeps the statements of the libraries.
keep_statements() {
    [ -n "${keep-}" ] || return 0
    mkdir -p "$keep" && for library in "$copy"/crates/*/out/rlib/*.rlib; do
        cp -R -- "$library" "$keep" || return 1
    done
}

# Removes the folder of the build, and that of another script. What rt left running may still write there as it ends.
clean() { rm -rf -- "$room" 2>/dev/null || { sleep 1 && rm -rf -- "$room"; } && rm -rf -- "$top/out/room" ${place:+"$place"}; }

stop() {
    for process in ${child-} ${trying-}; do kill "$process" 2>/dev/null; done
    exit "$1"
}

# Proves and builds. The words are those of the first look, where first_look is more than nothing.
build() {
    command -v rt >/dev/null || { say "the command rt of the Rattle kit isn't on the PATH, so the program can't be built"; exit 125; }
    mkdir -p "$top/out" || exit 125
    child='' trying='' start=$(date +%s) lanes=$(side_by_side)
    pace=$(guess)
    take_turn || { exec 9>&-; return 0; }
    make_room
    trap clean EXIT
    trap 'stop 129' HUP
    trap 'stop 130' INT
    trap 'stop 143' TERM
    announce
    copy_sources
    [ "$lanes" -gt 1 ] || first_look "$@"
    if ! { prove "$@" && put_program && keep_statements; }; then stop 125; fi
    rm -rf -- "$room" "$top/out/room"
    trap - EXIT HUP INT TERM
    exec 9>&-
    say "the program is proved and built"
}
