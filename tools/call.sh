# Read by other scripts: calls the program $program on words, and has each status other than 0 explained by $parts/explain where
# standard error is a terminal or STAB_EXPLAIN=1. It comes back to no one.
call() {
    name=$program
    folder=${program%/*}
    case $folder in
    # A folder of such a name can't stand in PATH.
    *:*) ;;
    # By its bare name, so that the name of this folder is no word of the program.
    *) PATH=$folder:$PATH name=${program##*/} ;;
    esac
    case ${STAB_EXPLAIN-} in
    1) ;;
    '') [ -t 2 ] || exec "$name" "$@" ;;
    *) exec "$name" "$@" ;;
    esac
    # Standard output is the program's own as it comes; what it says on standard error is kept until it has ended.
    (exec 3>&1) 2>/dev/null || exec "$name" "$@"
    exec 3>&1
    said=$("$name" "$@" 2>&1 >&3 3>&-; echo ".$?")
    exec 3>&-
    status=${said##*.}
    said=${said%.*}
    printf %s "$said" >&2
    case $status in
    [1-9] | 1[0-35-7]) "$parts/explain" "$said" "$@" >&2 ;;
    esac
    exit "$status"
}
