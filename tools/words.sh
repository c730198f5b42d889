# Read by other scripts: what each of the program's words is, as docs/words.md has it.

# Prints a line for each word: program, trace, script, image or probes for the name of such a file, probes= for --probes=FILE,
# and other for the rest.
word_kinds() {
    command=$1 number=0 place=0 ended='' value_of=''
    for word in "$@"; do
        number=$((number + 1))
        kind=other
        case $ended$word in
        ended* | [!-]* | '')
            if [ "$number" -gt 1 ] && [ -n "$value_of" ]; then
                [ "$value_of" = --probes ] && kind=probes
                value_of=
            elif [ "$number" -gt 1 ]; then
                place=$((place + 1))
                kind=$(place_kind "$command" "$place")
            fi
            ;;
        --) ended=ended value_of= ;;
        --probes=*) kind='probes=' value_of= ;;
        --probes | --workers | --fuel | --quantum) value_of=$word ;;
        *) value_of= ;;
        esac
        echo "$kind"
    done
}

# What stands in a command's place.
place_kind() {
    case $1,$2 in
    run,1 | trace,1 | watch,1 | serve,1 | check,1 | types,1 | verify,1 | drill,1 | save,1) echo program ;;
    verify,2 | save,2) echo trace ;;
    drill,2) echo script ;;
    resume,1) echo image ;;
    *) echo other ;;
    esac
}
