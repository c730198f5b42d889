# Completes the words of ./stab and ./try in bash: put `. PATH/tools/completion.bash` into ~/.bashrc. docs/words.md has the words.

_stab() {
    local word=${COMP_WORDS[COMP_CWORD]} before=${COMP_WORDS[COMP_CWORD - 1]} options='' ending=stab IFS=$'\n'
    # Bash takes the = of --probes=FILE for a word of its own.
    if [[ $word == = ]]; then
        word=''
    elif [[ $before == = ]]; then
        before=${COMP_WORDS[COMP_CWORD - 2]}
    fi
    case ${COMP_WORDS[1]} in
    run | trace | watch) options=$'--probes\n--workers\n--fuel\n--quantum' ;;
    verify | save) options='--probes' ;;
    resume) options=$'--fuel\n--quantum' ending=image ;;
    drill) options=$'--probes\n--fuel\n--quantum' ;;
    mill | serve) options=$'--workers\n--fuel\n--quantum' ;;
    esac
    # Behind the program comes a trace or a script, behind an image nothing.
    case ${COMP_WORDS[*]:2:COMP_CWORD - 2} in
    *.stab*)
        case ${COMP_WORDS[1]} in
        verify | save) ending=trace ;;
        drill) ending=script ;;
        *) ending=none ;;
        esac
        ;;
    *.image*) ending=none ;;
    esac
    COMPREPLY=()
    if [[ $COMP_CWORD -eq 1 ]]; then
        COMPREPLY=($(compgen -W $'run\ncheck\ntypes\ntrace\nwatch\nserve\nverify\ndrill\nsave\nresume\nmill\n--help\n--version' -- "$word"))
    elif [[ $before == --probes ]]; then
        COMPREPLY=($(compgen -f -- "$word"))
    elif [[ $word == -* ]]; then
        COMPREPLY=($(compgen -W "$options" -- "$word"))
    elif [[ $before != --workers && $before != --fuel && $before != --quantum && ${COMP_WORDS[1]} != mill ]]; then
        COMPREPLY=($(compgen -f -X "!*.$ending" -- "$word") $(compgen -d -- "$word"))
    fi
}

complete -o filenames -F _stab stab ./stab ./try
