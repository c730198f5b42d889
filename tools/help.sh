# Read by other scripts: what the launcher says itself, without the program. Every other word goes to the program as it is.

# Whether the words ask for the help or for the version.
asks_help() {
    case ${1-} in
    -h | --help | help) return 0 ;;
    *) return 1 ;;
    esac
}

asks_version() { [ "${1-}" = --version ]; }

# The commands in one screen, and the paths of the pages, which are in $pages.
tell_help() {
    cat <<HELP
stab runs programs whose threads can take back part of their work.

  stab run FILE                  runs a program, and writes what it printed and how its threads ended
  stab trace FILE                makes such a run, and writes its journal instead
  stab watch FILE                runs it too, and writes one more line: its fuel, its undos and its cuts
  stab serve FILE                runs it while its numbers come on standard input, and answers as they come
  stab verify FILE TRACE         says whether a trace is one of a run of the program
  stab drill FILE SCRIPT         plays a schedule of workers that is written by hand
  stab save FILE TRACE CUT       writes the image at a cut of a trace
  stab resume IMAGE              goes on from an image
  stab check FILE                reads a program, and writes how many functions and texts it has
  stab types FILE                says before a run that no thread meets a value of the wrong kind
  stab mill SIZE                 runs a generated program with SIZE sections

  --probes FILE                  the numbers for probe()
  --workers N                    how many workers run the threads, else 4
  --fuel N                       how much a run may take at most
  --quantum N                    how many steps a worker makes of a thread at a time

Where the exit status isn't 0, a line names the reason. STAB_EXPLAIN=1 explains it, as on a terminal.
HELP
    tell_pages
}

# The pages that are there.
tell_pages() {
    while read -r page what; do
        [ ! -e "$pages/$page" ] || printf '  %-28s %s\n' "$pages/$page" "$what"
    done <<PAGES
README.md what it is, and a first program
docs/tutorial.md programs step by step
docs/language.md the language
docs/words.md the commands, their words and exit statuses
share/man/man1/stab.1 the manual page: man stab
docs/stab.1 the manual page: man -l docs/stab.1
PAGES
}
