#!/bin/sh
# Runs the installed program `stab` on the words given, which the text that it is of was proved for. It explains a refusal where standard
# error is a terminal or STAB_EXPLAIN=1. `--help` and `--version` it answers itself.
pages=$(dirname -- "$(dirname -- "$(readlink -f -- "$0")")")
parts=$pages/lib/stab
program=$parts/stab_cli
# shellcheck source=tools/help.sh
. "$parts/help.sh"
# shellcheck source=tools/call.sh
. "$parts/call.sh"
if asks_help "$@"; then
    tell_help
elif asks_version "$@"; then
    cat "$parts/about"
else
    call "$@"
fi
