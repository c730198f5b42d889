# Read by other scripts: whether the program is built, of the clone in $top, and of which text and kit.

program=$top/crates/stab_cli/out/stab_cli

# The lines of a crates.txt of the program and of all that it needs.
program_crates() { LC_ALL=C awk -v wanted=stab_cli -f "$top/tools/below.awk" "$1"; }

# What a proof of the program rests on, in this folder, and what its stored run reads, each part on a line.
program_parts() {
    program_crates crates.txt | sed 's/[ :].*//' | while IFS= read -r name; do
        for part in src specs proofs args data stdin stdout status; do
            [ ! -e "crates/$name/$part" ] || echo "crates/$name/$part"
        done
    done
    [ ! -e HANDLES ] || echo HANDLES
}

# A sum of the text of the program in a folder. Names of files have no blanks.
text_sum() {
    (
        cd "$1" || exit 1
        {
            program_crates crates.txt
            # shellcheck disable=SC2046
            find $(program_parts) -type f -print | LC_ALL=C sort | xargs sha256sum
        } | sha256sum | cut -d ' ' -f 1
    )
}

# The line by which the kit on the PATH names itself, where its file can be read without calling it.
kit_line() {
    kit=$(command -v rt) && kit=$(readlink -f -- "$kit") && cat "${kit%/*/*}/KIT-ID" 2>/dev/null
}

# What the launcher noted when it built the program: `text SUM`, `kit LINE` and `origin WHERE`. It doesn't count where the program is
# newer, as rt ci leaves it.
noted() {
    [ -e "$program.of" ] && [ -z "$(find "$program" -newer "$program.of" -print)" ] && sed -n "s/^$1 //p" "$program.of"
}

# Whether a file of the text is newer than the program, or one of its folders, as where a file was removed.
is_touched() {
    [ -n "$(cd "$top" && find crates crates.txt \( -name out -o -name must-fail -o -name more-edits \) -prune -o \
        \( -name '*.rt' -o -name '*.antt' -o -name crates.txt -o -type d -path 'crates/*/*' \) -newer "$program" -print | head -n 1)" ]
}

# Whether the program is there, of this kit and of this text: no source is newer, or all are as they were when it was built.
is_built() {
    [ -x "$program" ] || return 1
    of_kit=$(noted kit) && here=$(kit_line) && [ "$of_kit" != "$here" ] && return 1
    is_touched || return 0
    of_text=$(noted text) && [ "$of_text" = "$(text_sum "$top")" ] || return 1
    touch "$program" "$program.of" 2>/dev/null || :
}

# The commit of the text, with a word where the text isn't as committed; nothing where it is in no repository of its own.
commit_of_text() {
    [ -z "$(git -C "$top" rev-parse --show-prefix 2>/dev/null)" ] || return
    commit=$(git -C "$top" rev-parse --short HEAD 2>/dev/null) || return
    [ -z "$(git -C "$top" status --porcelain -- crates crates.txt HANDLES)" ] || commit="$commit and changes"
    echo "$commit"
}
