# Completion of bash for fwknopd, fwknop and fko. What it offers is read from the table that `--help` prints, each line of which has an option, a
# word in capitals for its value where it takes one, and what it does. So it knows no option by itself.

# _fwknop_stanzas FILE: the names of the stanzas of a client's file
_fwknop_stanzas() {
    sed -n 's/^[[:blank:]]*\[\(.*\)\][[:blank:]]*$/\1/p' "$1" 2>/dev/null
}

_fwknop() {
    local word=${COMP_WORDS[COMP_CWORD]} before=${COMP_WORDS[COMP_CWORD - 1]}
    local option value meaning offered=() file=.fwknoprc at kind=

    while read -r option value meaning; do
        [[ $value =~ ^[A-Z]+$ ]] || { meaning="$value $meaning" value=; }
        # what the word before it wants
        [ "$option" = "$before" ] && [ "$COMP_CWORD" -gt 1 ] && kind=$value
        # an option stands once, and some alone
        [[ $meaning != *"the only word"* ]] || [ "$COMP_CWORD" -eq 1 ] || continue
        [[ " ${COMP_WORDS[*]:1:COMP_CWORD-1} " == *" $option "* ]] || offered+=("$option")
    done < <("$1" --help 2>/dev/null | sed -n 's/^  \(-\)/\1/p')

    case "$kind" in
        '') mapfile -t COMPREPLY < <(compgen -W "${offered[*]}" -- "$word") ;;
        FILE)
            mapfile -t COMPREPLY < <(compgen -f -- "$word")
            compopt -o filenames 2>/dev/null
            ;;
        HOST) mapfile -t COMPREPLY < <(compgen -A hostname -- "$word") ;;
        NAME)
            for ((at = 1; at < COMP_CWORD; at++)); do
                [ "${COMP_WORDS[at]}" != --rc-file ] || file=${COMP_WORDS[at + 1]}
            done
            mapfile -t COMPREPLY < <(compgen -W "$(_fwknop_stanzas "$file")" -- "$word")
            ;;
        *) COMPREPLY=() ;;
    esac
}

# The first word is a command, or one of the two options. Each begins a line of the table, which the examples end. Behind a command that
# takes FILE and NAME come a file's name and that of one of its stanzas.
_fko() {
    local word=${COMP_WORDS[COMP_CWORD]} table
    table=$("$1" --help 2>/dev/null | sed -n '/^examples/q; s/^  \([a-z-]\)/\1/p')
    COMPREPLY=()
    case "$COMP_CWORD" in
        1) mapfile -t COMPREPLY < <(compgen -W "$(sed 's/ .*//' <<<"$table")" -- "$word") ;;
        2 | 3)
            grep -q "^${COMP_WORDS[1]} FILE NAME " <<<"$table" || return
            if [ "$COMP_CWORD" -eq 2 ]; then
                mapfile -t COMPREPLY < <(compgen -f -- "$word")
                compopt -o filenames 2>/dev/null
            else
                mapfile -t COMPREPLY < <(compgen -W "$(_fwknop_stanzas "${COMP_WORDS[2]}")" -- "$word")
            fi
            ;;
    esac
}

complete -F _fwknop fwknopd fwknop
complete -F _fko fko
