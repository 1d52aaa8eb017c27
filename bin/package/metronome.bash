# Completion of the words of metronome: its commands, their options, the pictures of --as and the reports of --by, as its own help
# tells them.

_metronome() {
    local program=$1 word=$2 before=$3 words
    if [[ $before == --as || $before == --by ]]; then
        words=$("$program" "${COMP_WORDS[1]}" --help 2>/dev/null | sed -n "s/.* $before <[A-Z]*> [^:]*: //p" | sed 's/ \[.*//; s/,\| or / /g')
    elif [[ $COMP_CWORD == 1 ]]; then
        words=$("$program" --help 2>/dev/null | sed -n '/^Commands:/,/^$/s/^  \([a-z]*\) .*/\1/p; s/^  .*\(--[a-z]*\).*/\1/p')
    elif [[ $word == -* ]]; then
        words=$("$program" "${COMP_WORDS[1]}" --help 2>/dev/null | sed -n 's/^  .*\(--[a-z]*\).*/\1/p')
    else
        mapfile -t COMPREPLY < <(compgen -f -- "$word")
        return
    fi
    mapfile -t COMPREPLY < <(compgen -W "$words" -- "$word")
}

complete -o filenames -F _metronome metronome
