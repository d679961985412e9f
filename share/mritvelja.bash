# Completion of the command mritvelja for bash: its commands, their options and the names of calls, as its help has them; else files.
_mritvelja() {
    local word=${COMP_WORDS[COMP_CWORD]} command=${COMP_WORDS[1]} program=${COMP_WORDS[0]} words=
    if [ "$COMP_CWORD" -eq 1 ]; then
        words="$("$program" --help | awk '/^  [a-z]/ { print $1 }') --help --version"
    elif [[ $word == -* ]]; then
        words="$("$program" "$command" --help | grep -o -- '--[a-z]*' | sort -u) --help"
    elif [ "$command" = call ] && [ "$COMP_CWORD" -eq 4 ]; then
        words=$("$program" call --help | awk '/^  [a-z]/ { for (i = 1; i <= NF; i++) if ($i ~ /^[a-z-]+$/) print $i }')
    fi
    mapfile -t COMPREPLY < <(compgen -W "$words" -- "$word")
}
complete -o default -F _mritvelja mritvelja
