# shellcheck shell=bash disable=SC2154,SC2016 # tests/command sets the names; some lines are for another shell
# Names of files and arguments in messages: nothing for the terminal to obey, and commands that can be run as they stand.

# plain_lines FILE: every line is text without control bytes.
plain_lines() {
    ! grep -qP '[\x00-\x1f\x7f]' "$1" && ! LC_ALL=C grep -qP '\xc2[\x80-\x9f]|\xe2\x80[\xaa-\xae]' "$1"
}
odd=$'odd\e[31m\nname\\\u202e\u009b\xff'
said='odd\x1b[31m\x0aname\x5c\xe2\x80\xae\xc2\x9b\xff'
for command in check show 'replay day'; do
    # shellcheck disable=SC2206 # the words are arguments
    words=($command)
    refuses "${words[0]} of an odd name" "$said: cannot be opened: No such file" "$mritvelja" "${words[0]}" "$odd" "${words[@]:1}"
    holds "${words[0]} of an odd name: plain lines" plain_lines err
done
refuses "a script of an odd name" "$said: cannot be read" "$mritvelja" replay console "$odd"
holds "a script of an odd name: plain lines" plain_lines err
for arguments in "$odd" "-$odd" "new a $odd" "replay a b --calls $odd" "--version $odd"; do
    IFS=' ' read -r -d '' -a words <<<"$arguments" || true
    gives "odd arguments" 2 '\x1b[31m' "$mritvelja" "${words[@]%$'\n'}"
    holds "odd arguments: plain lines" plain_lines err
done
gives "a name in letters" 1 'Rūta/žinios: cannot be opened' "$mritvelja" check 'Rūta/žinios'

# The command that is suggested for a file of version 1 runs as it stands, whatever the name.
for name in plain.store "a b" "it's" '$(touch obeyed)' '"a"' './-dash' 'ünder' $'new\nline' $'\e[1m\\\xff' '`x`;~*?'; do
    cp version-1 "$name"
    refuses "check of a name to be quoted" 'convert it with `' "$mritvelja" check "$name"
    holds "check of a name to be quoted: plain lines" plain_lines err
    suggested=$(sed -n 's/.*convert it with `\(.*\) NEW`$/\1 suggested/p' err)
    holds "the command that is suggested runs: $suggested" env PATH="$directory:$PATH" bash -c "$suggested"
    holds "and converts the store: $suggested" cmp suggested console
    rm -f suggested "$name"
done
holds "nothing in a name is obeyed" test ! -e obeyed
