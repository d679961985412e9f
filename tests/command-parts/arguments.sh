# shellcheck shell=bash disable=SC2154,SC2016 # tests/command sets the names; some lines are for another shell
# Arguments: a usage line and status 2; help and version.

for arguments in '' 'open bus' '-x' '--version bus' '-V bus' 'new' 'new a b' 'new --x' 'new -' 'new a --from' 'describe' 'describe a b' 'cat' 'cat a' 'cat a b c' 'cat - /a' 'show' 'check' 'check a b' 'convert' 'convert bus' 'convert bus a b' 'convert bus --x' 'replay' 'replay bus' \
    'replay bus day more' 'replay bus day --calls' 'replay bus day --calls x' 'replay bus day --calls -1' \
    'replay bus day --calls 1 --calls 1' 'replay bus day --calls 99999999999999999999'; do
    # shellcheck disable=SC2086 # the words are arguments
    gives "arguments '$arguments'" 2 'usage: mritvelja' "$mritvelja" $arguments
    holds "arguments '$arguments': no output" test ! -s out
    holds "arguments '$arguments': no store was made" test ! -e a
done
gives "an empty STORE" 2 'usage: mritvelja' "$mritvelja" new ''
gives "an empty NEW" 2 'usage: mritvelja' "$mritvelja" convert console ''
for help in -h --help; do
    gives "$help" 0 'usage: mritvelja COMMAND' "$mritvelja" "$help"
    holds "$help is on standard output" grep -q '^  replay    runs a script' out
    while read -r command _; do
        gives "$command $help" 0 "usage: mritvelja $command " "$mritvelja" "$command" "$help"
        gives "$command x y z $help" 0 "usage: mritvelja $command " "$mritvelja" "$command" x y z "$help"
        gives "$command without operands" 2 "usage: mritvelja $command " "$mritvelja" "$command"
        holds "$command is documented" grep -q "^| .mritvelja $command " "$root/docs/command.md"
    done < <(sed -n '/^$/,/^$/s/^  \([a-z][a-z]*\) .*/\1/p' out)
done
for version in -V --version; do
    gives "$version" 0 'mritvelja 2.1.0' "$mritvelja" "$version"
done
gives "options after --" 1 'show: cannot be opened' "$mritvelja" show -- show
gives "a store that begins with a dash" 1 '-h: cannot be opened' "$mritvelja" show -- -h
gives "a value after =" 0 '1 call answered' "$mritvelja" replay --calls=1 -- whole day
