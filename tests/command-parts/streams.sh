# shellcheck shell=bash disable=SC2154,SC2016 # tests/command sets the names; some lines are for another shell
# Standard streams that are closed, or open the other way only: told, and then nothing changes.

fresh bus
for stream in '>&-' '1<day'; do
    refuses "replay with $stream" 'standard output: is not open for writing' bash -c "exec \"\$0\" replay bus day $stream" "$mritvelja"
    holds "replay with $stream changes nothing" cmp bus console
    for command in 'show bus' 'check bus' '--help' '--version'; do
        refuses "$command with $stream" 'standard output: is not open for writing' bash -c "exec \"\$0\" $command $stream" "$mritvelja"
    done
done
for stream in '<&-' '0>written'; do
    refuses "a script on standard input with $stream" 'standard input: is not open for reading' \
        bash -c "exec \"\$0\" replay bus - $stream" "$mritvelja"
done
gives "a script from a file with standard input closed" 0 'the store is saved' bash -c 'exec "$0" replay bus day <&-' "$mritvelja"
holds "it is answered" cmp out whole.answers
gives "new with every stream closed" 0 '' bash -c 'exec "$0" new streamless <&- >&- 2>&-' "$mritvelja"
holds "no stream's number was taken for the store" cmp streamless console
gives "the null device" 0 'the store did not change' bash -c 'exec "$0" replay bus - </dev/null >/dev/null' "$mritvelja"
