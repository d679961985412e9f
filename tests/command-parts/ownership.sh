# shellcheck shell=bash disable=SC2154 # tests/command sets the names
# A directory of one's own: the example script, at once and at the places where the story turns.

own=$root/examples/own-directory.script
bar='/fares/foo/bar: directory, slot 5, owner 0, group 1, bits 493 (owner read write execute, group read execute, others read execute), label 0, length 1, links 1, version 1'

# own_calls N: the first N calls on a fresh console.
own_calls() {
    fresh own
    "$mritvelja" replay own "$own" --calls "$1" >out 2>err
}

fresh own
gives "a directory of one's own" 0 '33 calls answered, the store is saved; that is the whole script' "$mritvelja" replay own "$own"
holds "a directory of one's own, byte for byte as the second program answers it" cmp out "$root/examples/own-directory.expected"
gives "a directory of one's own: the store" 0 'sound' "$mritvelja" check own
gives "once another user has emptied bar, foo can go" 1 'refused: 6, name missing, at name 2' "$mritvelja" call own 1 stat /fares/foo

own_calls 3
cp own made
for calls in 12 16 24; do
    own_calls "$calls"
    gives "after $calls calls bar is as it was made" 0 "$bar" "$mritvelja" show own
done
own_calls 12
holds "refused calls leave the store byte for byte" cmp own made
