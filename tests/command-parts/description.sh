# shellcheck shell=bash disable=SC2154,SC2016 # tests/command sets the names; some lines are for another shell
# Descriptions: a store as text, and a store made from it.

gives "describe" 0 '' "$mritvelja" describe console
holds "describe: the test console" cmp out "$root/command/src/description/console.expected"
holds "describe: nothing on standard error" test ! -s err
cp out console.description
gives "describe what a day left" 0 'unnamed 4' "$mritvelja" describe whole
cp out whole.description
for store in console whole; do
    gives "new --from: $store" 0 '' "$mritvelja" new "from-$store" --from "$store.description"
    holds "new --from: $store, byte for byte" cmp "from-$store" "$store"
    rm -f "from-$store"
    gives "new --from - : $store" 0 '' bash -c '"$0" new "$1" --from=- <"$2"' "$mritvelja" "from-$store" "$store.description"
    holds "new --from - : $store, byte for byte" cmp "from-$store" "$store"
done
holds "a store made from a description is its maker's alone" test "$(stat -c %a from-console)" = 600
refuses "new --from over a file" 'kept-by-new: is already there' bash -c 'echo kept >kept-by-new; exec "$0" new kept-by-new --from console.description' "$mritvelja"

# wrong TEXT DESCRIPTION: it is refused with the line, and nothing is made.
wrong() {
    printf '%b' "$2" >wrong.description
    refuses "a description: $1" "wrong.description: $1" "$mritvelja" new unmade --from wrong.description
    holds "a description: $1: nothing is made" test ! -e unmade
}
wrong 'line 1 is not "mritvelja description 2"' ''
wrong 'line 1 is not "mritvelja description 2"' 'mritvelja description 3\n'
wrong 'line 1 is "mritvelja description 1", a form without groups' 'mritvelja description 1\nfile /a bits read\n'
wrong 'line 2: bits is read, not OWNER:GROUP:OTHERS, each none' 'mritvelja description 2\nfile /a bits read\n'
wrong 'line 2: group is 65536, not a number from 0 to 65535' 'mritvelja description 2\nprocess 1 group 65536\n'
wrong 'line 3: process is 9, not a number from 0 to 7' 'mritvelja description 2\n\nprocess 9\n'
wrong 'line 2: \x1b[31m is none of process' 'mritvelja description 2\n\\x1b[31m x\n'
refuses "a description that is not there" 'missing: cannot be read: No such file' "$mritvelja" new unmade --from missing
refuses "a description on a closed standard input" 'standard input: is not open for reading' bash -c 'exec "$0" new unmade --from - <&-' "$mritvelja"
holds "nothing is made of no description" test ! -e unmade

gives "new --empty" 0 '' "$mritvelja" new hollow --empty
gives "an empty store" 0 'sound' "$mritvelja" check hollow
gives "an empty store's description" 0 'directory / owner 0 group 0 bits none:none:none label 0' "$mritvelja" describe hollow
holds "an empty store has no more lines" test "$(wc -l <out)" -eq 2
gives "--from with --empty" 2 '--from and --empty do not go together' "$mritvelja" new unmade --from console.description --empty
gives "new -" 2 'STORE may not be -' "$mritvelja" new -
cp console damaged
put damaged $((12 + 2 * 32 + 24)) '\002'
refuses "describe a store that is not sound" 'damaged: not sound: ' "$mritvelja" describe damaged
