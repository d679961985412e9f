# shellcheck shell=bash disable=SC2154,SC2016 # tests/command sets the names; some lines are for another shell
# The bytes of a file, seen from outside.

{
    printf 'mritvelja description 2\ndirectory /d\nfile /d/all data "'
    printf '\\x%02x' {0..255}
    printf '"\nfile "/d/\\x20 " data x\nfile /empty\n'
} >all.description
"$mritvelja" new all --from all.description
cp all all.copy
gives "cat" 0 '' "$mritvelja" cat console /fares/now
holds "cat: the bytes and nothing else" cmp out <(printf '2.40\n')
holds "cat: nothing on standard error" test ! -s err
gives "cat of what no label may read" 0 '' "$mritvelja" cat console /key
holds "cat of what no label may read: the bytes" cmp out <(printf '\1\2\3\4')
gives "cat of every byte" 0 '' "$mritvelja" cat all /d/all
holds "cat of every byte: all 256" test "$(od -An -v -tu1 out | tr -s ' \n' ' ' | sed 's/^ //; s/ $//')" = "$(printf '%s ' {0..255} | sed 's/ $//')"
gives "cat of a name with blanks, by a path with slashes" 0 'x' "$mritvelja" cat all '//d///  '
gives "cat of an empty file" 0 '' "$mritvelja" cat all /empty
holds "cat of an empty file: no bytes" test ! -s out
holds "cat changes nothing" cmp all all.copy
refuses "cat of no name" 'console: /fares/no: name missing' "$mritvelja" cat console /fares/no
refuses "cat below a file" 'console: /key/x: name missing' "$mritvelja" cat console /key/x
refuses "cat of a directory" 'console: /fares: is a directory' "$mritvelja" cat console /fares
refuses "cat of the root" 'console: /: is a directory' "$mritvelja" cat console /
refuses "cat without a slash" 'console: key: a path begins with a slash' "$mritvelja" cat console key
refuses "cat of an odd path" 'console: /\x1b[31m: name missing' "$mritvelja" cat console $'/\e[31m'
refuses "cat with standard output closed" 'standard output: is not open for writing' bash -c 'exec "$0" cat console /key >&-' "$mritvelja"
