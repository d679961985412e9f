# shellcheck shell=bash disable=SC2154,SC2016 # tests/command sets the names; some lines are for another shell
# Symbolic links: made, read and followed by calls, shown, described, and seen through by cat. answers and refused are of call.sh.

fresh bus
answers 'granted: slot 4' 0 symlink /today /fares/now
answers 'granted: link, owner 0, group 1, bits 0 (owner none, group none, others none), label 0, length 10, links 1, version 0' 2 stat /today
gives "readlink" 0 'mritvelja: granted: 10 bytes' "$mritvelja" call bus 2 readlink /today
holds "readlink: the text alone is on standard output, as a line" cmp out <(printf '/fares/now\n')
gives "readlink of 3 bytes" 0 'mritvelja: granted: 3 bytes' "$mritvelja" call bus 2 readlink /today 3
holds "readlink of 3 bytes: those" cmp out <(printf '/fa\n')
gives "readlink of no bytes" 0 'mritvelja: granted: 0 bytes' "$mritvelja" call bus 2 readlink /today 0
holds "readlink of no bytes: none" test ! -s out
gives "readlink --hex" 0 'mritvelja: granted: 10 bytes' "$mritvelja" call bus 2 readlink /today --hex
holds "readlink --hex: digits" test "$(cat out)" = 2f66617265732f6e6f77
answers 'granted: descriptor 0' 2 open /today read
gives "read through a link" 0 'granted: 5 bytes' "$mritvelja" call bus 2 read 0
holds "read through a link: the file's bytes" cmp out <(printf '2.40\n')
answers 'granted' 2 close 0
gives "show of a link" 0 '/today: link to /fares/now, slot 4, owner 0, group 1, bits 0 (owner none, group none, others none), label 0, length 10, links 1, version 0' \
    "$mritvelja" show bus
gives "describe of a link" 0 'symlink /today to /fares/now owner 0 group 1 label 0' "$mritvelja" describe bus
gives "cat of a link" 0 '' "$mritvelja" cat bus /today
holds "cat of a link: the file's bytes" cmp out <(printf '2.40\n')

# What a target may be, and may not.
answers 'granted: slot 5' 0 symlink /top //
answers 'granted: slot 6' 0 symlink /lost /not/there
answers 'granted: slot 7' 0 symlink /self /self
answers 'granted: slot 8' 0 symlink /odd $'/fares/\e[31m\n'
for target in '' x /x/ /. /x/.. /fifteen-letters /1/2/3/4/5/6/7/8/9 "$(printf '/%.0s' {1..64})a"; do
    refused 'refused: 3, malformed call' 0 symlink /bad "$target"
done
refused 'refused: 3, malformed call' 0 symlink / /x
refused 'refused: 11, name already there' 0 symlink /key /x
refused 'refused: 9, bits or ownership forbid' 2 symlink /fares/mine /x
refused 'refused: 7, not a directory, at name 2' 0 symlink /key/x /x
refused 'mritvelja: refused: 8, wrong kind of file' 2 readlink /fares/now
refused 'mritvelja: refused: 6, name missing, at name 1' 2 readlink /none
refused 'refused: 6, name missing, at name 1' 2 open /lost read
refused 'refused: 6, name missing, at name 1' 2 stat /lost/x
refused 'refused: 15, over 8 links followed or directory over 8 names deep, at name 1' 2 open /self read
refused 'refused: 8, wrong kind of file' 1 link /today /fares/today
refused 'refused: 8, wrong kind of file' 0 remove-directory /top
gives "readlink of a link to nowhere" 0 'granted: 10 bytes' "$mritvelja" call bus 2 readlink /lost
gives "readlink of odd bytes --hex" 0 '' "$mritvelja" call bus 2 readlink /odd --hex
holds "readlink of odd bytes --hex: all" test "$(cat out)" = 2f66617265732f1b5b33316d0a
gives "list through a link" 0 'granted: name fares' "$mritvelja" call bus 2 list /top 0
refuses "cat of a link to a directory" 'bus: /top: is a directory' "$mritvelja" cat bus /top
refuses "cat of a link to nowhere" 'bus: /lost: name missing behind a link to /not/there' "$mritvelja" cat bus /lost
refuses "cat of a link to an odd name" 'bus: /odd: name missing behind a link to /fares/\x1b[31m\x0a' "$mritvelja" cat bus /odd
refuses "cat of a link to itself" 'bus: /self: more than 8 links on the way' "$mritvelja" cat bus /self
gives "cat through links" 0 '2.40' "$mritvelja" cat bus /top/top//today
gives "show of an odd target" 0 '/odd: link to /fares/\x1b[31m\x0a, slot 8, ' "$mritvelja" show bus
gives "the store with links" 0 'sound' "$mritvelja" check bus

# Eight links are followed; and no directory lies over 8 names deep, though links lead there.
"$mritvelja" describe bus >links.description
{
    printf 'symlink /l0 to /fares/now\n'
    for link in {1..8}; do printf 'symlink /l%s to /l%s\n' "$link" $((link - 1)); done
} >>links.description
gives "new --from: a chain" 0 '' "$mritvelja" new chain --from links.description
gives "open through 8 links" 0 'granted: descriptor 0' "$mritvelja" call chain 2 open /l7 read
gives "open through 9 links" 1 'refused: 15, over 8 links followed' "$mritvelja" call chain 2 open /l8 read
gives "cat through 8 links" 0 '2.40' "$mritvelja" cat chain /l7
refuses "cat through 9 links" 'chain: /l8: more than 8 links on the way' "$mritvelja" cat chain /l8
{
    printf 'mritvelja description 2\nprocess 0\nrights 0 over 0 allow read,write,execute\ndirectory /\n'
    for depth in {1..8}; do printf 'directory %s\n' "$(printf '/d%.0s' $(seq "$depth"))"; done
    printf 'symlink /deep to /d/d/d/d/d/d/d/d\n'
} >deep.description
"$mritvelja" new deep --from deep.description
gives "a directory too deep" 1 'refused: 15, over 8 links followed or directory over 8 names deep' "$mritvelja" call deep 0 make-directory /deep/x none:none:none
gives "a file there" 0 'granted: slot 10' "$mritvelja" call deep 0 create /deep/x none:none:none
gives "a link there" 0 'granted: slot 11' "$mritvelja" call deep 0 symlink /deep/y /x
gives "the store of nine names" 0 'sound' "$mritvelja" check deep

# Described and made again, byte for byte.
for store in bus deep; do
    gives "describe links: $store" 0 'symlink /' "$mritvelja" describe "$store"
    cp out links.description
    rm -f made-again
    gives "new --from: links of $store" 0 '' "$mritvelja" new made-again --from links.description
    holds "new --from: links of $store, byte for byte" cmp made-again "$store"
done
wrong 'line 2: to is missing' 'mritvelja description 2\nsymlink /a\n'
wrong 'line 2: to is x, not a path: it does not begin with a slash' 'mritvelja description 2\nsymlink /a to x\n'
wrong 'line 2: to is /\x1b/, not a path: it has a slash after its last name' 'mritvelja description 2\nsymlink /a to /\\x1b/\n'
wrong 'line 2: bits is no field of a line symlink' 'mritvelja description 2\nsymlink /a to /b bits none:none:none\n'

# Blocks of a script.
# block CALL FD ARG PATH DATA: a script of that call by process 0.
block() {
    printf 'proc=0\ncall=%s\nfd=%s\narg=%s\npath=%s\ndata=%s\n' "$@" >link.script
}
fresh bus
block 18 0 0 /l 2f
gives "symlink in a script" 0 '# 1: process 0, symlink /l /: granted: slot 4' "$mritvelja" replay bus link.script --explain
block 19 0 512 /l ''
gives "readlink in a script" 0 '# 1: process 0, readlink /l 512: granted: 1 byte, "/"' "$mritvelja" replay bus link.script --explain
holds "readlink in a script: the exact form" cmp <(grep -v '^#' out) <(printf 'answer=0\nvalue=1\ndata=2f\n')
block 19 0 513 /l ''
gives "readlink in a script of more than 512 bytes" 0 '1 call refused with 3, malformed call' "$mritvelja" replay bus link.script
block 18 0 0 /m ''
gives "symlink in a script without a target" 0 '1 call refused with 3, malformed call' "$mritvelja" replay bus link.script
cp bus before
# broken TEXT CALL FD ARG PATH DATA: the block is broken, and nothing changes.
broken() {
    local text=$1
    shift
    block "$@"
    refuses "a broken block: $text" "$text" "$mritvelja" replay bus link.script
    holds "a broken block: $text: nothing changes" cmp bus before
}
broken 'line 3: call 18 does not use fd=, which must be 0' 18 1 0 /n 2f
broken 'line 4: call 18 does not use arg=, which must be 0' 18 0 1 /n 2f
broken 'line 3: call 19 does not use fd=, which must be 0' 19 1 9 /l ''
broken 'line 6: call 19 does not use data=, which must be empty' 19 0 9 /l 2f
broken 'line 6: the data is not pairs of the digits' 18 0 0 /n 2F
