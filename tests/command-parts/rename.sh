# shellcheck shell=bash disable=SC2154,SC2016 # tests/command sets the names; some lines are for another shell
# Rename: within a directory and between two, refused by each number, and in a script. answers and refused are of call.sh, block and broken of links.sh.

fresh bus
answers 'granted: descriptor 0' 2 open /fares/now read
answers 'granted' 1 rename /fares/now /fares/then
answers 'granted: name then' 2 list /fares 0
answers 'granted: no name there' 2 list /fares 1
answers 'granted: directory, owner 10, group 1, bits 493 (owner read write execute, group read execute, others read execute), label 0, length 1, links 1, version 1' 2 stat /fares
answers 'granted: plain file, owner 10, group 1, bits 484 (owner read write execute, group read, others read), label 0, length 5, links 1, version 0' 2 stat /fares/then
gives "read of a renamed file that is open" 0 'mritvelja: granted: 5 bytes' "$mritvelja" call bus 2 read 0
holds "read of a renamed file that is open: its bytes" cmp out <(printf '2.40\n')
answers 'granted: slot 4' 0 make-directory /d read,write,execute:read,write,execute:read,write,execute
answers 'granted' 0 rename /fares/then /d/now
answers 'granted: no name there' 2 list /fares 0
answers 'granted: directory, owner 0, group 1, bits 511 (owner read write execute, group read write execute, others read write execute), label 0, length 1, links 1, version 1' 2 stat /d
gives "show of a renamed file" 0 '/d/now: plain file, slot 2, ' "$mritvelja" show bus
answers 'granted' 0 rename /d/now /fares/now
answers 'granted' 0 rename /fares '/f ares'
gives "cat below a renamed directory" 0 '2.40' "$mritvelja" cat bus '/f ares/now'
answers 'granted' 0 rename '/f ares' /fares
answers 'granted: slot 5' 0 symlink /top /
answers 'granted' 0 rename /d /top/e
answers 'granted' 0 rename /top /fares/top
gives "readlink of a renamed link" 0 'granted: 1 byte' "$mritvelja" call bus 2 readlink /fares/top
holds "readlink of a renamed link: its target" cmp out <(printf '/\n')
gives "the store with renamed files" 0 'sound' "$mritvelja" check bus
"$mritvelja" describe bus >rename.description
rm -f made-again
gives "new --from: renamed files" 0 '' "$mritvelja" new made-again --from rename.description
holds "new --from: renamed files, byte for byte" cmp made-again bus

refused 'refused: 2, process not in use' 7 rename /fares/now /fares/x
refused 'refused: 3, malformed call' 0 rename / /x
refused 'refused: 3, malformed call' 0 rename /key /
refused 'refused: 3, malformed call' 0 rename /key x
refused 'refused: 3, malformed call' 0 rename /key ''
refused 'refused: 6, name missing, at name 1' 0 rename /none/x /key/x
refused 'refused: 6, name missing, at name 2' 0 rename /key /fares/none/x
refused 'refused: 7, not a directory, at name 2' 0 rename /fares/now /key/x
refused 'refused: 8, wrong kind of file' 0 rename /e /fares/e
refused 'refused: 8, wrong kind of file' 0 rename /e /e/e
refused 'refused: 9, bits or ownership forbid' 2 rename /fares/now /fares/x
refused 'refused: 9, bits or ownership forbid' 1 rename /fares/now /x
refused 'refused: 9, bits or ownership forbid' 0 rename /rom /r
refused 'refused: 9, bits or ownership forbid' 0 rename /key /rom/key
refused 'refused: 11, name already there' 0 rename /key /rom
refused 'refused: 11, name already there' 2 rename /fares/now /fares/now
refused 'refused: 11, name already there' 0 rename /e /fares/now
printf 'process 4 user 0 group 1 label 2\n' >>rename.description
rm -f made-again
gives "new --from: a process whose label may not write" 0 '' "$mritvelja" new made-again --from rename.description
gives "rename by it" 1 'refused: 10, label forbids' "$mritvelja" call made-again 4 rename /fares/now /fares/x
for file in {1..14}; do answers "granted: slot $((5 + file))" 0 create "/e/f$file" none:none:none; done
answers 'granted' 0 rename /fares/top /e/top
answers 'granted' 0 rename /fares/now /e/now
refused 'refused: 13, a table has no free place' 0 rename /key /e/key
answers 'granted' 0 rename /e/f3 /e/key
refused 'refused: 8, wrong kind of file' 0 rename /fares /e/f3
answers 'granted: slot 20' 0 symlink /ring /ring
refused 'refused: 15, over 8 links followed or directory over 8 names deep, at name 1' 0 rename /ring/x /y
refused 'refused: 15, over 8 links followed or directory over 8 names deep, at name 1' 0 rename /key /ring/x

# Blocks of a script.
fresh bus
printf 'proc=1\ncall=20\nfd=0\narg=0\npath=/fares/now\ndata=2f66617265732f6e33\n' >rename.script
gives "rename in a script" 0 '# 1: process 1, rename /fares/now /fares/n3: granted' "$mritvelja" replay bus rename.script --explain
holds "rename in a script: the exact form" cmp <(grep -v '^#' out) <(printf 'answer=0\nvalue=0\ndata=\n')
gives "the same again" 0 '1 call refused with 6, name missing' "$mritvelja" replay bus rename.script
block 20 0 0 /fares/n3 ''
gives "rename in a script without a new path" 0 '1 call refused with 3, malformed call' "$mritvelja" replay bus link.script
cp bus before
broken 'line 4: call 20 does not use arg=, which must be 0' 20 0 1 /fares/n3 2f78
broken 'line 3: call 20 does not use fd=, which must be 0' 20 1 0 /fares/n3 2f78
broken 'line 6: the data is not pairs of the digits' 20 0 0 /fares/n3 2F78
