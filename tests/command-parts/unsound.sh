# shellcheck shell=bash disable=SC2154,SC2016 # tests/command sets the names; some lines are for another shell
# A store that is not sound: one defect for each clause, as bytes of the file (docs/store-file.md has the places).

files=12
contents=4108
open_files=69644
processes=70156
policy=70540

# unsound CLAUSE WHERE: check names both; replay and show refuse the store, which stays.
unsound() {
    local clause=$1 where=$2
    cp damaged before
    gives "check: $clause" 1 "not sound: \"$clause\" does not hold: $where" "$mritvelja" check damaged
    holds "check: $clause: on standard output" test -s out
    refuses "replay: $clause" "damaged: not sound: \"$clause\"" "$mritvelja" replay damaged day
    refuses "show: $clause" "damaged: not sound: \"$clause\"" "$mritvelja" show damaged
    holds "$clause: the store is left as it is" cmp damaged before
    fresh damaged
}

fresh damaged
put damaged $((files + 32 + 4)) '\000\000\001'
unsound 'all fields in range' 'slot 1: owner is 65536, not 0 to 65535'
put damaged $((files + 32 + 8)) '\000\000\001'
unsound 'all fields in range' 'slot 1: group is 65536, not 0 to 65535'
put damaged $((files + 32 + 12)) '\000\002'
unsound 'all fields in range' 'slot 1: bits is 512, not 0 to 511'
put damaged $((processes + 48 + 8)) '\000\000\001'
unsound 'all fields in range' 'process 1: group is 65536, not 0 to 65535'
put damaged $policy '\010'
unsound 'all fields in range' 'policy, rights of process label 0 over file label 0: the cell is 8, not 0 to 7'
put damaged $((policy + 256 + 16 + 2)) '\020'
unsound 'all fields in range' 'policy, transition of process label 1 by program label 2: the cell is 16'
put damaged $files '\001'
unsound 'root a directory with no name' 'slot 0: kind is 1'
put damaged $((contents + 32)) 'too\000\000\000\000\000\000\000\000\000\000\000\001'
unsound 'every other directory named exactly once and at most 8 names deep' 'slot 1: a directory; the directory entries that name it are 2'
put damaged $((files + 8 * 32)) '\002'
put damaged $((files + 8 * 32 + 20)) '\001\000\000\000\001'
put damaged $((contents + 8 * 512)) 'self\000\000\000\000\000\000\000\000\000\000\010'
unsound 'every directory reached from the root' 'slot 8: a directory from which no way'
put damaged $((contents + 16)) 'fares'
unsound 'names valid and different within a directory' 'directory in slot 0, entry 1, name "fares": entry 0 has it too'
put damaged $((contents + 512 + 16)) 'x\000\000\000\000\000\000\000\000\000\000\000\000\000\004'
unsound 'each place naming a slot in use other than 0' 'directory in slot 1, entry 1: it names slot 4, which is free'
put damaged $((files + 2 * 32 + 24)) '\002'
unsound 'names equal to the places counted' 'slot 2: links is 2, but the directory entries counted are 1'
put damaged $((files + 3 * 32 + 20)) '\001\002'
unsound "a plain file's length at most 512, a directory's equal to its number of names" 'slot 3: a plain file of length 513'
put damaged $((files + 7 * 32)) '\001'
unsound 'each plain file named or open' 'slot 7: a plain file'
put damaged $open_files '\001\000\000\000\001\000\000\000\000\000\000\000\001'
put damaged $((processes + 2 * 48 + 16)) '\001'
unsound 'open entries only on plain files' 'open file 0: slot 1 is no plain file'
put damaged $open_files '\002\000\000\000\001\000\000\000\000\000\000\000\002'
put damaged $((processes + 2 * 48 + 16)) '\001'
unsound 'references equal to the descriptors counted, at least 1' 'open file 0: references is 2, but the descriptors counted are 1'
put damaged $((files + 4 * 32 + 8)) '\001'
unsound 'the zero bytes' 'slot 4: a free record that is not 0 before its version'
put damaged $((processes + 3 * 48 + 8)) '\001'
unsound 'the zero bytes' 'process 3: not in use, and not all 0'
put damaged $((open_files - 1)) '\001'
unsound 'the zero bytes' 'slot 127: a free slot whose byte 511 is not 0'

# A link: /today, which leads to /fares/now, in slot 4 and entry 2 of the root.
link='a link named once, bits 0, a valid path as text, of the record'"'"'s length, then 0'
linked() {
    fresh damaged
    "$mritvelja" call damaged 0 symlink /today /fares/now >/dev/null
}
linked
gives "a store with a link" 0 'sound' "$mritvelja" check damaged
put damaged $((files + 4 * 32)) '\004'
unsound 'all fields in range' 'slot 4: kind is 4, not 0 to 3'
linked
put damaged $((contents + 48)) 'too\000\000\000\000\000\000\000\000\000\000\000\004'
put damaged $((files + 20)) '\004'
put damaged $((files + 4 * 32 + 24)) '\002'
unsound "$link" 'slot 4: a link; the directory entries that name it are 2'
linked
put damaged $((files + 4 * 32 + 12)) '\001'
unsound "$link" 'slot 4: a link whose bits are 1, not 0'
linked
put damaged $((contents + 4 * 512)) 'x'
unsound "$link" 'slot 4: a link whose text "xfares/now" is not a valid path: it does not begin with a slash'
linked
put damaged $((contents + 4 * 512 + 9)) '/'
unsound "$link" 'slot 4: a link whose text "/fares/no/" is not a valid path: it has a slash after its last name'
linked
put damaged $((files + 4 * 32 + 20)) '\000'
unsound "$link" 'slot 4: a link of length 0, not 1 to 64'
linked
put damaged $((files + 4 * 32 + 20)) '\101'
unsound "$link" 'slot 4: a link of length 65, not 1 to 64'
linked
put damaged $((files + 4 * 32 + 20)) '\013'
unsound "$link" 'slot 4: a link whose text "/fares/now\x00" is not a valid path: "now\x00" is no name'
linked
put damaged $((contents + 4 * 512 + 10)) 'x'
unsound "$link" 'slot 4: a link of length 10 whose byte 10 is not 0'
linked
put damaged $open_files '\004\000\000\000\001\000\000\000\000\000\000\000\001'
put damaged $((processes + 2 * 48 + 16)) '\001'
unsound 'open entries only on plain files' 'open file 0: slot 4 is no plain file'
