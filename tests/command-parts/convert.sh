# shellcheck shell=bash disable=SC2154,SC2016 # tests/command sets the names; some lines are for another shell
# Store files of version 1, of 128 and of 64 slots: told apart, converted to a new file, and left as they are.

slots_64 version-1 >version-1-of-64
cp version-1 version-1.copy
cp version-1-of-64 version-1-of-64.copy
holds "a file of version 1 has 70508 bytes" test "$(stat -c %s version-1)" -eq 70508
holds "one of 64 slots has 35948 bytes" test "$(stat -c %s version-1-of-64)" -eq 35948
for old in version-1 version-1-of-64; do
    for command in "check $old" "show $old" "describe $old" "replay $old day" "call $old 0 fork" "cat $old /fares/now"; do
        # shellcheck disable=SC2086 # the words are arguments
        refuses "$command" "$old: is a store file of version 1, not 2: convert it with \`mritvelja convert $old NEW\`" "$mritvelja" $command
    done
    gives "convert $old" 0 '' "$mritvelja" convert "$old" "converted-$old"
    holds "convert $old says nothing" test ! -s out -a ! -s err
    holds "$old is converted to the store that new makes" cmp "converted-$old" console
    holds "a converted store is its maker's alone" test "$(stat -c %a "converted-$old")" = 600
    gives "a converted store" 0 'sound' "$mritvelja" check "converted-$old"
    gives "the day on it" 0 'the store is saved' "$mritvelja" replay "converted-$old" day
    holds "the day's answers on it" cmp out whole.answers
    holds "the day's store" cmp "converted-$old" whole
done

# What a day of version 1 left, and a store of many owners, bits and open files: the owner may do all, the group what the others may.
for store in day mixed; do
    version_1 "$store" >"$store-1"
    slots_64 "$store-1" >"$store-1-of-64"
    gives "convert $store" 0 '' "$mritvelja" convert "$store-1" "$store-converted"
    gives "convert $store of 64 slots" 0 '' "$mritvelja" convert "$store-1-of-64" "$store-converted-of-64"
    holds "$store of 64 slots gives the same" cmp "$store-converted" "$store-converted-of-64"
done
# Version 1 had no links: the day without them, which are calls 37 to 45 and 50.
fresh linkless
sed -n '1,216p; 271,294p' day | "$mritvelja" replay linkless - >/dev/null 2>&1
holds "a day of version 1 is the day's store" cmp day-converted linkless
gives "the store of many owners" 0 '' "$mritvelja" describe mixed-converted
holds "the store of many owners: what it is converted to" cmp out "$root/tests/command-parts/version-1/mixed.expected"

# not_converted WHAT TEXT OLD: convert refuses it, it stays, and no new file is made.
not_converted() {
    local what=$1 text=$2 old=$3
    [ ! -f "$old" ] || cp "$old" before
    rm -f unmade
    refuses "convert $what" "$old: $text" timeout 10 "$mritvelja" convert "$old" unmade
    holds "convert $what: nothing is made" test ! -e unmade
    [ ! -f "$old" ] || holds "convert $what: it is left as it is" cmp "$old" before
}
not_converted "a file of version 2" 'is of version 2 already, and needs no conversion' console
not_converted "no file" 'cannot be opened: No such file or directory' missing
: >convert-empty
head -c 70508 /dev/zero >convert-zeros
mkdir convert-folder
mkfifo convert-pipe
not_converted "an empty file" 'a store file of the wrong size: expected 70508 or 35948 bytes, found 0' convert-empty
not_converted "zeros" 'not a store file' convert-zeros
not_converted "a directory" 'is not a regular file' convert-folder
not_converted "a pipe" 'is not a regular file' convert-pipe
for old in version-1 version-1-of-64; do
    size=$(stat -c %s "$old")
    head -c $((size - 1)) "$old" >convert-short
    not_converted "$old cut short" "a store file of the wrong size: expected $size bytes, found $((size - 1))" convert-short
    { cat "$old" && printf x; } >convert-long
    not_converted "$old with a byte more" "a store file of the wrong size: expected $size bytes, found $((size + 1))" convert-long
done

# spoilt OLD OFFSET BYTES WHAT TEXT: the file with other bytes is not converted.
spoilt() {
    cp "$1" convert-spoilt
    put convert-spoilt "$2" "$3"
    not_converted "$4" "$5" convert-spoilt
}
spoilt version-1 7 '\003' "a later version" 'a store file of another version: expected 1, found 3'
spoilt version-1 7 '\000' "an earlier version" 'a store file of another version: expected 1, found 0'
spoilt version-1 8 '\077' "another number of slots" 'a store file of another number of slots: expected 128 or 64, found 63'
spoilt version-1 8 '\100' "128 slots as if they were 64" 'a store file of the wrong size: expected 35948 bytes, found 70508'
spoilt version-1 $((12 + 2 * 28 + 20)) '\002' "a store that is not sound" \
    'not sound: "names equal to the places counted" does not hold: slot 2: links is 2'
spoilt version-1 $((12 + 2 * 28 + 8)) '\010' "bits that were out of range" 'not sound: "all fields in range" does not hold: slot 2: bits is 8, not 0 to 7'
spoilt version-1 $((12 + 2 * 28)) '\003' "a kind that there was not" 'not sound: "all fields in range" does not hold: slot 2: kind is 3, not 0 to 2'
spoilt version-1 $((12 + 4 * 28 + 8)) '\007' "a free record with bits" 'not sound: "the zero bytes" does not hold: slot 4: a free record'
# A place that named no slot of 64 names a free one of 128.
spoilt version-1-of-64 $((1804 + 512 + 16)) 'x\000\000\000\000\000\000\000\000\000\000\000\000\000\100' "a name of slot 64" \
    'not sound: "each place naming a slot in use other than 0" does not hold: directory in slot 1, entry 1: it names slot 64, which is free'

cp whole kept
refuses "convert over a file" 'kept: is already there, and is left as it is' "$mritvelja" convert version-1 kept
holds "convert leaves a file as it is" cmp kept whole
refuses "convert a file over itself" 'version-1: is already there' "$mritvelja" convert version-1 version-1
ln -s convert-nowhere convert-link
refuses "convert over a link to nothing" 'convert-link: is already there' "$mritvelja" convert version-1 convert-link
holds "convert makes nothing where a link points" test ! -e convert-nowhere
refuses "convert into no directory" 'none/bus: cannot be made: No such file' "$mritvelja" convert version-1 none/bus
refuses "a converted store that cannot be written whole" 'unmade: cannot be made: File too large' \
    bash -c 'trap "" XFSZ; ulimit -f 8; exec "$0" convert version-1 unmade' "$mritvelja"
holds "nothing is left of a store that was not converted whole" test ! -e unmade
holds "no conversion touched the file of version 1" cmp version-1 version-1.copy
holds "nor the one of 64 slots" cmp version-1-of-64 version-1-of-64.copy
