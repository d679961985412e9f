# shellcheck shell=bash disable=SC2154,SC2016 # tests/command sets the names; some lines are for another shell
# The factory part: given, refused where it is bad, and never saved; /rom as calls, show and cat see it.

# The prompts "hello", one of no bytes, and one of 512.
{
    printf '\005\000hello\000\000\000\002'
    printf 'x%.0s' {1..512}
} >part
fresh bus
# with_part COMMAND..: on bus, beside the part.
with_part() {
    "$mritvelja" "$1" bus "${@:2}" --rom part
}
# sees WORDS CALL: the call beside the part is granted in these words.
sees() {
    local words=$1
    shift
    gives "call $* beside a part" 0 '' with_part call "$@"
    holds "call $* beside a part: $words" test "$(cat out)" = "$words"
}
# bars WORDS CALL: the call beside the part is refused in these words, and nothing changes.
bars() {
    local words=$1
    shift
    cp bus before
    gives "call $* beside a part" 1 '' with_part call "$@"
    holds "call $* beside a part: $words" test "$(cat out err)" = "$words"
    holds "call $* beside a part changes nothing" cmp bus before
}
forbidden='refused: 9, bits or ownership forbid'
readable='owner 0, group 0, bits 292 (owner read, group read, others read), label 0'
searchable='owner 0, group 0, bits 365 (owner read execute, group read execute, others read execute), label 0'
sees "granted: directory, $searchable, length 3, links 1, version 0" 2 stat /rom
sees "granted: plain file, $readable, length 5, links 1, version 0" 2 stat /rom/00
sees "granted: plain file, $readable, length 512, links 1, version 0" 2 stat /rom/02
sees 'granted: name rom' 2 list / 2
sees 'granted: no name there' 2 list / 3
sees 'granted: name 02' 2 list /rom 2
sees 'granted: no name there' 2 list /rom 3
bars 'refused: 6, name missing, at name 2' 2 stat /rom/03
bars "$forbidden" 0 open /rom/00 write
bars "$forbidden" 0 create /rom/x none:none:none
bars 'refused: 11, name already there' 0 create /rom/00 none:none:none
bars 'refused: 11, name already there' 2 make-directory /rom none:none:none
bars "$forbidden" 0 unlink /rom/00
bars 'refused: 8, wrong kind of file' 0 unlink /rom
bars "$forbidden" 0 remove-directory /rom
bars "$forbidden" 0 change-bits /rom none:none:none
bars "$forbidden" 0 link /rom/00 /y
bars "$forbidden" 0 execute /rom/00
gives "call without a part" 0 'length 0, links 1, version 0' "$mritvelja" call bus 2 stat /rom
refused 'refused: 6, name missing, at name 2' 2 stat /rom/00
refused 'refused: 11, name already there' 0 create /rom none:none:none

# Open, read, and the store that is saved: without the part it is not sound, and is left as it is.
sees 'granted: descriptor 0' 2 open /rom/00 read
gives "read of a prompt" 0 'mritvelja: granted: 3 bytes' with_part call 2 read 0 3
holds "read of a prompt: its bytes" test "$(cat out)" = hel
gives "read of the rest" 0 'mritvelja: granted: 2 bytes' with_part call 2 read 0
holds "read of the rest: its bytes" test "$(cat out)" = lo
gives "show of an open prompt" 0 'Open file 0: slot 128, /rom/00; mode 1 (read), offset 5, references 1' with_part show
gives "check of an open prompt" 0 'sound' with_part check
holds "a store file has no part in it" test "$(stat -c %s bus)" -eq 71052
open_entries='an open entry on a prompt in mode 1 and not past the last prompt'
none='open file 0: slot 128 is prompt 0, but no factory part is given, or an empty one'
cp bus before
gives "check without the part" 1 "not sound: \"$open_entries\" does not hold: $none" "$mritvelja" check bus
for command in 'show bus' 'replay bus day' 'call bus 2 read 0' 'cat bus /key' 'describe bus'; do
    # shellcheck disable=SC2086 # the words are arguments
    refuses "$command without the part" "bus: not sound: \"$open_entries\" does not hold: $none" "$mritvelja" $command
done
printf '\000\000' >one-prompt
gives "check with fewer prompts" 0 'sound' "$mritvelja" check bus --rom one-prompt
put bus 69644 '\201'
gives "check of an open file past the last prompt" 1 'open file 0: slot 129 is prompt 1, but the factory part has 1 prompt' \
    "$mritvelja" check bus --rom one-prompt
put bus 69644 '\217'
gives "check of the last number" 1 'open file 0: slot 143 is prompt 15, but the factory part has 3 prompts' with_part check
put bus 69644 '\220'
gives "check past the last number" 1 'not sound: "all fields in range" does not hold: open file 0: slot is 144, not 0 to 143' with_part check
cp before bus
put bus 69648 '\002'
gives "check of a prompt open to write" 1 "\"$open_entries\" does not hold: open file 0: slot 128 is prompt 0, in mode 2, not 1" with_part check
refuses "show of a prompt open to write" "bus: not sound: \"$open_entries\"" with_part show
cp before bus
sees 'granted' 2 close 0
holds "a closed prompt leaves nothing" cmp bus console

# Show, cat and JSON.
gives "show beside a part" 0 "/rom: directory, no slot, $searchable, length 3, links 1, version 0" with_part show
holds "show beside a part: how many" grep -qx 'Files, 4 of 128 slots in use, and 3 prompts:' out
holds "show beside a part: a prompt" grep -qx "/rom/02: plain file, slot 130, $readable, length 512, links 1, version 0" out
gives "show without a part" 0 'Files, 4 of 128 slots in use:' "$mritvelja" show bus
holds "show without a part: no /rom" bash -c '! grep -q /rom out'
gives "show --json beside a part" 0 '' with_part show --json
holds "show --json: the prompts" says 'store["prompts"] == [{"slot": 128 + i, "path": "/rom/0%d" % i, "length": n} for i, n in enumerate([5, 0, 512])]'
gives "show --json without a part" 0 '' "$mritvelja" show bus --json
holds "show --json: no prompts" says 'store["prompts"] == []'
sees 'granted: slot 4' 0 symlink /hello /rom/00
for path in /rom/00 //rom///00 /hello; do
    gives "cat $path" 0 '' with_part cat "$path"
    holds "cat $path: the prompt's bytes alone" cmp out <(printf hello)
done
refuses "cat of /rom" 'bus: /rom: is a directory' with_part cat /rom
refuses "cat of a prompt that is not there" 'bus: /rom/03: name missing' with_part cat /rom/03
refuses "cat of a prompt without a part" 'bus: /rom/00: name missing' "$mritvelja" cat bus /rom/00
refuses "cat of a link to it" 'bus: /hello: name missing behind a link to /rom/00' "$mritvelja" cat bus /hello

# A script beside a part.
block 9 0 0 /rom/02 ''
gives "replay beside a part" 0 '# 1: process 0, stat /rom/02: granted: plain file, owner 0, group 0, bits 292' with_part replay link.script --explain
block 2 0 0 /rom/x ''
gives "replay beside a part: a refusal" 0 '1 call refused with 9, bits or ownership forbid' with_part replay link.script
gives "a part by a pipe" 0 'and 1 prompt:' bash -c '"$0" show bus --rom <(printf "\001\000x")' "$mritvelja"

# bad WHAT TEXT BYTES: a part that every command refuses before it does anything, the store's file not there included.
bad() {
    local what=$1 text=$2
    printf '%b' "$3" >bad-part
    cp bus before
    for command in 'show bus' 'check bus' 'replay bus day' 'replay bus -' 'call bus 2 fork' 'call bus 2 write 0 -' 'cat bus /key' 'show missing'; do
        # shellcheck disable=SC2086 # the words are arguments
        refuses "$command with $what" "bad-part: not a factory part: $text" "$mritvelja" $command --rom bad-part
    done
    holds "$what changes nothing" cmp bus before
}
bad 'half a length' 'prompt 0, which begins at byte 0: expected a length of 2 bytes, found 1 byte' '\0005'
bad 'a short prompt' 'prompt 1, which begins at byte 3: expected 5 bytes after its length, found 4 bytes' '\0001\0000x\0005\0000hell'
bad 'a prompt over 512 bytes' 'prompt 0, which begins at byte 0: expected a length of at most 512, found 513' "\\0001\\0002$(printf 'x%.0s' {1..513})"
bad 'a length big end first' 'prompt 0, which begins at byte 0: expected a length of at most 512, found 1280' '\0000\0005hello'
bad 'a byte after the sixteenth' 'prompt 15 ends at byte 32: expected the end of the part, found more bytes' "$(printf '\\0000%.0s' {1..33})"
bad 'a seventeenth prompt' 'prompt 15 ends at byte 32: expected the end of the part, found more bytes' "$(printf '\\0000%.0s' {1..34})"
head -c 32 /dev/zero >sixteen
gives "sixteen prompts" 0 'and 16 prompts:' "$mritvelja" show bus --rom sixteen
gives "an empty part" 0 'Files, 5 of 128 slots in use:' "$mritvelja" show bus --rom /dev/null
refuses "a part that is not there" 'no-part: cannot be read: No such file or directory' "$mritvelja" check bus --rom no-part
refuses "a part that is a directory" '.: cannot be read: Is a directory' "$mritvelja" check bus --rom .
refuses "a part of an odd name" "$said: cannot be read: No such file" "$mritvelja" check bus --rom "$odd"
refuses "a part without an end" '/dev/zero: not a factory part: prompt 15 ends at byte 32' "$mritvelja" check bus --rom /dev/zero
for arguments in 'show bus --rom' 'show bus --rom=' 'show bus --rom -' 'check bus --rom part --rom part' 'new unmade --rom part' 'describe bus --rom part' 'convert bus unmade --rom part'; do
    # shellcheck disable=SC2086 # the words are arguments
    gives "arguments '$arguments'" 2 'usage: mritvelja' "$mritvelja" $arguments
done
holds "no store is made of them" test ! -e unmade

# A store from before that has the name in its root.
reserved='not sound: "rom in the root is reserved" does not hold: directory in slot 0, entry 1: it has that name'
cp console damaged
put damaged $((4108 + 16)) 'rom\000'
gives "check of a stored rom" 1 "$reserved" "$mritvelja" check damaged
gives "check of a stored rom beside a part" 1 "$reserved" "$mritvelja" check damaged --rom part
refuses "replay on a stored rom" "damaged: $reserved" "$mritvelja" replay damaged day
refuses "describe of a stored rom" "damaged: $reserved" "$mritvelja" describe damaged
spoilt version-1 $((12 + 128 * 28 + 16)) 'rom\000' "a stored rom" "$reserved"
wrong 'line 2: /rom is reserved for the factory part, which is in no description' 'mritvelja description 2\ndirectory /rom\n'
wrong 'line 3: /rom is reserved' 'mritvelja description 2\nfile /a\nlink /rom to /a\n'
wrong 'line 2: /rom is reserved' 'mritvelja description 2\nopen 0 path /rom/00 mode read\n'
