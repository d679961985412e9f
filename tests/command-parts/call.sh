# shellcheck shell=bash disable=SC2154,SC2016 # tests/command sets the names; some lines are for another shell
# One call from the shell, and answers in words.

fresh bus
# answers WORDS CALL: the call on bus is answered in these words on standard output, and granted.
answers() {
    local words=$1
    shift
    gives "call $*" 0 '' "$mritvelja" call bus "$@"
    holds "call $*: $words" test "$(cat out)" = "$words"
}
# refused WORDS CALL: the same, but refused with status 1, and the store stays.
refused() {
    local words=$1
    shift
    cp bus before
    gives "call $*" 1 '' "$mritvelja" call bus "$@"
    holds "call $*: $words" test "$(cat out err)" = "$words"
    holds "call $*: a refused call changes nothing" cmp bus before
}
answers 'granted: descriptor 0' 2 open /fares/now read
gives "call read" 0 'mritvelja: granted: 5 bytes' "$mritvelja" call bus 2 read 0 16
holds "call read: the bytes alone are on standard output" cmp out <(printf '2.40\n')
answers 'granted: offset 2' 2 seek 0 2
gives "call read --hex" 0 'mritvelja: granted: 3 bytes' "$mritvelja" call bus 2 read 0 --hex
holds "call read --hex: the bytes as digits" test "$(cat out)" = 34300a
answers 'granted: descriptor 1' 2 duplicate 0
answers 'granted: process 3' 2 fork
answers 'granted' 3 close 0
answers 'granted: slot 4' 1 create /fares/next read,write:none:none
answers 'granted: descriptor 0' 1 open /fares/next both,truncate
answers 'granted: 4 bytes' 1 write 0 2.60
gives "call write from standard input" 0 'granted: 3 bytes' bash -c 'printf "\000\n\377" | "$0" call bus 1 write 0 -' "$mritvelja"
answers 'granted: offset 0' 1 seek 0 0
gives "call read of any bytes" 0 'granted: 7 bytes' "$mritvelja" call bus 1 read 0
holds "call read of any bytes: every one" cmp out <(printf '2.60\000\n\377')
answers 'granted' 1 link /fares/next /fares/later
answers 'granted: name later' 1 list /fares 0
answers 'granted: no name there' 1 list /fares 3
answers 'granted' 1 unlink /fares/next
answers 'granted' 1 change-bits /fares/later execute,read:read:none
answers 'granted: plain file, owner 10, group 1, bits 352 (owner read execute, group read, others none), label 0, length 7, links 1, version 2' 1 stat /fares/later
answers 'granted: slot 5' 1 make-directory /fares/old none:none:none
answers 'granted' 1 remove-directory /fares/old
answers 'granted' 1 execute /fares/later
answers 'granted' 3 exit
refused 'refused: 2, process not in use' 3 fork
refused 'refused: 6, name missing, at name 2' 2 open /fares/no read
refused 'refused: 9, bits or ownership forbid' 2 create /fares/mine read:read:read
refused 'refused: 10, label forbids' 0 open /key read
refused 'refused: 3, malformed call' 2 open /fares/now read,truncate
refused 'mritvelja: refused: 4, descriptor not held' 2 read 200
# The first class that fits decides alone.
answers 'granted' 1 change-bits /fares/later none:read,execute:read,execute
refused 'refused: 9, bits or ownership forbid' 1 open /fares/later read
answers 'granted: descriptor 2' 2 open /fares/later read
answers 'granted' 1 change-bits /fares/later read:none:read
refused 'refused: 9, bits or ownership forbid' 2 open /fares/later read
refused 'refused: 9, bits or ownership forbid' 0 execute /fares/later
gives "the store after the calls" 0 'sound' "$mritvelja" check bus

for arguments in 'call' 'call bus' 'call bus 2' 'call bus x fork' 'call bus 256 fork' 'call bus 2 jump' 'call bus 2 fork more' 'call bus 2 open /x' \
    'call bus 2 open /x 1' 'call bus 2 create /x 4' 'call bus 2 create /x read' 'call bus 2 create /x read:read:read:read' 'call bus 2 change-bits /x ::' 'call bus 2 read x' 'call bus 2 read 0 65536' 'call bus 2 symlink' 'call bus 2 symlink /x' 'call bus 2 symlink /x /y /z' 'call bus 2 readlink' 'call bus 2 readlink /x 65536' \
    'call bus 2 readlink /x 1 2' 'call bus 2 rename' 'call bus 2 rename /x' 'call bus 2 rename /x /y /z' 'call bus 2 seek 0 -1' 'call - 2 fork'; do
    # shellcheck disable=SC2086 # the words are arguments
    gives "arguments '$arguments'" 2 'usage: mritvelja' "$mritvelja" $arguments
done
refuses "call on no store" 'missing: cannot be opened' "$mritvelja" call missing 2 fork
cp bus before
refuses "call with standard output closed" 'standard output: is not open for writing' bash -c 'exec "$0" call bus 2 fork >&-' "$mritvelja"
holds "call with standard output closed changes nothing" cmp bus before
gives "call whose answer cannot be printed" 1 'standard output: cannot be written' bash -c 'exec "$0" call bus 2 fork >/dev/full' "$mritvelja"

# Answers of a script in words.
fresh bus
gives "replay --explain" 0 '# 34: process 2, stat /fares/tomorrow: refused: 6, name missing' "$mritvelja" replay bus day --explain
holds "replay --explain: a line for each call" test "$(grep -c '^# [0-9]*: process ' out)" -eq 50
holds "replay --explain: the exact form beside it" cmp whole.answers <(grep -v '^#' out)
holds "replay --explain: the store" cmp bus whole
holds "refusals are counted by name" grep -qx 'mritvelja: 2 calls refused with 10, label forbids' err
counted=0
while read -r count; do counted=$((counted + count)); done < <(sed -n 's/mritvelja: \([0-9]*\) calls\? refused with.*/\1/p' err)
holds "every refusal is counted" test "$counted" -eq "$(grep -c '^answer=[^0]' whole.answers)"
