# shellcheck shell=bash disable=SC2154 # tests/command sets the names
# An open descriptor is no right: calls and a script by processes that execute gives another label.

cat >moving.description <<'DESCRIPTION'
mritvelja description 2
process 1 user 10 group 1 label 1
process 2 user 20 group 1 label 2
rights 1 over 0 allow read,write,execute
rights 2 over 0 allow read,execute
rights 5 over 0 allow execute
transition 1 by 0 to 2
transition 2 by 0 to 5
transition 5 by 0 to 2
directory / owner 10 group 1 bits read,write,execute:read,execute:read,execute
file /now owner 10 group 1 bits read,write,execute:read,execute:none data "2.40\x0a"
DESCRIPTION
# moves OUTPUT CALL..: the call on moving gives this output. A read's answer is on standard error, in the form of a message.
moves() {
    local output=$1 found
    shift
    found=$("$mritvelja" call moving "$@" 2>&1 || true)
    holds "call $* of a process with another label: $output, not $found" test "$found" = "$output"
}
forbidden='refused: 10, label forbids'
holds "a store with transitions" "$mritvelja" new moving --from moving.description

moves 'granted: descriptor 0' 2 open /now read
moves 'granted' 2 execute /now
cp moving before
moves "mritvelja: $forbidden" 2 read 0
moves "mritvelja: $forbidden" 2 read 0 0
moves 'refused: 5, not open for that direction' 2 write 0 x
moves 'mritvelja: refused: 4, descriptor not held' 2 read 1
holds "a refused read changes nothing" cmp moving before
moves 'granted: offset 2' 2 seek 0 2
moves 'granted: descriptor 1' 2 duplicate 0
moves 'granted' 2 close 1
moves 'granted' 2 execute /now
moves $'40\nmritvelja: granted: 3 bytes' 2 read 0

moves 'granted: descriptor 0' 1 open /now both
moves 'granted: 1 byte' 1 write 0 3
moves 'granted' 1 execute /now
moves "$forbidden" 1 write 0 x
moves "$forbidden" 1 write 0 ''
moves $'.40\nmritvelja: granted: 4 bytes' 1 read 0

# 600 bytes, which would be 14.
{
    printf 'proc=1\ncall=12\nfd=0\narg=0\npath=\ndata='
    printf '41%.0s' {1..600}
    printf '\n'
} >long
gives "a write of 600 bytes in a script" 0 'answer=10' "$mritvelja" replay moving long
gives "the store after the calls by other labels" 0 'sound' "$mritvelja" check moving
