# shellcheck shell=bash disable=SC2154,SC2016 # tests/command sets the names; some lines are for another shell
# Scripts: R-1's example, allowances, broken blocks, standard input.

cat >example <<'SCRIPT'
proc=2
call=1
fd=0
arg=1
path=/fares/now
data=
proc=2
call=11
fd=0
arg=16
path=
data=
SCRIPT
cat >expected <<'ANSWERS'
answer=0
value=0
data=
answer=0
value=5
data=322e34300a
ANSWERS
fresh bus
gives "R-1's example" 0 'mritvelja: 2 calls answered, the store is saved; that is the whole script' "$mritvelja" replay bus example
holds "R-1's example, byte for byte" cmp out expected
gives "the store afterwards" 0 'sound' "$mritvelja" check bus
gives "the open file is shown" 0 'Open file 0: slot 2, /fares/now; mode 1 (read), offset 5, references 1' "$mritvelja" show bus

holds "the example day has an answer for each call" test "$(grep -c ^answer= whole.answers)" -eq "$(grep -c ^proc= day)"
holds "the example day, byte for byte as the second program answers it" cmp whole.answers "$root/examples/day.expected"
gives "the example day's store" 0 'sound' "$mritvelja" check whole

fresh piped
"$mritvelja" replay piped - <day >answers 2>err
holds "a script on standard input: answers" cmp answers whole.answers
holds "a script on standard input: store" cmp piped whole

# in_pieces N: the day N calls at a time, each piece from where the last one said.
in_pieces() {
    local next=0 more=0
    fresh pieces
    : >answers
    while :; do
        tail -c +$((next + 1)) day | "$mritvelja" replay --calls "$1" pieces - >>answers 2>err
        more=$(sed -n 's/.*the next block begins at byte //p' err)
        [ -n "$more" ] || break
        next=$((next + more))
    done
    cmp answers whole.answers && cmp pieces whole
}
for calls in 1 2 3 7 49 50 51 99999999999; do
    holds "the day $calls calls at a time" in_pieces "$calls"
done

fresh bus
gives "an allowance of none" 0 '0 calls answered, the store did not change; the allowance is spent, the next block begins at byte 0' \
    "$mritvelja" replay bus day --calls 0
gives "an empty script" 0 '0 calls answered, the store did not change; that is the whole script' "$mritvelja" replay bus /dev/null --calls 0
gives "one call" 0 '1 call answered' "$mritvelja" replay bus day --calls 1

{ cat day && printf 'proc=1\ncall=16\nfd=0\narg=0\npath=/\ndata=\n'; } >broken
fresh bus
size=$(stat -c %s day)
refuses "a broken block" "broken: block 51 is broken, which begins at byte $size, line 301; line 305: call 16 does not use path=" \
    "$mritvelja" replay bus broken
holds "a broken block changes nothing" cmp bus console
found=0
"$mritvelja" replay bus - <broken >out 2>err || found=$?
holds "a broken block on standard input" grep -q '^mritvelja: standard input: block 51 is broken' err
holds "a broken block on standard input: status 1" test "$found" -eq 1
holds "a broken block on standard input changes nothing" cmp bus console
gives "a broken block past the allowance" 0 "50 calls answered, the store is saved; the allowance is spent, the next block begins at byte $size" \
    "$mritvelja" replay bus broken --calls 50
holds "what came before it is saved" cmp bus whole

fresh bus
for bytes in 1 37 50 $((size - 1)); do
    head -c "$bytes" day >cut.script
    refuses "a script cut at byte $bytes" 'is broken' "$mritvelja" replay bus cut.script
    holds "a script cut at byte $bytes changes nothing" cmp bus console
done
sed 's/$/\r/' day >returns
refuses "a script with carriage returns" 'block 1 is broken, which begins at byte 0, line 1; line 1: the number is not decimal' \
    "$mritvelja" replay bus returns

refuses "no script" 'none: cannot be read: No such file or directory' "$mritvelja" replay bus none
refuses "a directory for a script" '.: cannot be read: Is a directory' "$mritvelja" replay bus .
holds "without a script nothing changes" cmp bus console

# The longest answers, more than a buffer holds at once.
{
    printf 'proc=1\ncall=2\nfd=0\narg=511\npath=/fares/long\ndata=\n'
    printf 'proc=1\ncall=1\nfd=0\narg=3\npath=/fares/long\ndata=\n'
    printf 'proc=1\ncall=12\nfd=0\narg=0\npath=\ndata=%s\n' "$(printf 'ab%.0s' {1..512})"
    for _ in {1..200}; do
        printf 'proc=1\ncall=13\nfd=0\narg=0\npath=\ndata=\nproc=1\ncall=11\nfd=0\narg=512\npath=\ndata=\n'
    done
} >long-answers
gives "200 reads of 512 bytes" 0 '403 calls answered' "$mritvelja" replay bus long-answers
holds "200 reads of 512 bytes: every byte" test "$(grep -c '^data=\(ab\)\{512\}$' out)" -eq 200

# How far a long run is: told on a terminal, here one second each millisecond, and nowhere else.
python3 -c 'print("proc=7\ncall=15\nfd=0\narg=0\npath=\ndata=\n" * 100000, end="")' >long-script
python3 -c 'import os, pty, sys
os._exit(os.waitstatus_to_exitcode(pty.spawn(sys.argv[1:])))' bash -c 'LD_PRELOAD="$0" HURRY=1000 "$@" >out' \
    "$directory/failing.so" "$mritvelja" replay console long-script </dev/null >terminal
holds "progress on a terminal" grep -q '^mritvelja: [0-9]* calls made so far, [0-9]* percent of the script' terminal
holds "progress on a terminal: the answers are as ever" test "$(grep -c '^answer=2$' out)" -eq 100000
gives "no progress elsewhere" 0 '100000 calls answered' hurried 1000 "$mritvelja" replay console long-script
holds "no progress elsewhere: two lines on standard error" test "$(wc -l <err)" -eq 2
rm -f long-script terminal
