# shellcheck shell=bash disable=SC2154,SC2016 # tests/command sets the names; some lines are for another shell
# A script or answers that do not fit the memory: told, and nothing changes.

# limited KILOBYTES COMMAND: the command with so much address space.
limited() {
    bash -c 'ulimit -c 0 -v "$1"; shift; exec "$@"' _ "$@"
}

fresh bus
gives "within the limit" 0 'the store is saved' limited 50000 "$mritvelja" replay bus day
fresh bus
truncate -s 100M large
refuses "a script that does not fit" 'large: cannot be read: out of memory' limited 50000 "$mritvelja" replay bus large
refuses "a script on standard input that does not fit" 'standard input: cannot be read: out of memory' \
    bash -c 'ulimit -c 0 -v 50000; exec "$0" replay bus - <large' "$mritvelja"
rm -f large

# Some 5 MB of script whose answers have over 60: seeks to the beginning and reads of 512 bytes.
{
    printf 'proc=1\ncall=2\nfd=0\narg=511\npath=/fares/long\ndata=\n'
    printf 'proc=1\ncall=1\nfd=0\narg=3\npath=/fares/long\ndata=\n'
    printf 'proc=1\ncall=12\nfd=0\narg=0\npath=\ndata=%s\n' "$(printf 'ab%.0s' {1..512})"
    printf 'proc=1\ncall=13\nfd=0\narg=0\npath=\ndata=\nproc=1\ncall=11\nfd=0\narg=512\npath=\ndata=\n%.0s' {1..60000}
} >many-answers
refuses "answers that do not fit" 'many-answers: the answers do not fit the memory; nothing was changed' \
    limited 50000 "$mritvelja" replay bus many-answers

# Under every limit, also one that the script just fits, the run is refused and never cut off.
cut_off=
for limit in {6500..13000..100}; do
    found=0
    limited "$limit" "$mritvelja" replay bus many-answers >out 2>err || found=$?
    [ "$found" -lt 128 ] || cut_off+=" $limit"
done
holds "no limit of memory cuts a run off, as did these of kilobytes:$cut_off" test -z "$cut_off"
holds "what does not fit changes nothing" cmp bus console
rm -f many-answers

# One block or line that alone takes half of the memory: what is wrong with it, or what it was answered, is said without a copy of it.
{
    printf 'proc=1\ncall=12\nfd=0\narg=0\npath=\ndata='
    head -c 30000000 /dev/zero | tr '\0' a
} >huge-block
{
    cat huge-block
    printf '\n'
} >huge-call
{
    printf 'mritvelja description 2\nfile /a data '
    head -c 30000000 /dev/zero | tr '\0' a
} >huge-line
refuses "a huge block that is broken" 'huge-block: block 1 is broken' limited 50000 "$mritvelja" replay bus huge-block
gives "a huge call" 0 '# 1: process 1, write of 15000000 bytes: refused: 4, descriptor not held' limited 50000 "$mritvelja" replay bus huge-call --explain
refuses "a huge line of a description" 'huge-line: line 2: it has more than 65536 bytes' limited 50000 "$mritvelja" new unmade --from huge-line
rm -f huge-*
