# shellcheck shell=bash disable=SC2154,SC2016 # tests/command sets the names; some lines are for another shell
# Saving: whole or not at all; what the file was it stays; nothing is left beside it.

printf 'proc=2\ncall=9\nfd=0\narg=0\npath=/fares/now\ndata=\n' >stat
fresh bus
before=$(stat -c '%i %y' bus)
gives "a script that changes nothing" 0 'the store did not change' "$mritvelja" replay bus stat
holds "a store that did not change is not written" test "$before" = "$(stat -c '%i %y' bus)"

chmod 640 bus
ln -sf bus link
gives "a store behind a link" 0 'the store is saved' "$mritvelja" replay link day
holds "a link stays a link" test -L link
holds "the store behind it is saved" cmp bus whole
holds "the permissions are kept" test "$(stat -c %a bus)" = 640
holds "nothing is left beside the store" no_leftovers

# The name that this very process will take first is taken, by a file that another process still holds.
fresh bus
gives "a temporary file of another run" 0 'the store is saved' bash -c 'exec 9>.bus.mritvelja-$$-0.tmp; flock 9; echo held >&9
    exec "$0" replay bus day' "$mritvelja"
holds "the store is saved all the same" cmp bus whole
holds "the other run's file is left as it is" grep -q held .bus.mritvelja-*-0.tmp
rm -f .*.tmp

# What runs that were killed left goes with the next run that holds the lock: of this store, and nothing else.
fresh bus
for call in write fsync rename; do
    failing "$call 1 kill" "$mritvelja" replay bus day >out 2>err || true
    holds "a run killed at its $call leaves one file, which names its store" test "$(find . -name '.bus.mritvelja-*.tmp' | wc -l)" -eq 1
done
touch .other.mritvelja-1-0.tmp .bus.mritvelja-1-0.keep
mkdir .bus.mritvelja-1-1.tmp
ln -s day .bus.mritvelja-1-2.tmp
gives "the run after those that were killed" 0 'the store is saved' "$mritvelja" replay bus day
holds "the run after those that were killed: the store" cmp bus whole
holds "leftovers of the store are cleared, and nothing else" test "$(find . -name '.*mritvelja-*' | sort | tr -d '\n')" = \
    "./.bus.mritvelja-1-0.keep./.bus.mritvelja-1-1.tmp./.bus.mritvelja-1-2.tmp./.other.mritvelja-1-0.tmp"
rm -rf .*mritvelja-*
long=$(printf 'l%.0s' {1..255})
fresh "$long"
gives "a store of the longest name" 0 'the store is saved' "$mritvelja" replay "$long" day

# A disk that takes no more: the system refuses the write, or stops the process in the middle of it.
fresh bus
refuses "a file that cannot be written whole" 'bus: cannot be saved: File too large' \
    bash -c 'trap "" XFSZ; ulimit -f 8; exec "$0" replay bus day' "$mritvelja"
holds "the old store stays" cmp bus console
holds "the temporary file is removed" no_leftovers
(
    ulimit -c 0 -f 8
    "$mritvelja" replay bus day >out
) 2>err || true
holds "stopped in the middle, no answer is printed" test ! -s out
holds "stopped in the middle, the old store stays" cmp bus console
gives "stopped in the middle, the next run goes on" 0 'the store is saved' "$mritvelja" replay bus day
holds "and saves the store" cmp bus whole
rm -f .*.tmp
refuses "a new store that cannot be written whole" 'fresh: cannot be made: File too large' \
    bash -c 'trap "" XFSZ; ulimit -f 8; exec "$0" new fresh' "$mritvelja"
holds "nothing is left of it" test ! -e fresh

# Output that nobody takes: the store is saved first.
fresh bus
gives "a full disk under the answers" 1 'mritvelja: standard output: cannot be written' \
    bash -c 'exec "$0" replay bus day >/dev/full' "$mritvelja"
holds "the calls answered are told all the same" grep -q '50 calls answered, the store is saved' err
holds "the store is saved before the answers are printed" cmp bus whole
for command in 'replay bus stat' 'show bus' 'check bus' '--help' '--version'; do
    gives "$command into a closed pipe" 1 'mritvelja: standard output: cannot be written: Broken pipe' \
        bash -c 'exec 3> >(true); wait $!; exec "$0" $1 >&3' "$mritvelja" "$command"
done
gives "no standard error" 1 '' bash -c 'exec "$0" show missing 2>&-' "$mritvelja"

# Runs at the same time: each waits for the one before.
fresh bus
for number in {1..8}; do
    printf 'proc=1\ncall=2\nfd=0\narg=484\npath=/fares/%s\ndata=\n' "$number" >"create-$number"
    "$mritvelja" replay bus "create-$number" >/dev/null 2>&1 &
done
wait
"$mritvelja" show bus >out
holds "no run is lost among runs at the same time" test "$(grep -c '^/fares/[1-8]: plain file' out)" -eq 8

# attribute DO FILE NAME [HEX]: sets an extended attribute, or prints it, or "none".
attribute() {
    python3 -c 'import os, sys
do, file, name, *value = sys.argv[1:]
if do == "set": os.setxattr(file, name, bytes.fromhex(value[0]))
elif name in os.listxattr(file): print(os.getxattr(file, name).hex())
else: print("none")' "$@"
}
# An access list by which user 65534 may read too, as the system stores it.
readable=0200000001000600ffffffff02000400feff000004000000ffffffff10000400ffffffff20000000ffffffff
access_list=system.posix_acl_access
fresh bus
if attribute set bus user.origin 6465706f74 2>err && attribute set bus "$access_list" "$readable" 2>err; then
    gives "a store with attributes" 0 'the store is saved' "$mritvelja" replay bus day
    holds "extended attributes are kept" test "$(attribute get bus user.origin)" = 6465706f74
    holds "access lists are kept" test "$(attribute get bus "$access_list")" = "$readable"
    mkdir inheriting
    fresh inheriting/bus
    attribute set inheriting system.posix_acl_default "$readable"
    gives "a store without an access list in a directory that gives one" 0 'the store is saved' "$mritvelja" replay inheriting/bus day
    holds "it gets none" test "$(attribute get inheriting/bus "$access_list")" = none
else
    printf 'command: attributes are not tested: %s\n' "$(tail -n 1 err)" >&2
fi
