# shellcheck shell=bash disable=SC2154,SC2016 # tests/command sets the names; some lines are for another shell
# Crashes, failing disks and other programs: a store file is old or new, whole, and what was saved is answered.

# The first sync is of the bytes, the second of the name.
fresh bus
gives "a name whose sync fails" 1 'mritvelja: bus: is saved, but may be lost with the power: Input/output error' \
    failing 'fsync 2 5' "$mritvelja" replay bus day
holds "calls that were saved are answered" cmp out whole.answers
holds "the store that they made is there" cmp bus whole
holds "how far it came is told all the same" grep -q '^mritvelja: 50 calls answered, the store is saved' err
gives "a new store whose name's sync fails" 1 'mritvelja: unsynced: is made, but may be lost with the power: Input/output error' \
    failing 'fsync 2 5' "$mritvelja" new unsynced
holds "it is there, whole" cmp unsynced console
gives "both the sync and the output fail" 1 'mritvelja: standard output: cannot be written' \
    bash -c 'exec "$@" >/dev/full' _ env LD_PRELOAD="$directory/failing.so" FAILING='fsync 2 5' "$mritvelja" replay unsynced day
holds "both are told" grep -q '^mritvelja: unsynced: is saved, but may be lost with the power' err

# A store that is made is there whole or not at all, and a run that was killed does not stand in the next one's way.
for how in new 'convert version-1'; do
    # shellcheck disable=SC2206 # the words are arguments
    make=("$mritvelja" $how)
    for call in write fsync renameat2; do
        failing "$call 1 kill" "${make[@]}" unborn >out 2>err || true
        holds "$how killed at its first $call leaves no store" test ! -e unborn
        gives "$how after one killed at its first $call" 0 '' "${make[@]}" unborn
        holds "$how after one killed at its first $call: the store" cmp unborn console
        rm -f unborn .*.tmp
    done
    refuses "$how where another program takes the name meanwhile" 'taken: is already there, and is left as it is' \
        failing 'fsync 1 run cp day taken' "${make[@]}" taken
    holds "$how leaves that file as it is" cmp taken day
    holds "$how leaves nothing beside it" no_leftovers
    rm -f taken
done
# Some file systems cannot rename to a new name only; these link.
gives "new without such a rename" 0 '' failing 'renameat2 1 22' "$mritvelja" new linked
holds "new without such a rename: the store" cmp linked console
holds "new without such a rename: no second name stays" test "$(stat -c %h linked)" -eq 1
holds "new without such a rename: nothing is left beside it" no_leftovers
refuses "new where the rename fails" 'unborn: cannot be made: Input/output error' failing 'renameat2 1 5' "$mritvelja" new unborn
holds "new where the rename fails: nothing is left" no_leftovers
holds "new where the rename fails: no store" test ! -e unborn

# Another program's work on the file during a run is not overwritten: just before the new bytes are synced it ..
printf 'proc=1\ncall=2\nfd=0\narg=484\npath=/fares/other\ndata=\n' >create
# meddled WHAT COMMAND: the command runs during a replay, which is refused and leaves what that command left.
meddled() {
    local what=$1 command=$2
    fresh bus
    cp bus linked-to
    ln -sf linked-to bus-link
    refuses "$what" 'was changed or replaced by another program meanwhile; nothing was saved' failing "fsync 1 run $command" \
        "$mritvelja" replay "$3" create
    holds "$what: nothing is left beside it" no_leftovers
}
meddled "a store put in place of the old one" 'cp whole other; mv other bus' bus
holds "that store stays" cmp bus whole
meddled "a store written in place" 'cp whole bus' bus
holds "what was written stays" cmp bus whole
meddled "a store removed" 'rm bus' bus
holds "it stays removed" test ! -e bus
meddled "a store replaced by one of the same bytes" 'cp bus other; mv other bus' bus
holds "the same bytes stay" cmp bus console
meddled "a link that names another store" 'ln -sf bus bus-link' bus-link
holds "the store that it named stays" cmp linked-to console
holds "the store that it names stays" cmp bus console
fresh bus
gives "a store that was only read meanwhile" 0 'the store is saved' failing 'fsync 1 run cat bus >/dev/null' "$mritvelja" replay bus day
holds "a store that was only read meanwhile is saved" cmp bus whole
