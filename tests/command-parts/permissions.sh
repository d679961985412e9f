# shellcheck shell=bash disable=SC2154,SC2016 # tests/command sets the names; some lines are for another shell
# Files and directories that may not be read or written. User 0 may do all, so that these are tried as nobody.

as_nobody=()
if [ "$(id -u)" -eq 0 ]; then
    as_nobody=(setpriv --reuid=65534 --regid=65534 --clear-groups)
fi
if ! "${as_nobody[@]}" true 2>/dev/null; then
    printf 'command: permissions are not tested: setpriv is missing\n' >&2
    return
fi

mkdir closed
cp day closed
cp console closed/bus
[ "$(id -u)" -ne 0 ] || chown -R 65534:65534 closed
chmod 700 closed

chmod 000 closed/bus
refuses "a store that may not be read" 'closed/bus: cannot be opened: Permission denied' "${as_nobody[@]}" "$mritvelja" check closed/bus
chmod 400 closed/bus
refuses "a store that may not be written" 'closed/bus: cannot be written: Permission denied' \
    "${as_nobody[@]}" "$mritvelja" replay closed/bus closed/day
holds "it is left as it is" cmp closed/bus console
gives "it may be shown" 0 '/fares/now' "${as_nobody[@]}" "$mritvelja" show closed/bus
chmod 600 closed/bus
chmod 000 closed/day
refuses "a script that may not be read" 'closed/day: cannot be read: Permission denied' \
    "${as_nobody[@]}" "$mritvelja" replay closed/bus closed/day
chmod 600 closed/day

chmod 500 closed
refuses "a directory that may not be written" 'closed/bus: cannot be saved: Permission denied' \
    "${as_nobody[@]}" "$mritvelja" replay closed/bus closed/day
holds "the store in it is left as it is" cmp closed/bus console
holds "nothing is left beside it" no_leftovers
refuses "a new store in it" 'closed/other: cannot be made: Permission denied' "${as_nobody[@]}" "$mritvelja" new closed/other
chmod 700 closed

gives "a store that may be written" 0 'the store is saved' "${as_nobody[@]}" "$mritvelja" replay closed/bus closed/day
holds "it is saved" cmp closed/bus whole
if [ "$(id -u)" -eq 0 ]; then
    cp console closed/bus
    gives "another user's store" 0 'the store is saved' "$mritvelja" replay closed/bus closed/day
    holds "its owner and group are kept" test "$(stat -c '%u:%g' closed/bus)" = 65534:65534
fi

# A directory that may be written and not read: its names are synced with the whole file system.
cp console closed/bus
[ "$(id -u)" -ne 0 ] || chown 65534:65534 closed/bus
chmod 300 closed
gives "a directory that may not be read" 0 'the store is saved' "${as_nobody[@]}" "$mritvelja" replay closed/bus closed/day
holds "its store's calls are answered" cmp out whole.answers
gives "a new store in a directory that may not be read" 0 '' "${as_nobody[@]}" "$mritvelja" new closed/unread
gives "a sync of the file system that fails" 1 'closed/unsynced: is made, but may be lost with the power: Input/output error' \
    failing 'syncfs 1 5' "${as_nobody[@]}" "$mritvelja" new closed/unsynced
chmod 700 closed
holds "the store in it is saved" cmp closed/bus whole
holds "the new one in it is whole" cmp closed/unread console
