# shellcheck shell=bash disable=SC2154,SC2016 # tests/command sets the names; some lines are for another shell
# The lock: runs that write wait for each other and for those that read, and say so.

# while_locked HOW SECONDS COMMAND: the command while another program holds the lock of bus, exclusive (-x) or shared (-s), so long.
while_locked() {
    local how=$1 seconds=$2 holder
    shift 2
    rm -f is-locked
    python3 -c 'import fcntl, sys, time
file = open("bus")
fcntl.flock(file, {"-x": fcntl.LOCK_EX, "-s": fcntl.LOCK_SH}[sys.argv[1]])
open("is-locked", "w").close()
time.sleep(float(sys.argv[2]))' "$how" "$seconds" &
    holder=$!
    until [ -e is-locked ]; do sleep 0.02; done
    local found=0
    "$@" || found=$?
    kill "$holder" 2>/dev/null || true
    wait "$holder" 2>/dev/null || true
    return "$found"
}

fresh bus
for command in 'replay bus day' 'call bus 2 fork' 'show bus' 'check bus' 'describe bus' 'cat bus /key'; do
    # shellcheck disable=SC2086 # the words are arguments
    refuses "$command --wait 0 on a store that is locked" 'bus: is still locked after 0 seconds, which process ' \
        while_locked -x 5 "$mritvelja" $command --wait 0
    holds "$command --wait 0: who may hold it" grep -q 'process [0-9]* (python[^)]*) may hold; nothing was changed' err
done
refuses "--wait 1" 'bus: is still locked after 1 second, which process ' while_locked -x 5 "$mritvelja" replay bus day --wait 1
holds "a store that is locked is left as it is" cmp bus console
for command in 'show bus' 'check bus' 'describe bus' 'cat bus /key'; do
    # shellcheck disable=SC2086 # the words are arguments
    gives "$command beside another that reads" 0 '' while_locked -s 5 "$mritvelja" $command --wait 0
done
refuses "replay beside one that reads" 'bus: is still locked' while_locked -s 5 "$mritvelja" replay bus day --wait 0
# By a clock that stands still no wait is long, and by one that hurries each is.
gives "a short wait" 0 'the store did not change' while_locked -x 0.3 hurried 0 "$mritvelja" replay bus /dev/null
holds "a short wait is not told" test "$(wc -l <err)" -eq 1
gives "a long wait" 0 'mritvelja: bus: waits for its lock, which process ' while_locked -x 1 hurried 100 "$mritvelja" replay bus day
holds "a long wait is told once" test "$(grep -c 'waits for its lock' err)" -eq 1
holds "after a long wait the store is saved" cmp bus whole
fresh bus
gives "a wait longer than any clock" 0 'the store is saved' "$mritvelja" replay bus day --wait 18446744073709551615

# A lock outlives the process that took it where another has the file open; then nobody is named.
exec 9<bus
flock 9
refuses "a lock whose taker is gone" 'bus: is still locked after 0 seconds, which another program holds; nothing was changed' \
    "$mritvelja" show bus --wait 0
exec 9<&-
