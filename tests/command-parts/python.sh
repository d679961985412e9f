# shellcheck shell=bash disable=SC2154,SC2016 # tests/command sets the names; some lines are for another shell
# The example in Python, against the command.

fresh py-store
gives "day.py" 0 '' python3 "$root/examples/day.py" py-store day
holds "day.py: the answers" cmp out whole.answers
holds "day.py: the store" cmp py-store whole
printf 'proc=1\n' >py-broken
gives "day.py: a broken script" 1 'the block at byte 0 is broken; nothing was changed' python3 "$root/examples/day.py" py-store py-broken
holds "day.py: a broken script changes nothing" cmp py-store whole
gives "day.py: an empty script" 0 '' python3 "$root/examples/day.py" py-store /dev/null
gives "day.py: not a store" 1 'not a store file of this version' python3 "$root/examples/day.py" day day
