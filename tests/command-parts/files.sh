# shellcheck shell=bash disable=SC2154,SC2016 # tests/command sets the names; some lines are for another shell
# Store files: made, refused if they are not of the form, and left as they are.

rm -f bus
gives "new" 0 '' "$mritvelja" new bus
holds "a store file has 71052 bytes" test "$(stat -c %s bus)" -eq 71052
holds "a new store file is its maker's alone" test "$(stat -c %a bus)" = 600
gives "a new store" 0 'sound' "$mritvelja" check bus
holds "its form" cmp -n 12 bus <(printf 'MRITVEL\002\200\000\000\000')

cp bus kept
put kept 100 'x'
cp kept kept.copy
refuses "new over a file" 'kept: is already there' "$mritvelja" new kept
holds "new leaves a file as it is" cmp kept kept.copy
ln -s nowhere dangling
refuses "new over a link to nothing" 'dangling: is already there' "$mritvelja" new dangling
holds "new makes nothing where a link points" test ! -e nowhere
refuses "new in no directory" 'none/bus: cannot be made: No such file' "$mritvelja" new none/bus

: >empty
head -c 11 bus >shorter-than-the-header
head -c 71051 bus >short
{ cat bus && printf x; } >long
head -c 100000 /dev/zero >zeros
cp bus old && put old 7 '\000'
cp bus newer && put newer 7 '\003'
cp bus larger && put larger 9 '\001'
mkdir folder
mkfifo pipe

# not_a_store FILE TEXT: replay, show and check refuse it, and it stays.
not_a_store() {
    local file=$1 text=$2
    [ ! -f "$file" ] || cp "$file" before
    refuses "check $file" "$file: $text" timeout 10 "$mritvelja" check "$file"
    refuses "show $file" "$file: $text" timeout 10 "$mritvelja" show "$file"
    refuses "replay $file" "$file: $text" timeout 10 "$mritvelja" replay "$file" day
    [ ! -f "$file" ] || holds "$file is left as it is" cmp "$file" before
}
not_a_store missing 'cannot be opened: No such file or directory'
not_a_store empty 'a store file of the wrong size: expected 71052 bytes, found 0'
not_a_store shorter-than-the-header 'a store file of the wrong size: expected 71052 bytes, found 11'
not_a_store short 'a store file of the wrong size: expected 71052 bytes, found 71051'
not_a_store long 'a store file of the wrong size: expected 71052 bytes, found 71053'
not_a_store zeros 'not a store file: expected the first 7 bytes to be MRITVEL, found \x00'
not_a_store old 'a store file of another version: expected 2, found 0'
not_a_store newer 'a store file of another version: expected 2, found 3'
not_a_store larger 'a store file of another number of slots: expected 128, found 384'
not_a_store folder 'is not a regular file'
not_a_store pipe 'is not a regular file'
not_a_store /dev/zero 'is not a regular file'
