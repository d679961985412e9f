# shellcheck shell=bash disable=SC2154,SC2016 # tests/command sets the names; some lines are for another shell
# The struct and its functions for C and C++, against the command: each call by its name, files loaded and saved.

cat >calls.c <<'C'
#define _POSIX_C_SOURCE 200809L
#include "mritvelja_file.h"

static int say(mritvelja_answer answer) {
  printf("%u %u %u\n", (unsigned)answer.refusal, (unsigned)answer.stop, (unsigned)answer.value);
  return answer.refusal != 0;
}

int main(int count, char **words) {
  static mritvelja_store s;
  uint8_t buffer[16];
  if (count != 3 || !mritvelja_load(&s, words[1])) {
    perror("load");
    return 1;
  }
  say(mritvelja_open(&s, 2, "/fares/now", MRITVELJA_MODE_READ));
  say(mritvelja_read(&s, 2, 0, buffer, sizeof buffer));
  fwrite(buffer, 1, 5, stdout);
  say(mritvelja_seek(&s, 2, 0, 2));
  say(mritvelja_duplicate(&s, 2, 0));
  say(mritvelja_fork(&s, 2));
  say(mritvelja_close(&s, 3, 1));
  say(mritvelja_exit(&s, 3));
  say(mritvelja_create(&s, 1, "/fares/next", 0777));
  say(mritvelja_open(&s, 1, "/fares/next", MRITVELJA_MODE_WRITE | MRITVELJA_MODE_TRUNCATE));
  say(mritvelja_write(&s, 1, 0, "2.60\n", 5));
  say(mritvelja_link(&s, 1, "/fares/next", "/fares/later"));
  say(mritvelja_unlink(&s, 1, "/fares/next"));
  say(mritvelja_make_directory(&s, 1, "/fares/old", 0744));
  say(mritvelja_remove_directory(&s, 1, "/fares/old"));
  say(mritvelja_list(&s, 1, "/fares", 0));
  say(mritvelja_change_bits(&s, 1, "/fares/later", 0554));
  say(mritvelja_stat(&s, 1, "/fares/later"));
  say(mritvelja_execute(&s, 1, "/fares/later"));
  say(mritvelja_symlink(&s, 0, "/today", "/fares/later"));
  say(mritvelja_readlink(&s, 2, "/today", buffer, sizeof buffer));
  fwrite(buffer, 1, 12, stdout);
  fputc('\n', stdout);
  say(mritvelja_readlink(&s, 2, "/today", buffer, 0));
  say(mritvelja_open(&s, 2, "/today", MRITVELJA_MODE_READ));
  say(mritvelja_symlink(&s, 0, "/again", "/again"));
  say(mritvelja_open(&s, 2, "/again", MRITVELJA_MODE_READ));
  say(mritvelja_symlink(&s, 0, "/bad", "no path"));
  say(mritvelja_rename(&s, 1, "/fares/later", "/fares/soon"));
  say(mritvelja_rename(&s, 0, "/again", "/fares/again"));
  say(mritvelja_rename(&s, 0, "/fares", "/fares/fares"));
  say(mritvelja_rename(&s, 2, "/fares/soon", "/fares/no/x"));
  say(mritvelja_open(&s, 2, "/fares/none", MRITVELJA_MODE_READ));
  say(mritvelja_read(&s, 2, 7, buffer, 0));
  if (!mritvelja_save(&s, words[2])) {
    perror("save");
    return 1;
  }
  return 0;
}
C
flags=(-Wall -Wextra -Wpedantic -Werror -O2 -I"$root/include")
holds "the headers are C" gcc -std=c99 "${flags[@]}" -o calls-c calls.c "$root/target/library/libmritvelja.a"
programs=(calls-c)
if command -v g++ >/dev/null; then
    holds "the headers are C++" g++ -x c++ -std=c++11 "${flags[@]}" -o calls-c++ calls.c -x none "$root/target/library/libmritvelja.a"
    programs+=(calls-c++)
fi

cat >numbers.c <<'C'
#include <stdio.h>
#include "mritvelja_store.h"

int main(void) {
  static mritvelja_store s, before;
  mritvelja_empty(&s);
  before = s;
  int wrong = mritvelja_set_process(&s, 8, 0, 0, 0) + mritvelja_set_process(&s, 0, 0, 0, 16) + mritvelja_set_rights(&s, 16, 0, 0) +
              mritvelja_set_rights(&s, 0, 16, 0) + mritvelja_set_rights(&s, 0, 0, 8) + mritvelja_set_transition(&s, 16, 0, 0) +
              mritvelja_set_transition(&s, 0, 16, 0) + mritvelja_set_transition(&s, 0, 0, 16);
  int is_same = memcmp(&s, &before, sizeof s) == 0;
  int right = mritvelja_set_process(&s, 7, 65535, 65535, 15) + mritvelja_set_rights(&s, 15, 15, 7) + mritvelja_set_transition(&s, 15, 15, 15) +
              mritvelja_set_transition(&s, 15, 14, MRITVELJA_NO_TRANSITION);
  printf("%d %d %d %u %s\n", wrong, is_same, right, (unsigned)mritvelja_is_sound(&s), mritvelja_refusal_text(16));
  return 0;
}
C
cat >prompts.c <<'C'
#define _POSIX_C_SOURCE 200809L
#include "mritvelja_file.h"

static mritvelja_store s;

static const uint8_t *borrow(uint8_t process, uint8_t descriptor, uint32_t count) {
  mritvelja_borrowed borrowed;
  const uint8_t *bytes = mritvelja_borrow(&s, process, descriptor, count, &borrowed);
  if (bytes == NULL)
    printf("refused %u %u %u %u\n", (unsigned)borrowed.refusal, (unsigned)borrowed.value, (unsigned)borrowed.memory, (unsigned)borrowed.at);
  else if (borrowed.value == 0)
    printf("none\n");
  else
    printf("%u in %u: %.*s\n", (unsigned)borrowed.value, (unsigned)borrowed.memory, (int)(borrowed.value < 8 ? borrowed.value : 8), (const char *)bytes);
  return bytes;
}

static void lent(int is_done) { printf("%d: %u bytes\n", is_done, (unsigned)s.rom_size); }

int main(int count, char **words) {
  static uint8_t part[523] = "\5\0hello\0\0\0\2";
  static const uint8_t bad[] = {1};
  memset(part + 11, 'x', 512);
  if (count != 3) return 1;
  lent(mritvelja_load(&s, words[1]) && s.rom != NULL);
  lent(mritvelja_set_rom(&s, bad, sizeof bad));
  lent(mritvelja_set_rom(&s, part, sizeof part));
  mritvelja_open(&s, 2, "/rom/00", MRITVELJA_MODE_READ);
  mritvelja_open(&s, 2, "/fares/now", MRITVELJA_MODE_READ);
  mritvelja_open(&s, 2, "/rom/02", MRITVELJA_MODE_READ);
  mritvelja_open(&s, 1, "/key", MRITVELJA_MODE_WRITE);
  /* The first part is still held when the second is read, from either memory. */
  const uint8_t *first = borrow(2, 0, 3), *second = borrow(2, 0, 512);
  printf("%.3s%.2s %d\n", (const char *)first, (const char *)second, first == part + 2);
  first = borrow(2, 1, 3), second = borrow(2, 1, 512);
  printf("%.3s%.2s%d\n", (const char *)first, (const char *)second, first == s.contents + 2 * MRITVELJA_BLOCK);
  borrow(2, 0, 512);
  borrow(2, 1, 1);
  borrow(2, 2, 0);
  borrow(2, 2, 512);
  borrow(2, 2, 512);
  mritvelja_seek(&s, 2, 0, 512);
  borrow(2, 0, 512);
  borrow(7, 0, 513);
  borrow(2, 0, 513);
  borrow(2, 5, 513);
  borrow(2, 5, 512);
  borrow(1, 0, 512);
  if (!mritvelja_save(&s, words[2])) return 1;
  lent(mritvelja_load(&s, words[2]));
  lent(mritvelja_load_with_rom(&s, words[2], part, sizeof part));
  lent(mritvelja_set_rom(&s, NULL, 0));
  mritvelja_exit(&s, 2);
  lent(mritvelja_set_rom(&s, NULL, 0) && s.rom != NULL);
  s.rom = bad, s.rom_size = sizeof bad;
  borrow(1, 0, 513);
  return 0;
}
C
printf '%s\n' '1: 0 bytes' '0: 0 bytes' '1: 523 bytes' '3 in 1: hel' '2 in 1: lo' 'hello 1' '3 in 0: 2.4' '2 in 0: 0' '' 2.40 1 none none none '512 in 1: xxxxxxxx' none none \
    'refused 2 0 0 0' 'refused 3 0 0 0' 'refused 3 0 0 0' 'refused 4 0 0 0' 'refused 5 0 0 0' '0: 0 bytes' '1: 523 bytes' '0: 523 bytes' '1: 0 bytes' 'refused 1 0 0 0' >c-prompts
holds "C: prompts compile" gcc -std=c99 "${flags[@]}" -fsanitize=address,undefined -o prompts prompts.c "$root/target/library/libmritvelja.a"
gives "C: prompts" 0 '' ./prompts console c-prompt-store
holds "C: prompts: the part, and what is borrowed" cmp out c-prompts
if command -v g++ >/dev/null; then
    holds "C++: prompts compile" g++ -x c++ -std=c++11 "${flags[@]}" -o prompts-c++ prompts.c -x none "$root/target/library/libmritvelja.a"
    gives "C++: prompts" 0 '' ./prompts-c++ console c-prompt-store
    holds "C++: prompts: the same" cmp out c-prompts
fi

holds "C: numbers out of range compile" gcc -std=c99 "${flags[@]}" -fsanitize=address,undefined -o numbers numbers.c "$root/target/library/libmritvelja.a"
gives "C: numbers out of range set nothing" 0 '0 1 4 1 unknown refusal' ./numbers

# The same calls by the command.
fresh c-expected
while read -r words; do
    # shellcheck disable=SC2086 # the words are arguments
    "$mritvelja" call c-expected $words >/dev/null 2>&1 || true
done <<'CALLS'
2 open /fares/now read
2 read 0 16
2 seek 0 2
2 duplicate 0
2 fork
3 close 1
3 exit
1 create /fares/next read,write,execute:read,write,execute:read,write,execute
1 open /fares/next write,truncate
1 write 0 12345
1 link /fares/next /fares/later
1 unlink /fares/next
1 make-directory /fares/old read,write,execute:read:read
1 remove-directory /fares/old
1 change-bits /fares/later read,execute:read,execute:read
0 symlink /today /fares/later
2 open /today read
0 symlink /again /again
1 rename /fares/later /fares/soon
0 rename /again /fares/again
CALLS
"$mritvelja" describe c-expected | sed 's/12345/2.60\\x0a/' >c-expected.description
printf '%s\n' '0 0 0' '0 0 5' 2.40 '0 0 2' '0 0 1' '0 0 3' '0 0 0' '0 0 0' '0 0 4' '0 0 0' '0 0 5' '0 0 0' '0 0 0' '0 0 5' '0 0 0' '0 0 1' '0 0 0' '0 0 0' \
    '0 0 0' '0 0 5' '0 0 12' /fares/later '0 0 0' '0 0 2' '0 0 6' '15 1 0' '3 0 0' '0 0 0' '0 0 0' '8 0 0' '6 2 0' '6 2 0' '4 0 0' >c-answers
for program in "${programs[@]}"; do
    cp console c-store
    chmod 640 c-store
    gives "$program" 0 '' "./$program" c-store c-store
    holds "$program: the answers" cmp out c-answers
    holds "$program: the store is as the command makes it" cmp <("$mritvelja" describe c-store) c-expected.description
    holds "$program: the permissions are kept" test "$(stat -c %a c-store)" = 640
    gives "$program: a new file" 0 '' "./$program" console c-new
    holds "$program: a new file is its maker's alone" test "$(stat -c %a c-new)" = 600
    rm -f c-new
done
: >c-empty
head -c 71051 console >c-short
{ cat console && printf x; } >c-long
head -c 71052 /dev/zero >c-zeros
cp console c-newer && put c-newer 7 '\003'
cp console c-damaged && put c-damaged $((12 + 2 * 32 + 24)) '\002'
mkdir c-folder
for wrong in c-empty c-short c-long c-zeros c-newer c-damaged version-1; do
    gives "C: load of $wrong" 1 'load: Invalid argument' ./calls-c "$wrong" c-new
    holds "C: load of $wrong: nothing is saved" test ! -e c-new
done
gives "C: load of no file" 1 'load: No such file or directory' ./calls-c c-missing c-new
gives "C: load of a directory" 1 'load: Is a directory' ./calls-c c-folder c-new
gives "C: save in no directory" 1 'save: No such file or directory' ./calls-c console none/c-new
gives "C: a save that fails" 1 'save: Input/output error' failing 'fsync 1 5' ./calls-c console c-store
holds "C: a save that fails leaves the old store" cmp <("$mritvelja" describe c-store) c-expected.description
holds "C: a save that fails leaves nothing beside it" test -z "$(find . -name 'c-store.*')"
