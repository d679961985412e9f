/* The paper's test console, built and called from C; with an argument, saved to a store file of that name. */
#define _POSIX_C_SOURCE 200809L
#include <inttypes.h>
#include <stdio.h>
#include <string.h>

#include "mritvelja_file.h"

/* The group of every file and process here. */
enum { GROUP = 1 };

static void set_file(mritvelja_store *s, int slot, uint32_t kind, uint32_t owner, uint32_t bits, uint32_t label,
                     uint32_t length, uint32_t links) {
  uint32_t *record = s->files + MRITVELJA_FILE_WIDTH * slot;
  record[MRITVELJA_FILE_KIND] = kind;
  record[MRITVELJA_FILE_OWNER] = owner;
  record[MRITVELJA_FILE_GROUP] = GROUP;
  record[MRITVELJA_FILE_BITS] = bits;
  record[MRITVELJA_FILE_LABEL] = label;
  record[MRITVELJA_FILE_LENGTH] = length;
  record[MRITVELJA_FILE_LINKS] = links;
}

static void set_dirent(mritvelja_store *s, int directory, int entry, const char *name, uint8_t slot) {
  uint8_t *dirent = s->contents + MRITVELJA_BLOCK * directory + MRITVELJA_DIRENT_WIDTH * entry;
  memcpy(dirent, name, strlen(name));
  dirent[MRITVELJA_NAME] = slot;
}

/* The factory part: one prompt, its length and its bytes. */
static const uint8_t rom[] = {5, 0, 'h', 'e', 'l', 'l', 'o'};

/* /fares, /fares/now and /key; processes 0, 1 and 2 with labels 0, 1 and 2. */
static void make_console(mritvelja_store *s) {
  mritvelja_empty(s);
  set_file(s, 0, MRITVELJA_DIRECTORY, 0, 0755, 0, 2, 0);
  set_file(s, 1, MRITVELJA_DIRECTORY, 10, 0755, 0, 1, 1);
  set_file(s, 2, MRITVELJA_PLAIN, 10, 0744, 0, 5, 1);
  set_file(s, 3, MRITVELJA_PLAIN, 10, 0700, 3, 4, 1);
  set_dirent(s, 0, 0, "fares", 1);
  set_dirent(s, 0, 1, "key", 3);
  set_dirent(s, 1, 0, "now", 2);
  memcpy(s->contents + MRITVELJA_BLOCK * 2, "2.40\n", 5);
  memcpy(s->contents + MRITVELJA_BLOCK * 3, "\1\2\3\4", 4);
  mritvelja_set_process(s, 0, 0, GROUP, 0);
  mritvelja_set_process(s, 1, 10, GROUP, 1);
  mritvelja_set_process(s, 2, 20, GROUP, 2);
  mritvelja_set_rights(s, 0, 0, 7);
  mritvelja_set_rights(s, 1, 0, 7);
  mritvelja_set_rights(s, 2, 0, 5);
  mritvelja_set_rights(s, 1, 3, 2);
}

static void say(const char *what, mritvelja_answer answer) {
  printf("%s: ", what);
  if (answer.refusal == MRITVELJA_GRANTED)
    printf("granted, value %" PRIu32 "\n", answer.value);
  else
    printf("refused with %" PRIu32 " (%s), stop %" PRIu32 "\n", answer.refusal, mritvelja_refusal_text(answer.refusal),
           answer.stop);
}

/* A link, read and followed. */
static void follow_link(mritvelja_store *s) {
  uint8_t buffer[16] = {0};
  say("0 makes the link /today to /fares/now", mritvelja_symlink(s, 0, "/today", "/fares/now"));
  mritvelja_answer answer = mritvelja_readlink(s, 2, "/today", buffer, sizeof buffer);
  say("2 reads the link /today", answer);
  printf("the text read: %.*s\n", (int)answer.value, (const char *)buffer);
  answer = mritvelja_open(s, 2, "/today", MRITVELJA_MODE_READ);
  say("2 opens /today, mode 1", answer);
  answer = mritvelja_read(s, 2, (uint8_t)answer.value, buffer, sizeof buffer);
  say("2 reads into 16 bytes", answer);
  printf("the bytes read: %.*s", (int)answer.value, (const char *)buffer);
}

/* A prompt, read by two borrowing reads: the bytes of both are there at once, since nothing is copied. */
static void speak_prompt(mritvelja_store *s) {
  mritvelja_borrowed first, second;
  printf("beside the factory part it is sound: %d\n", mritvelja_set_rom(s, rom, sizeof rom));
  mritvelja_answer answer = mritvelja_open(s, 2, "/rom/00", MRITVELJA_MODE_READ);
  say("2 opens /rom/00, mode 1", answer);
  const uint8_t *begin = mritvelja_borrow(s, 2, (uint8_t)answer.value, 3, &first);
  const uint8_t *rest = mritvelja_borrow(s, 2, (uint8_t)answer.value, 512, &second);
  if (begin == NULL || rest == NULL) return;
  printf("2 borrows %" PRIu32 " bytes, then %" PRIu32 ": %.*s, %.*s\n", first.value, second.value, (int)first.value,
         (const char *)begin, (int)second.value, (const char *)rest);
  say("0 unlinks /rom/00", mritvelja_unlink(s, 0, "/rom/00"));
}

int main(int count, char **words) {
  static mritvelja_store s;
  uint8_t buffer[16] = {0};
  mritvelja_answer answer;

  make_console(&s);
  if (count > 1) {
    if (mritvelja_save(&s, words[1])) return 0;
    perror(words[1]);
    return 1;
  }
  printf("the test console is sound: %" PRIu32 "\n", mritvelja_is_sound(&s));

  answer = mritvelja_open(&s, 2, "/fares/now", MRITVELJA_MODE_READ);
  say("2 opens /fares/now, mode 1", answer);
  answer = mritvelja_read(&s, 2, (uint8_t)answer.value, buffer, sizeof buffer);
  say("2 reads into 16 bytes", answer);
  printf("the bytes read: %.*s", (int)answer.value, (const char *)buffer);

  say("0 opens /key, mode 1", mritvelja_open(&s, 0, "/key", MRITVELJA_MODE_READ));
  say("2 stats /fares/no", mritvelja_stat(&s, 2, "/fares/no"));
  answer = mritvelja_stat(&s, 2, "//fares///now");
  say("2 stats //fares///now", answer);
  printf("its length: %" PRIu32 "\n", answer.fields[MRITVELJA_FILE_LENGTH]);
  answer = mritvelja_list(&s, 2, "/", 1);
  say("2 lists name 1 of /", answer);
  printf("the name: %.*s\n", (int)answer.name_length, (const char *)answer.name);

  follow_link(&s);
  speak_prompt(&s);
  return 0;
}
