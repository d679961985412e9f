/* A store as one struct, with a function for each call by its name, over
 * mritvelja.h. All of it is inline: there is nothing more to link.
 *
 * A call takes the store, the process that calls, and the call's own parts. Paths
 * are C strings. Each call is tested as by mritvelja_call.
 */
#ifndef MRITVELJA_STORE_H
#define MRITVELJA_STORE_H

#include <string.h>

#include "mritvelja.h"

#ifdef __cplusplus
extern "C" {
#endif

typedef struct {
  uint32_t files[MRITVELJA_FILES_SIZE];
  uint8_t contents[MRITVELJA_CONTENTS_SIZE];
  uint32_t open_files[MRITVELJA_OPEN_FILES_SIZE];
  uint32_t processes[MRITVELJA_PROCESSES_SIZE];
  uint8_t policy[MRITVELJA_POLICY_SIZE];
  const uint8_t *rom; /* the host's memory, which is only read */
  size_t rom_size;
} mritvelja_store;

/* Lends a store rom; of 0 bytes it may be NULL. */
static inline void mritvelja_lend_rom(mritvelja_store *store, const uint8_t *rom, size_t size) {
  static const uint8_t nothing = 0;
  store->rom = size != 0 ? rom : &nothing;
  store->rom_size = size;
}

/* An empty store: a root directory of user 0 and group 0 without bits, no process, no rights,
 * no transitions, no prompts. What no call makes the host sets with the three functions after, and with
 * mritvelja_set_rom. */
static inline void mritvelja_empty(mritvelja_store *store) {
  memset(store, 0, sizeof *store);
  mritvelja_lend_rom(store, NULL, 0);
  store->files[MRITVELJA_FILE_KIND] = MRITVELJA_DIRECTORY;
  memset(store->policy + MRITVELJA_RIGHTS_SIZE, MRITVELJA_NO_TRANSITION, MRITVELJA_RIGHTS_SIZE);
}

/* Each is 1 if it is done; else 0, with a number out of range, and nothing is set. */

/* Puts a process in use. */
static inline int mritvelja_set_process(mritvelja_store *store, uint8_t process, uint16_t user, uint16_t group, uint8_t label) {
  if (process >= MRITVELJA_PROCESSES || label >= MRITVELJA_LABELS) return 0;
  uint32_t *record = store->processes + MRITVELJA_PROCESS_WIDTH * process;
  record[MRITVELJA_PROCESS_USED] = 1;
  record[MRITVELJA_PROCESS_USER] = user;
  record[MRITVELJA_PROCESS_GROUP] = group;
  record[MRITVELJA_PROCESS_LABEL] = label;
  return 1;
}

/* Says what processes of a label may do with files of a label. */
static inline int mritvelja_set_rights(mritvelja_store *store, uint8_t process_label, uint8_t file_label, uint8_t rights) {
  if (process_label >= MRITVELJA_LABELS || file_label >= MRITVELJA_LABELS ||
      rights > (MRITVELJA_READ | MRITVELJA_WRITE | MRITVELJA_EXECUTE))
    return 0;
  store->policy[MRITVELJA_LABELS * process_label + file_label] = rights;
  return 1;
}

/* Says what a process's label becomes by executing a file of a label: a label, or
 * MRITVELJA_NO_TRANSITION. */
static inline int mritvelja_set_transition(mritvelja_store *store, uint8_t process_label, uint8_t program_label, uint8_t label) {
  if (process_label >= MRITVELJA_LABELS || program_label >= MRITVELJA_LABELS ||
      (label >= MRITVELJA_LABELS && label != MRITVELJA_NO_TRANSITION))
    return 0;
  store->policy[MRITVELJA_RIGHTS_SIZE + MRITVELJA_LABELS * process_label + program_label] = label;
  return 1;
}

/* 1 where the store is sound, else 0. */
static inline uint32_t mritvelja_is_sound(const mritvelja_store *store) {
  return mritvelja_sound(store->files, MRITVELJA_FILES_SIZE, store->contents, MRITVELJA_CONTENTS_SIZE, store->open_files,
                         MRITVELJA_OPEN_FILES_SIZE, store->processes, MRITVELJA_PROCESSES_SIZE, store->policy,
                         MRITVELJA_POLICY_SIZE, store->rom, store->rom_size);
}

/* Lends a sound store the factory part, which is not copied: it must stay there and as it is. 1 where the
 * store is sound with it; else 0, and it keeps the one that it had. */
static inline int mritvelja_set_rom(mritvelja_store *store, const uint8_t *rom, size_t size) {
  const uint8_t *old = store->rom;
  size_t old_size = store->rom_size;
  mritvelja_lend_rom(store, rom, size);
  if (mritvelja_is_sound(store) == 1) return 1;
  mritvelja_lend_rom(store, old, old_size);
  return 0;
}

/* Runs a script, as mritvelja_replay does. */
static inline mritvelja_replayed mritvelja_run(mritvelja_store *store, const uint8_t *script, size_t script_size,
                                               uint32_t allowance, uint8_t *output, size_t output_size) {
  return mritvelja_replay(store->files, MRITVELJA_FILES_SIZE, store->contents, MRITVELJA_CONTENTS_SIZE, store->open_files,
                          MRITVELJA_OPEN_FILES_SIZE, store->processes, MRITVELJA_PROCESSES_SIZE, store->policy,
                          MRITVELJA_POLICY_SIZE, store->rom, store->rom_size, script, script_size, allowance, output,
                          output_size);
}

/* Any call with all of its parts. A part of no bytes still has a pointer. */
static inline mritvelja_answer mritvelja_ask(mritvelja_store *store, uint8_t process, uint8_t call, uint8_t descriptor,
                                             uint16_t number, const char *path, const void *data, size_t data_size,
                                             void *buffer, size_t buffer_size) {
  uint8_t nothing = 0;
  return mritvelja_call(store->files, MRITVELJA_FILES_SIZE, store->contents, MRITVELJA_CONTENTS_SIZE, store->open_files,
                        MRITVELJA_OPEN_FILES_SIZE, store->processes, MRITVELJA_PROCESSES_SIZE, store->policy,
                        MRITVELJA_POLICY_SIZE, store->rom, store->rom_size, process, call, descriptor, number,
                        (const uint8_t *)path, strlen(path), data_size != 0 ? (const uint8_t *)data : &nothing, data_size,
                        buffer_size != 0 ? (uint8_t *)buffer : &nothing, buffer_size);
}

/* A call that goes by a path and a number. */
static inline mritvelja_answer mritvelja_ask_path(mritvelja_store *store, uint8_t process, uint8_t call, const char *path,
                                                  uint16_t number) {
  return mritvelja_ask(store, process, call, 0, number, path, NULL, 0, NULL, 0);
}

/* A call that goes by a descriptor and a number. */
static inline mritvelja_answer mritvelja_ask_descriptor(mritvelja_store *store, uint8_t process, uint8_t call,
                                                        uint8_t descriptor, uint16_t number) {
  return mritvelja_ask(store, process, call, descriptor, number, "", NULL, 0, NULL, 0);
}

/* The calls. What each answers if granted stands with its number in mritvelja.h. */

static inline mritvelja_answer mritvelja_open(mritvelja_store *store, uint8_t process, const char *path, uint16_t mode) {
  return mritvelja_ask_path(store, process, MRITVELJA_CALL_OPEN, path, mode);
}

static inline mritvelja_answer mritvelja_create(mritvelja_store *store, uint8_t process, const char *path, uint16_t bits) {
  return mritvelja_ask_path(store, process, MRITVELJA_CALL_CREATE, path, bits);
}

static inline mritvelja_answer mritvelja_make_directory(mritvelja_store *store, uint8_t process, const char *path, uint16_t bits) {
  return mritvelja_ask_path(store, process, MRITVELJA_CALL_MAKE_DIRECTORY, path, bits);
}

static inline mritvelja_answer mritvelja_unlink(mritvelja_store *store, uint8_t process, const char *path) {
  return mritvelja_ask_path(store, process, MRITVELJA_CALL_UNLINK, path, 0);
}

static inline mritvelja_answer mritvelja_remove_directory(mritvelja_store *store, uint8_t process, const char *path) {
  return mritvelja_ask_path(store, process, MRITVELJA_CALL_REMOVE_DIRECTORY, path, 0);
}

static inline mritvelja_answer mritvelja_link(mritvelja_store *store, uint8_t process, const char *path, const char *new_path) {
  return mritvelja_ask(store, process, MRITVELJA_CALL_LINK, 0, 0, path, new_path, strlen(new_path), NULL, 0);
}

static inline mritvelja_answer mritvelja_list(mritvelja_store *store, uint8_t process, const char *path, uint16_t index) {
  return mritvelja_ask_path(store, process, MRITVELJA_CALL_LIST, path, index);
}

static inline mritvelja_answer mritvelja_change_bits(mritvelja_store *store, uint8_t process, const char *path, uint16_t bits) {
  return mritvelja_ask_path(store, process, MRITVELJA_CALL_CHANGE_BITS, path, bits);
}

static inline mritvelja_answer mritvelja_stat(mritvelja_store *store, uint8_t process, const char *path) {
  return mritvelja_ask_path(store, process, MRITVELJA_CALL_STAT, path, 0);
}

static inline mritvelja_answer mritvelja_close(mritvelja_store *store, uint8_t process, uint8_t descriptor) {
  return mritvelja_ask_descriptor(store, process, MRITVELJA_CALL_CLOSE, descriptor, 0);
}

static inline mritvelja_answer mritvelja_read(mritvelja_store *store, uint8_t process, uint8_t descriptor, void *buffer, size_t size) {
  return mritvelja_ask(store, process, MRITVELJA_CALL_READ, descriptor, 0, "", NULL, 0, buffer, size);
}

static inline mritvelja_answer mritvelja_write(mritvelja_store *store, uint8_t process, uint8_t descriptor, const void *data, size_t size) {
  return mritvelja_ask(store, process, MRITVELJA_CALL_WRITE, descriptor, 0, "", data, size, NULL, 0);
}

static inline mritvelja_answer mritvelja_seek(mritvelja_store *store, uint8_t process, uint8_t descriptor, uint16_t position) {
  return mritvelja_ask_descriptor(store, process, MRITVELJA_CALL_SEEK, descriptor, position);
}

static inline mritvelja_answer mritvelja_duplicate(mritvelja_store *store, uint8_t process, uint8_t descriptor) {
  return mritvelja_ask_descriptor(store, process, MRITVELJA_CALL_DUPLICATE, descriptor, 0);
}

static inline mritvelja_answer mritvelja_fork(mritvelja_store *store, uint8_t process) {
  return mritvelja_ask_path(store, process, MRITVELJA_CALL_FORK, "", 0);
}

static inline mritvelja_answer mritvelja_exit(mritvelja_store *store, uint8_t process) {
  return mritvelja_ask_path(store, process, MRITVELJA_CALL_EXIT, "", 0);
}

static inline mritvelja_answer mritvelja_execute(mritvelja_store *store, uint8_t process, const char *path) {
  return mritvelja_ask_path(store, process, MRITVELJA_CALL_EXECUTE, path, 0);
}

/* Makes a link at a path, which leads to its target: a path too, that need not be there. */
static inline mritvelja_answer mritvelja_symlink(mritvelja_store *store, uint8_t process, const char *path, const char *target) {
  return mritvelja_ask(store, process, MRITVELJA_CALL_SYMLINK, 0, 0, path, target, strlen(target), NULL, 0);
}

/* The target of a link, which has at most MRITVELJA_PATH bytes and no 0 after them. */
static inline mritvelja_answer mritvelja_readlink(mritvelja_store *store, uint8_t process, const char *path, void *buffer, size_t size) {
  return mritvelja_ask(store, process, MRITVELJA_CALL_READLINK, 0, 0, path, NULL, 0, buffer, size);
}

/* Gives a file, directory or link another name: within its directory at the same entry, or, but for a directory, in
 * another one. A new name that is there is refused, also where both paths are equal. */
static inline mritvelja_answer mritvelja_rename(mritvelja_store *store, uint8_t process, const char *path, const char *new_path) {
  return mritvelja_ask(store, process, MRITVELJA_CALL_RENAME, 0, 0, path, new_path, strlen(new_path), NULL, 0);
}

/* A borrowing read: the bytes themselves, of which *borrowed says how many there are; NULL where it says a
 * refusal. Those of a prompt are good as long as rom is, those of another file until that is next written or
 * truncated, or goes. */
static inline const uint8_t *mritvelja_borrow(mritvelja_store *store, uint8_t process, uint8_t descriptor, uint32_t count,
                                              mritvelja_borrowed *borrowed) {
  *borrowed = mritvelja_borrow_read(store->files, MRITVELJA_FILES_SIZE, store->contents, MRITVELJA_CONTENTS_SIZE,
                                    store->open_files, MRITVELJA_OPEN_FILES_SIZE, store->processes,
                                    MRITVELJA_PROCESSES_SIZE, store->policy, MRITVELJA_POLICY_SIZE, store->rom,
                                    store->rom_size, process, descriptor, count);
  if (borrowed->refusal != MRITVELJA_GRANTED) return NULL;
  const uint8_t *memory = borrowed->memory == MRITVELJA_IN_ROM ? store->rom : store->contents;
  /* An offset may lie past a file's end. */
  return borrowed->value != 0 ? memory + borrowed->at : memory;
}

/* What a refusal means, in words. */
static inline const char *mritvelja_refusal_text(uint32_t refusal) {
  static const char *const texts[] = {
      "granted",          "store, policy or rom not sound", "process not in use",   "malformed call",
      "descriptor not held", "not open for that direction", "name missing",         "not a directory",
      "wrong kind of file", "bits or ownership forbid", "label forbids",            "name already there",
      "directory not empty", "a table has no free place", "file would pass 512 bytes",
      "over 8 links followed or directory over 8 names deep"};
  return refusal < sizeof texts / sizeof *texts ? texts[refusal] : "unknown refusal";
}

/* A store file: a header, the tables and the policy, words little end first
 * (docs/store-file.md). Rom is not in it. */
enum {
  MRITVELJA_STORE_FILE_HEADER = 12,
  MRITVELJA_STORE_FILE_SIZE = MRITVELJA_STORE_FILE_HEADER + 4 * MRITVELJA_FILES_SIZE + MRITVELJA_CONTENTS_SIZE +
                              4 * MRITVELJA_OPEN_FILES_SIZE + 4 * MRITVELJA_PROCESSES_SIZE + MRITVELJA_POLICY_SIZE
};

static inline const uint8_t *mritvelja_store_file_header(void) {
  static const uint8_t header[] = {'M', 'R', 'I', 'T', 'V', 'E', 'L', 2, MRITVELJA_SLOTS, 0, 0, 0};
  return header;
}

/* Writes words to bytes, and gives where the next ones go. */
static inline uint8_t *mritvelja_put_words(uint8_t *bytes, const uint32_t *words, size_t size) {
  for (size_t i = 0; i < 4 * size; i++) *bytes++ = (uint8_t)(words[i / 4] >> (8 * (i % 4)));
  return bytes;
}

/* Reads words from bytes, and gives where the next ones are. */
static inline const uint8_t *mritvelja_get_words(uint32_t *words, const uint8_t *bytes, size_t size) {
  memset(words, 0, 4 * size);
  for (size_t i = 0; i < 4 * size; i++) words[i / 4] |= (uint32_t)*bytes++ << (8 * (i % 4));
  return bytes;
}

/* The bytes of a store's file. */
static inline void mritvelja_encode(const mritvelja_store *store, uint8_t bytes[MRITVELJA_STORE_FILE_SIZE]) {
  memcpy(bytes, mritvelja_store_file_header(), MRITVELJA_STORE_FILE_HEADER);
  bytes = mritvelja_put_words(bytes + MRITVELJA_STORE_FILE_HEADER, store->files, MRITVELJA_FILES_SIZE);
  memcpy(bytes, store->contents, MRITVELJA_CONTENTS_SIZE);
  bytes = mritvelja_put_words(bytes + MRITVELJA_CONTENTS_SIZE, store->open_files, MRITVELJA_OPEN_FILES_SIZE);
  bytes = mritvelja_put_words(bytes, store->processes, MRITVELJA_PROCESSES_SIZE);
  memcpy(bytes, store->policy, MRITVELJA_POLICY_SIZE);
}

/* Takes the store from the bytes of its file, and lends it rom; of 0 bytes it may be
 * NULL. 1 if the bytes are a file of this version, and the store sound with rom; else 0,
 * and then the store is not to be used. A store in which a prompt is open is not sound
 * without it. */
static inline int mritvelja_decode_with_rom(mritvelja_store *store, const uint8_t *bytes, size_t size, const uint8_t *rom,
                                            size_t rom_size) {
  if (size != MRITVELJA_STORE_FILE_SIZE || memcmp(bytes, mritvelja_store_file_header(), MRITVELJA_STORE_FILE_HEADER) != 0)
    return 0;
  bytes = mritvelja_get_words(store->files, bytes + MRITVELJA_STORE_FILE_HEADER, MRITVELJA_FILES_SIZE);
  memcpy(store->contents, bytes, MRITVELJA_CONTENTS_SIZE);
  bytes = mritvelja_get_words(store->open_files, bytes + MRITVELJA_CONTENTS_SIZE, MRITVELJA_OPEN_FILES_SIZE);
  bytes = mritvelja_get_words(store->processes, bytes, MRITVELJA_PROCESSES_SIZE);
  memcpy(store->policy, bytes, MRITVELJA_POLICY_SIZE);
  mritvelja_lend_rom(store, rom, rom_size);
  return mritvelja_is_sound(store) == 1;
}

/* The same without prompts. */
static inline int mritvelja_decode(mritvelja_store *store, const uint8_t *bytes, size_t size) {
  return mritvelja_decode_with_rom(store, bytes, size, NULL, 0);
}

#ifdef __cplusplus
}
#endif

#endif
