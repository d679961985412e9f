/* Loads and saves a store file, where there are POSIX files. With a strict C
 * standard define _POSIX_C_SOURCE as 200809L before the first header.
 *
 * Nobody else may write to the file from a load to the save after it: the command
 * locks it (flock) for that time, and a host that shares files with it does too.
 */
#ifndef MRITVELJA_FILE_H
#define MRITVELJA_FILE_H

#include <errno.h>
#include <fcntl.h>
#include <stdio.h>
#include <stdlib.h>
#include <sys/stat.h>
#include <unistd.h>

#include "mritvelja_store.h"

#ifdef __cplusplus
extern "C" {
#endif

/* Loads a store and lends it rom, which is not in the file; of 0 bytes it may be NULL.
 * 1 if that is done; else 0, and errno says why not: EINVAL where the file is none of
 * this version, or its store is not sound with rom. */
static inline int mritvelja_load_with_rom(mritvelja_store *store, const char *name, const uint8_t *rom, size_t rom_size) {
  /* One byte more than a store has shows that a file is too long. */
  size_t room = MRITVELJA_STORE_FILE_SIZE + 1, size = 0;
  uint8_t *bytes = (uint8_t *)malloc(room);
  int file = open(name, O_RDONLY | O_CLOEXEC), is_loaded = 0;
  ssize_t part = -1;
  if (bytes != NULL && file >= 0)
    while ((part = read(file, bytes + size, room - size)) > 0) size += (size_t)part;
  if (part == 0) {
    is_loaded = mritvelja_decode_with_rom(store, bytes, size, rom, rom_size);
    if (!is_loaded) errno = EINVAL;
  }
  int why = errno;
  if (file >= 0) close(file);
  free(bytes);
  errno = why;
  return is_loaded;
}

/* The same without prompts. */
static inline int mritvelja_load(mritvelja_store *store, const char *name) {
  return mritvelja_load_with_rom(store, name, NULL, 0);
}

/* Writes all bytes to the disk. */
static inline int mritvelja_write_file(int file, const uint8_t *bytes, size_t size) {
  while (size != 0) {
    ssize_t part = write(file, bytes, size);
    if (part < 0) return 0;
    bytes += part;
    size -= (size_t)part;
  }
  return fsync(file) == 0;
}

/* Saves a store: beside the file first, which is then replaced, so that a crash
 * leaves the old store or the new one. A new file is its maker's alone; an old one
 * keeps its permissions. 1 if that is done; else 0, errno says why not, and the old
 * file is as it was. Rom is not saved. */
static inline int mritvelja_save(const mritvelja_store *store, const char *name) {
  static const char ending[] = ".XXXXXX";
  size_t length = strlen(name);
  char *temporary = (char *)malloc(length + sizeof ending);
  uint8_t *bytes = (uint8_t *)malloc(MRITVELJA_STORE_FILE_SIZE);
  int file = -1, is_saved = 0;
  struct stat old;
  if (temporary != NULL && bytes != NULL) {
    memcpy(temporary, name, length);
    memcpy(temporary + length, ending, sizeof ending);
    mritvelja_encode(store, bytes);
    file = mkstemp(temporary);
  }
  if (file >= 0) {
    is_saved = (stat(name, &old) != 0 || fchmod(file, old.st_mode & 07777) == 0) &&
               mritvelja_write_file(file, bytes, MRITVELJA_STORE_FILE_SIZE) && rename(temporary, name) == 0;
    int why = errno;
    close(file);
    if (!is_saved) unlink(temporary);
    errno = why;
  }
  free(temporary);
  free(bytes);
  return is_saved;
}

#ifdef __cplusplus
}
#endif

#endif
