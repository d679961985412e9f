/* Mritvelja: the proved core of a small file store, for C and C++.
 *
 * The caller owns a store as four tables and a policy, and lends them to each
 * call. A slice is a pointer and a number of elements (words of 32 bits for
 * files, open files and processes, else bytes); any number is taken, and tables
 * of another size than the store's are refused with MRITVELJA_UNSOUND.
 *
 * Beside them it lends the factory part, rom: the prompts in read-only memory,
 * at most MRITVELJA_PROMPTS of them in turn, each a length of two bytes, little
 * end first, of at most MRITVELJA_BLOCK, and its bytes. Calls see them as the
 * plain files /rom/00, /rom/01 and so on. Rom of 0 bytes has no prompts; any
 * other form is refused with MRITVELJA_UNSOUND.
 *
 * The slices lent to one call must not overlap, and a pointer must be good for
 * its number of elements. A slice of 0 elements may have any pointer but NULL.
 * Nothing is kept after a call returns, and nothing but the lent slices is
 * written, so that calls on different stores may run at the same time.
 */
#ifndef MRITVELJA_H
#define MRITVELJA_H

#include <stddef.h>
#include <stdint.h>

/* The version of this header and of the library that it is of. */
#define MRITVELJA_VERSION "2.1.0"

#ifdef __cplusplus
extern "C" {
#endif

/* Sizes. Field k of record i of a table is its element width * i + k. */
enum {
  MRITVELJA_SLOTS = 128,          /* files; slot 0 is the root directory */
  MRITVELJA_FILE_WIDTH = 8,       /* words of a file's record */
  MRITVELJA_BLOCK = 512,          /* bytes of contents for each slot */
  MRITVELJA_DIRENTS = 16,         /* directory entries in a directory's block */
  MRITVELJA_DIRENT_WIDTH = 16,    /* bytes of an entry: name, slot, 0 */
  MRITVELJA_NAME = 14,            /* bytes of a name, padded with 0 */
  MRITVELJA_PATH = 64,            /* bytes of a path or of a link's text, at most */
  MRITVELJA_NAMES = 8,            /* names in a path, at most */
  MRITVELJA_FOLLOWS = 8,          /* links that one walk follows, at most */
  MRITVELJA_OPEN_FILES = 32,
  MRITVELJA_OPEN_FILE_WIDTH = 4,  /* words of an open file */
  MRITVELJA_PROCESSES = 8,
  MRITVELJA_PROCESS_WIDTH = 12,   /* words of a process, its descriptors last */
  MRITVELJA_DESCRIPTORS = 8,      /* descriptors of a process */
  MRITVELJA_LABELS = 16,
  MRITVELJA_PROMPTS = 16,         /* prompts in rom, at most */
  MRITVELJA_ROM_FIRST = 128,      /* the slot of prompt 0 in an open file; prompt i has i more */
  MRITVELJA_NO_TRANSITION = 255,

  /* Elements of each table. */
  MRITVELJA_FILES_SIZE = MRITVELJA_SLOTS * MRITVELJA_FILE_WIDTH,
  MRITVELJA_CONTENTS_SIZE = MRITVELJA_SLOTS * MRITVELJA_BLOCK,
  MRITVELJA_OPEN_FILES_SIZE = MRITVELJA_OPEN_FILES * MRITVELJA_OPEN_FILE_WIDTH,
  MRITVELJA_PROCESSES_SIZE = MRITVELJA_PROCESSES * MRITVELJA_PROCESS_WIDTH,
  /* Rights, process label major; then transitions, laid out alike. */
  MRITVELJA_RIGHTS_SIZE = MRITVELJA_LABELS * MRITVELJA_LABELS,
  MRITVELJA_POLICY_SIZE = 2 * MRITVELJA_RIGHTS_SIZE
};

/* Columns of a file's record, and of stat's fields. */
enum {
  MRITVELJA_FILE_KIND = 0,
  MRITVELJA_FILE_OWNER = 1,   /* 0 to 65535 */
  MRITVELJA_FILE_GROUP = 2,   /* 0 to 65535 */
  MRITVELJA_FILE_BITS = 3,    /* 0 to 0777, which is 511; of a link 0 */
  MRITVELJA_FILE_LABEL = 4,   /* 0 to 15 */
  MRITVELJA_FILE_LENGTH = 5,  /* bytes, of a link of its text; of a directory, names in it */
  MRITVELJA_FILE_LINKS = 6,   /* how many directory entries name it */
  MRITVELJA_FILE_VERSION = 7  /* goes up with each change, and wraps */
};

/* Kinds. A link is a symbolic one: its contents are the path that it leads to. A
 * walk follows it before the last name, and there for open, execute, list and
 * change bits alone. */
enum { MRITVELJA_FREE = 0, MRITVELJA_PLAIN = 1, MRITVELJA_DIRECTORY = 2, MRITVELJA_LINK = 3 };

/* Columns of an open file. One with no references is free and all 0. */
enum {
  MRITVELJA_OPEN_SLOT = 0,       /* of prompt i MRITVELJA_ROM_FIRST + i */
  MRITVELJA_OPEN_MODE = 1,
  MRITVELJA_OPEN_OFFSET = 2,     /* 0 to 512 */
  MRITVELJA_OPEN_REFERENCES = 3  /* descriptors that hold it */
};

/* Columns of a process. Descriptor i is column 4 + i: 0 holds nothing, e + 1
 * holds open file e. */
enum {
  MRITVELJA_PROCESS_USED = 0,   /* 1 in use; one not in use is all 0 */
  MRITVELJA_PROCESS_USER = 1,   /* 0 to 65535 */
  MRITVELJA_PROCESS_GROUP = 2,  /* 0 to 65535 */
  MRITVELJA_PROCESS_LABEL = 3,  /* 0 to 15 */
  MRITVELJA_PROCESS_DESCRIPTOR = 4
};

/* Rights, which are added. A file's bits are the rights of its owner times 64, of
 * its group times 8, and of all others: an octal digit each, as in 0644. The first
 * class that fits the caller decides alone, also where another would grant more.
 * User 0 passes, but executes a file only where one of the three may. */
enum {
  MRITVELJA_EXECUTE = 1,  /* of a directory: to search it */
  MRITVELJA_WRITE = 2,
  MRITVELJA_READ = 4
};

/* Modes of an open. Truncating is added to any mode but reading. */
enum {
  MRITVELJA_MODE_READ = 1,
  MRITVELJA_MODE_WRITE = 2,
  MRITVELJA_MODE_BOTH = 3,
  MRITVELJA_MODE_APPEND = 4,
  MRITVELJA_MODE_TRUNCATE = 8
};

/* Calls. After each: the parts it uses, then the value it answers if granted. */
enum {
  MRITVELJA_CALL_OPEN = 1,              /* path, number: mode; the descriptor */
  MRITVELJA_CALL_CREATE = 2,            /* path, number: bits; the slot */
  MRITVELJA_CALL_MAKE_DIRECTORY = 3,    /* path, number: bits; the slot */
  MRITVELJA_CALL_UNLINK = 4,            /* path; 0 */
  MRITVELJA_CALL_REMOVE_DIRECTORY = 5,  /* path; 0 */
  MRITVELJA_CALL_LINK = 6,              /* path: old, data: new path; 0 */
  MRITVELJA_CALL_LIST = 7,              /* path, number: index; 1, or 0 past the end */
  MRITVELJA_CALL_CHANGE_BITS = 8,       /* path, number: bits; 0 */
  MRITVELJA_CALL_STAT = 9,              /* path; 0, and fields */
  MRITVELJA_CALL_CLOSE = 10,            /* descriptor; 0 */
  MRITVELJA_CALL_READ = 11,             /* descriptor, buffer; bytes read */
  MRITVELJA_CALL_WRITE = 12,            /* descriptor, data; bytes written */
  MRITVELJA_CALL_SEEK = 13,             /* descriptor, number: position; the position */
  MRITVELJA_CALL_DUPLICATE = 14,        /* descriptor; the new descriptor */
  MRITVELJA_CALL_FORK = 15,             /* nothing; the child */
  MRITVELJA_CALL_EXIT = 16,             /* nothing; 0 */
  MRITVELJA_CALL_EXECUTE = 17,          /* path; 0 */
  MRITVELJA_CALL_SYMLINK = 18,          /* path, data: target; the slot */
  MRITVELJA_CALL_READLINK = 19,         /* path, buffer; bytes read */
  MRITVELJA_CALL_RENAME = 20            /* path: old, data: new path; 0 */
};

/* Refusals. A refused call changes nothing that was lent. */
enum {
  MRITVELJA_GRANTED = 0,
  MRITVELJA_UNSOUND = 1,           /* store, policy or rom not sound */
  MRITVELJA_NO_PROCESS = 2,        /* process not in use */
  MRITVELJA_MALFORMED = 3,         /* unknown call or mode, bad bits, path, target, position or count */
  MRITVELJA_NOT_HELD = 4,          /* descriptor not held */
  MRITVELJA_WRONG_DIRECTION = 5,   /* not open for that direction */
  MRITVELJA_NAME_MISSING = 6,
  MRITVELJA_NOT_A_DIRECTORY = 7,
  MRITVELJA_WRONG_KIND = 8,        /* wrong kind of file */
  MRITVELJA_BITS_FORBID = 9,       /* bits or ownership forbid; of /rom also to user 0 */
  MRITVELJA_LABEL_FORBIDS = 10,
  MRITVELJA_NAME_THERE = 11,       /* name already there */
  MRITVELJA_NOT_EMPTY = 12,        /* directory not empty */
  MRITVELJA_TABLE_FULL = 13,       /* a table needed has no free place */
  MRITVELJA_TOO_LONG = 14,         /* file would pass 512 bytes */
  MRITVELJA_TOO_DEEP = 15          /* over 8 links followed, or a directory over 8 names deep */
};

typedef struct {
  uint32_t refusal;      /* 0 granted, else why not */
  uint32_t stop;         /* the name, from 1, at which a walk was refused; else 0 */
  uint32_t value;        /* as the call says; 0 if refused */
  uint32_t name_length;  /* of a listed name, else 0 */
  uint8_t name[16];      /* the listed name, then 0 */
  uint32_t fields[8];    /* stat: the columns of the record; else all 0 */
} mritvelja_answer;

/* One call. Tables, a policy or rom that are not sound are refused, at each call. */
mritvelja_answer mritvelja_call(
    uint32_t *files, size_t files_size,            /* MRITVELJA_FILES_SIZE words */
    uint8_t *contents, size_t contents_size,       /* MRITVELJA_CONTENTS_SIZE bytes */
    uint32_t *open_files, size_t open_files_size,  /* MRITVELJA_OPEN_FILES_SIZE words */
    uint32_t *processes, size_t processes_size,    /* MRITVELJA_PROCESSES_SIZE words */
    const uint8_t *policy, size_t policy_size,     /* MRITVELJA_POLICY_SIZE bytes */
    const uint8_t *rom, size_t rom_size,           /* the prompts, or 0 bytes */
    uint8_t process,                               /* who calls */
    uint8_t call,                                  /* MRITVELJA_CALL_.. */
    uint8_t descriptor,                            /* for calls 10 to 14 */
    uint16_t number,                               /* mode, bits, index or position */
    const uint8_t *path, size_t path_size,         /* not ended by 0 */
    const uint8_t *data, size_t data_size,         /* a write's bytes, link's or rename's new path, symlink's target */
    uint8_t *buffer, size_t buffer_size);          /* where a read or a readlink puts its bytes */

/* As mritvelja_call, without the test. On tables found sound and since then
 * changed by these functions alone, with the same policy and rom, mritvelja_act
 * answers what mritvelja_call answers, for every list of calls (`tested-once`,
 * docs/claims.md); on tables nobody tested it answers what the rules' `act` says
 * (it is safe, and its contract holds), which the rules do not call an answer of
 * the store. */
mritvelja_answer mritvelja_act(
    uint32_t *files, size_t files_size,
    uint8_t *contents, size_t contents_size,
    uint32_t *open_files, size_t open_files_size,
    uint32_t *processes, size_t processes_size,
    const uint8_t *policy, size_t policy_size,
    const uint8_t *rom, size_t rom_size,
    uint8_t process,
    uint8_t call,
    uint8_t descriptor,
    uint16_t number,
    const uint8_t *path, size_t path_size,
    const uint8_t *data, size_t data_size,
    uint8_t *buffer, size_t buffer_size);

/* 1 where the tables, the policy and rom are sound, else 0. Nothing is written. */
uint32_t mritvelja_sound(
    const uint32_t *files, size_t files_size,
    const uint8_t *contents, size_t contents_size,
    const uint32_t *open_files, size_t open_files_size,
    const uint32_t *processes, size_t processes_size,
    const uint8_t *policy, size_t policy_size,
    const uint8_t *rom, size_t rom_size);

/* In which memory the bytes of a borrowing read lie. */
enum { MRITVELJA_IN_CONTENTS = 0, MRITVELJA_IN_ROM = 1 };

typedef struct {
  uint32_t refusal;  /* 0 granted, else why not; then all else is 0 */
  uint32_t value;    /* how many bytes there are */
  uint32_t memory;   /* MRITVELJA_IN_.. */
  uint32_t at;       /* where in that memory the first of them lies, if there are any */
} mritvelja_borrowed;

/* A read that copies nothing: where the bytes lie in the contents or in rom, at
 * most count of them, and at most MRITVELJA_BLOCK (a larger count is malformed).
 * Checks, value and offset are as in a read, with the test at each call. Bytes in
 * the contents are good until that file is next written or truncated, or goes. */
mritvelja_borrowed mritvelja_borrow_read(
    const uint32_t *files, size_t files_size,
    const uint8_t *contents, size_t contents_size,
    uint32_t *open_files, size_t open_files_size,
    const uint32_t *processes, size_t processes_size,
    const uint8_t *policy, size_t policy_size,
    const uint8_t *rom, size_t rom_size,
    uint8_t process,
    uint8_t descriptor,
    uint32_t count);

/* Why a run of a script stopped, tested before each call in this order. */
enum {
  MRITVELJA_REPLAY_END = 1,        /* the script's end */
  MRITVELJA_REPLAY_ALLOWANCE = 2,  /* as many calls were answered as allowed */
  MRITVELJA_REPLAY_BROKEN = 3,     /* the next block is not a call in the script's form */
  MRITVELJA_REPLAY_ROOM = 4        /* the next answer is too long for the output */
};

typedef struct {
  size_t next;      /* the byte of the script where the next block begins */
  size_t written;   /* bytes of the output that hold answers */
  uint32_t calls;   /* calls answered, never more than allowed */
  uint32_t reason;  /* MRITVELJA_REPLAY_.. */
} mritvelja_replayed;

/* Runs a script: each block of six lines is one call, answered as by
 * mritvelja_call, but that a read or a readlink of more than 512 bytes is
 * malformed. Each answer is three lines of the output. The call that it stops before was not
 * made, and the output's bytes past the answers stay.
 * A run on the same tables with the script from next on goes on where this one
 * stopped. */
mritvelja_replayed mritvelja_replay(
    uint32_t *files, size_t files_size,
    uint8_t *contents, size_t contents_size,
    uint32_t *open_files, size_t open_files_size,
    uint32_t *processes, size_t processes_size,
    const uint8_t *policy, size_t policy_size,
    const uint8_t *rom, size_t rom_size,
    const uint8_t *script, size_t script_size,
    uint32_t allowance,                            /* calls to answer, at most */
    uint8_t *output, size_t output_size);          /* where the answers go */

#ifdef __cplusplus
}
#endif

#endif
