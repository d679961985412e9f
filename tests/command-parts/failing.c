/* A library to be preloaded, under which one call to the system does not go as it should.
 * FAILING says which by its name, the how-manieth, and what comes of it:
 *   "fsync 2 5"            the second fsync fails with error 5
 *   "write 1 kill"         the process is killed before its first write
 *   "fsync 1 run COMMAND"  the command is run first, and the call goes on as ever
 * A write is counted only if it goes to a file that the program opened itself.
 * HURRY says how many times faster the clock goes. */
#define _GNU_SOURCE
#include <dlfcn.h>
#include <errno.h>
#include <signal.h>
#include <stdio.h>
#include <stdlib.h>
#include <string.h>
#include <sys/types.h>
#include <time.h>
#include <unistd.h>

static int fails(const char *name) {
  static int seen;
  char wanted[32], what[16];
  int number, end = 0;
  const char *text = getenv("FAILING");
  if (text == NULL || sscanf(text, "%31s %d %15s %n", wanted, &number, what, &end) < 3 || strcmp(name, wanted) != 0 ||
      ++seen != number)
    return 0;
  if (strcmp(what, "kill") == 0) kill(getpid(), SIGKILL);
  if (strcmp(what, "run") == 0) {
    unsetenv("LD_PRELOAD");
    if (system(text + end) != 0) abort();
    return 0;
  }
  errno = atoi(what);
  return 1;
}

#define FAILING(type, name, parameters, arguments, is_counted)                \
  type name parameters {                                                      \
    type(*next) parameters = (type(*) parameters)dlsym(RTLD_NEXT, #name);     \
    return (is_counted) && fails(#name) ? (type)-1 : next arguments;          \
  }

FAILING(ssize_t, write, (int file, const void *bytes, size_t size), (file, bytes, size), file > 2)
FAILING(int, fsync, (int file), (file), 1)
FAILING(int, syncfs, (int file), (file), 1)
FAILING(int, rename, (const char *old, const char *new), (old, new), 1)
FAILING(int, renameat2, (int from, const char *old, int to, const char *new, unsigned flags), (from, old, to, new, flags), 1)
FAILING(int, unlink, (const char *name), (name), 1)

int clock_gettime(clockid_t clock, struct timespec *time) {
  int (*next)(clockid_t, struct timespec *) = (int (*)(clockid_t, struct timespec *))dlsym(RTLD_NEXT, "clock_gettime");
  const char *hurry = getenv("HURRY");
  int result = next(clock, time);
  if (result == 0 && hurry != NULL) {
    long long nanoseconds = (time->tv_sec * 1000000000LL + time->tv_nsec) * atoi(hurry);
    time->tv_sec = nanoseconds / 1000000000;
    time->tv_nsec = nanoseconds % 1000000000;
  }
  return result;
}
