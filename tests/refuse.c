/* A library that is preloaded: it refuses one allocation of the process, stops its clock, and lets
   it wait for no disk, so that many runs are made soon.
   REFUSE is the number, from 1, of the allocation that is refused, or 0 for none. The file that
   REFUSE_COUNT names is told how many there were. */
#define _GNU_SOURCE
#include <errno.h>
#include <fcntl.h>
#include <stdatomic.h>
#include <stdio.h>
#include <stdlib.h>
#include <sys/syscall.h>
#include <time.h>
#include <unistd.h>

extern void *__libc_malloc(size_t);
extern void *__libc_calloc(size_t, size_t);
extern void *__libc_realloc(void *, size_t);
extern void *__libc_memalign(size_t, size_t);

static long refused;
static atomic_long counted;

__attribute__((constructor)) static void begin(void) {
  const char *number = getenv("REFUSE");
  refused = number ? atol(number) : 0;
}

/* Tells the count where the program ends. */
void _exit(int status) {
  const char *path = getenv("REFUSE_COUNT");
  char told[32];
  int size = snprintf(told, sizeof told, "%ld", (long)counted);
  int file = path ? open(path, O_WRONLY | O_CREAT | O_TRUNC, 0600) : -1;
  if (file >= 0 && write(file, told, size) != size) status = 99;
  syscall(SYS_exit_group, status);
  __builtin_unreachable();
}

/* Whether this allocation is the one. */
static int is_refused(void) {
  if (++counted != refused) return 0;
  errno = ENOMEM;
  return 1;
}

void *malloc(size_t size) { return is_refused() ? NULL : __libc_malloc(size); }

void *calloc(size_t count, size_t size) {
  return is_refused() ? NULL : __libc_calloc(count, size);
}

void *realloc(void *old, size_t size) { return is_refused() ? NULL : __libc_realloc(old, size); }

void *memalign(size_t align, size_t size) {
  return is_refused() ? NULL : __libc_memalign(align, size);
}

void *aligned_alloc(size_t align, size_t size) { return memalign(align, size); }

int posix_memalign(void **found, size_t align, size_t size) {
  if (is_refused()) return ENOMEM;
  *found = __libc_memalign(align, size);
  return *found ? 0 : ENOMEM;
}

/* 2024-05-01T12:00:00Z, whichever clock is asked, and a little more each time for the others. */
int clock_gettime(clockid_t clock, struct timespec *now) {
  static atomic_long asked;
  now->tv_sec = 1714564800;
  now->tv_nsec = clock == CLOCK_REALTIME ? 0 : ++asked % 1000000000;
  return 0;
}

int fsync(int file) { return fcntl(file, F_GETFD) < 0 ? -1 : 0; }

int fdatasync(int file) { return fsync(file); }
