/* Lets one call of a program fail. It is loaded before the C library (LD_PRELOAD), and stands in for the calls that the programs
 * make of it.
 *
 * FAULTS_KIND says which calls are counted, from the first that the program itself makes: `memory` (malloc, realloc), `read` (read,
 * pread, recv), `write` (write, send, fsync, fdatasync, ftruncate, rename), or `short`, which are reads and writes of more than one
 * byte. The call with the number FAULTS_AT fails: memory is refused, a read or a write has an error, and a short one moves one byte.
 * When that comes, a file with the name FAULTS_SAID is made. So a run after which there is none had fewer calls.
 *
 * A sleep passes at once, and the clocks have gone on by as much when it returns.
 */
#define _GNU_SOURCE
#include <errno.h>
#include <fcntl.h>
#include <stdatomic.h>
#include <stdlib.h>
#include <string.h>
#include <sys/socket.h>
#include <sys/syscall.h>
#include <time.h>
#include <unistd.h>

extern void *__libc_malloc(size_t);
extern void *__libc_realloc(void *, size_t);

enum kind { NONE, MEMORY, READ, WRITE, SHORT };

static enum kind kind = NONE;
static long at = 0;
static const char *said = "";
static atomic_long count = 0;
static atomic_long slept = 0; /* nanoseconds */

__attribute__((constructor)) static void begin(void) {
  const char *name = getenv("FAULTS_KIND"), *number = getenv("FAULTS_AT"), *file = getenv("FAULTS_SAID");
  if (name == NULL || number == NULL || file == NULL) return;
  said = file;
  at = atol(number);
  if (strcmp(name, "memory") == 0) kind = MEMORY;
  if (strcmp(name, "read") == 0) kind = READ;
  if (strcmp(name, "write") == 0) kind = WRITE;
  if (strcmp(name, "short") == 0) kind = SHORT;
}

/* Whether this call is the one that fails. */
static int fails(enum kind which) {
  if (kind != which || atomic_fetch_add(&count, 1) + 1 != at) return 0;
  long made = syscall(SYS_openat, AT_FDCWD, said, O_WRONLY | O_CREAT, 0600);
  if (made >= 0) syscall(SYS_close, made);
  return 1;
}

static int failing(enum kind which, int error) {
  if (!fails(which)) return 0;
  errno = error;
  return 1;
}

/* How many bytes a call moves that was asked for so many. */
static size_t moved(size_t length) { return length > 1 && fails(SHORT) ? 1 : length; }

void *malloc(size_t size) { return failing(MEMORY, ENOMEM) ? NULL : __libc_malloc(size); }

void *realloc(void *held, size_t size) { return failing(MEMORY, ENOMEM) ? NULL : __libc_realloc(held, size); }

ssize_t read(int file, void *bytes, size_t length) {
  return failing(READ, EIO) ? -1 : syscall(SYS_read, file, bytes, moved(length));
}

ssize_t pread(int file, void *bytes, size_t length, off_t place) {
  return failing(READ, EIO) ? -1 : syscall(SYS_pread64, file, bytes, moved(length), place);
}

ssize_t recv(int file, void *bytes, size_t length, int flags) {
  return failing(READ, ECONNRESET) ? -1 : syscall(SYS_recvfrom, file, bytes, moved(length), flags, NULL, NULL);
}

ssize_t write(int file, const void *bytes, size_t length) {
  return failing(WRITE, ENOSPC) ? -1 : syscall(SYS_write, file, bytes, moved(length));
}

ssize_t __write(int file, const void *bytes, size_t length) { return write(file, bytes, length); }

ssize_t send(int file, const void *bytes, size_t length, int flags) {
  return failing(WRITE, ECONNRESET) ? -1 : syscall(SYS_sendto, file, bytes, moved(length), flags, NULL, 0);
}

int fsync(int file) { return failing(WRITE, EIO) ? -1 : (int)syscall(SYS_fsync, file); }

int fdatasync(int file) { return failing(WRITE, EIO) ? -1 : (int)syscall(SYS_fdatasync, file); }

int ftruncate(int file, off_t length) { return failing(WRITE, EIO) ? -1 : (int)syscall(SYS_ftruncate, file, length); }

int rename(const char *from, const char *to) { return failing(WRITE, EIO) ? -1 : (int)syscall(SYS_rename, from, to); }

int nanosleep(const struct timespec *time, struct timespec *left) {
  if (left != NULL) left->tv_sec = left->tv_nsec = 0;
  atomic_fetch_add(&slept, time->tv_sec * 1000000000L + time->tv_nsec);
  return 0;
}

int clock_gettime(clockid_t clock, struct timespec *time) {
  int answer = (int)syscall(SYS_clock_gettime, clock, time);
  if (answer == 0) {
    long on = atomic_load(&slept) + time->tv_nsec;
    time->tv_sec += on / 1000000000L;
    time->tv_nsec = on % 1000000000L;
  }
  return answer;
}
