// Loaded before a program (LD_PRELOAD), it counts the program's allocations, in all its threads, and refuses one of them.
//
//     REFUSE=N          the Nth call of malloc, calloc, realloc, aligned_alloc or posix_memalign finds no memory; 0: none does
//     REFUSE_COUNT=FILE where the number of calls so far stands, as 8 bytes in the machine's order
//     REFUSE_SWEEP=FILE the program is run once whole, and then once for each of its allocations, which is refused. Its input is read
//                       anew for each run. FILE gets a line for each: the number, the status (256 and the signal where one ended it), how
//                       the output stands to that of the whole run (`same`, a `front` of it, or `other`), and what standard error says.
//                       What the whole run wrote is left in FILE.out
//     REFUSE_EVERY=N    of a sweep: each Nth allocation alone
#define _GNU_SOURCE
#include <errno.h>
#include <fcntl.h>
#include <stdio.h>
#include <stdlib.h>
#include <string.h>
#include <sys/mman.h>
#include <sys/wait.h>
#include <unistd.h>

extern void *__libc_malloc(size_t), *__libc_calloc(size_t, size_t), *__libc_realloc(void *, size_t), *__libc_memalign(size_t, size_t);

static unsigned long own_count, *count = &own_count, refused;
static int is_ready;

static int is_refused(void) { return is_ready && __atomic_add_fetch(count, 1, __ATOMIC_SEQ_CST) == refused; }

static void *none(void) {
  errno = ENOMEM;
  return NULL;
}

void *malloc(size_t bytes) { return is_refused() ? none() : __libc_malloc(bytes); }

void *calloc(size_t items, size_t bytes) { return is_refused() ? none() : __libc_calloc(items, bytes); }

void *realloc(void *old, size_t bytes) { return is_refused() ? none() : __libc_realloc(old, bytes); }

void *aligned_alloc(size_t align, size_t bytes) { return is_refused() ? none() : __libc_memalign(align, bytes); }

int posix_memalign(void **place, size_t align, size_t bytes) {
  void *found = is_refused() ? NULL : __libc_memalign(align, bytes);
  if (!found) return ENOMEM;
  *place = found;
  return 0;
}

static unsigned long number_of(const char *name) {
  const char *text = getenv(name);
  return text ? strtoul(text, NULL, 10) : 0;
}

// A counter that this process and those that it starts share, in a file where one is named.
static unsigned long *counter(const char *path) {
  int file = path ? open(path, O_RDWR | O_CREAT | O_TRUNC, 0600) : -1;
  if (path && (file < 0 || ftruncate(file, sizeof(long)) != 0)) _exit(97);
  void *found = mmap(NULL, sizeof(long), PROT_READ | PROT_WRITE, MAP_SHARED | (path ? 0 : MAP_ANONYMOUS), file, 0);
  if (found == MAP_FAILED) _exit(97);
  return found;
}

// All that a file has.
static char *bytes_in(int file, size_t *length) {
  *length = lseek(file, 0, SEEK_END);
  if (*length == 0) return NULL;
  void *found = mmap(NULL, *length, PROT_READ, MAP_PRIVATE, file, 0);
  return found == MAP_FAILED ? NULL : found;
}

// Runs the program in a process of its own, with this allocation refused: 1 in that process, and 0 in this one, once it has ended.
static int is_run(unsigned long number, int out, int err, int *status) {
  *count = 0;
  if (ftruncate(out, 0) || ftruncate(err, 0)) _exit(97);
  lseek(out, 0, SEEK_SET), lseek(err, 0, SEEK_SET), lseek(0, 0, SEEK_SET);
  pid_t child = fork();
  if (child < 0) _exit(97);
  if (child == 0) {
    refused = number;
    dup2(out, 1), dup2(err, 2);
    alarm(120);
    is_ready = 1;
    return 1;
  }
  int how;
  waitpid(child, &how, 0);
  *status = WIFSIGNALED(how) ? 256 + WTERMSIG(how) : WEXITSTATUS(how);
  return 0;
}

static void tell(int report, unsigned long number, int status, int out, int err, const char *whole, size_t whole_length) {
  size_t length, said;
  char *found = bytes_in(out, &length), *words = bytes_in(err, &said), line[512];
  int is_front = length <= whole_length && (length == 0 || memcmp(found, whole, length) == 0);
  int width = snprintf(line, sizeof line, "%lu %d %s ", number, status, !is_front ? "other" : length == whole_length ? "same" : "front");
  for (size_t at = 0; at < said && width < 500; at++) line[width++] = words[at] == '\n' ? ';' : words[at];
  line[width++] = '\n';
  if (write(report, line, width) != width) _exit(97);
  if (found) munmap(found, length);
  if (words) munmap(words, said);
}

static int sweep(const char *path) {
  char name[4096];
  int report = open(path, O_WRONLY | O_CREAT | O_TRUNC, 0600), out = memfd_create("out", 0), err = memfd_create("err", 0), status;
  if (report < 0 || out < 0 || err < 0) _exit(97);
  unsetenv("LD_PRELOAD");
  if (is_run(0, out, err, &status)) return 1;
  unsigned long all = *count, every = number_of("REFUSE_EVERY");
  size_t length;
  char *whole = bytes_in(out, &length);
  snprintf(name, sizeof name, "%s.out", path);
  int kept = open(name, O_WRONLY | O_CREAT | O_TRUNC, 0600);
  if (kept < 0 || (length && write(kept, whole, length) != (ssize_t)length)) _exit(97);
  close(kept);
  whole = bytes_in(open(name, O_RDONLY), &length);
  tell(report, 0, status, out, err, whole, length);
  for (unsigned long number = 1; number <= all; number += every ? every : 1) {
    if (is_run(number, out, err, &status)) return 1;
    tell(report, number, status, out, err, whole, length);
  }
  return 0;
}

__attribute__((constructor)) static void begin(void) {
  const char *path = getenv("REFUSE_SWEEP");
  count = counter(getenv("REFUSE_COUNT"));
  refused = number_of("REFUSE");
  if (path) {
    if (!sweep(path)) _exit(0);
    return;
  }
  unsetenv("LD_PRELOAD");
  is_ready = 1;
}
