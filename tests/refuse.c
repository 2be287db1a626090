/* Lets single calls of a process fail: loaded before the C library, it counts the requests for memory, the reads and
   the writes, and refuses the one of the number in REFUSE_AT, FAIL_READ_AT or FAIL_WRITE_AT; with SHORT_IO=N a read and
   a write move at most N bytes. tests/hostile builds it, and says what has to come of it. */
#define _GNU_SOURCE
#include <errno.h>
#include <stdlib.h>
#include <sys/syscall.h>
#include <unistd.h>

extern void *__libc_malloc(size_t size);
extern void *__libc_calloc(size_t count, size_t size);
extern void *__libc_realloc(void *old, size_t size);
extern void *__libc_memalign(size_t align, size_t size);

/* how many calls of a kind there were, and which of them fails; 0 is none */
struct calls {
  unsigned long made;
  unsigned long failing;
};

static struct calls memory, reads, writes;
static size_t most;

static unsigned long number_in(const char *name) {
  const char *word = getenv(name);
  return word ? strtoul(word, NULL, 10) : 0;
}

__attribute__((constructor)) static void begin(void) {
  most = number_in("SHORT_IO");
  memory = (struct calls){0, number_in("REFUSE_AT")};
  reads = (struct calls){0, number_in("FAIL_READ_AT")};
  writes = (struct calls){0, number_in("FAIL_WRITE_AT")};
}

static int fails(struct calls *calls, int fault) {
  if (calls->failing == 0 || __atomic_add_fetch(&calls->made, 1, __ATOMIC_RELAXED) != calls->failing)
    return 0;
  errno = fault;
  return 1;
}

static int refuses(void) { return fails(&memory, ENOMEM); }

static size_t moved(size_t size) { return most != 0 && size > most ? most : size; }

ssize_t read(int file, void *into, size_t size) {
  return fails(&reads, EIO) ? -1 : syscall(SYS_read, file, into, moved(size));
}

ssize_t write(int file, const void *from, size_t size) {
  return fails(&writes, EIO) ? -1 : syscall(SYS_write, file, from, moved(size));
}

void *malloc(size_t size) { return refuses() ? NULL : __libc_malloc(size); }

void *calloc(size_t count, size_t size) { return refuses() ? NULL : __libc_calloc(count, size); }

void *realloc(void *old, size_t size) { return refuses() ? NULL : __libc_realloc(old, size); }

void *memalign(size_t align, size_t size) { return refuses() ? NULL : __libc_memalign(align, size); }

void *aligned_alloc(size_t align, size_t size) { return memalign(align, size); }

int posix_memalign(void **found, size_t align, size_t size) {
  void *memory = memalign(align, size);
  if (memory == NULL)
    return ENOMEM;
  *found = memory;
  return 0;
}
