// Refuses growths of memory. Preloaded, it stands before the C library's malloc and its kin in a program.
//
// A growth is a call that asks for memory which the caller doesn't have yet: malloc, calloc, aligned_alloc, memalign, posix_memalign,
// and realloc to a larger size than the block was asked for with. They are counted from 1, from the program's main on.
//
// The environment says which are refused, and where the counts go:
//   REFUSE_FIRST=K     the growth K; none where it is 0 or not set
//   REFUSE_LAST=L      and the later ones up to L; all where it is not set
//   REFUSE_COUNTS=FILE a file of at least 16 bytes, whose first two words of 64 bits become the numbers of growths that were seen and
//                      refused. The file is mapped, so they are right however the process ends.
#define _GNU_SOURCE
#include <errno.h>
#include <fcntl.h>
#include <stdatomic.h>
#include <stdbool.h>
#include <stdint.h>
#include <stdlib.h>
#include <string.h>
#include <sys/mman.h>
#include <unistd.h>

// What glibc itself has under the names that this file takes.
extern void *__libc_malloc(size_t size);
extern void __libc_free(void *base);

// What stands before each block: the size that was asked for, by which a realloc is known as a growth, and the C library's block.
struct head {
  size_t size;
  void *base;
};

_Static_assert(sizeof(struct head) == 16, "a block behind its head is aligned to 16 bytes");

struct counts {
  _Atomic uint64_t seen;
  _Atomic uint64_t refused;
};

static struct counts own_counts;
static struct counts *counts = &own_counts;
static uint64_t first_refused;
static uint64_t last_refused = UINT64_MAX;
static bool is_counting;

static struct counts *counts_in(const char *path) {
  int file = open(path, O_RDWR);
  if (file < 0) _exit(125);
  void *page = mmap(NULL, sizeof(struct counts), PROT_READ | PROT_WRITE, MAP_SHARED, file, 0);
  if (page == MAP_FAILED) _exit(125);
  close(file);
  return page;
}

// Runs after the loader's work and just before main.
__attribute__((constructor)) static void start(void) {
  const char *first = getenv("REFUSE_FIRST");
  const char *last = getenv("REFUSE_LAST");
  const char *path = getenv("REFUSE_COUNTS");
  if (first) first_refused = strtoull(first, NULL, 10);
  if (last) last_refused = strtoull(last, NULL, 10);
  if (path) counts = counts_in(path);
  is_counting = true;
}

static bool is_refused(void) {
  if (!is_counting) return false;
  uint64_t number = atomic_fetch_add(&counts->seen, 1) + 1;
  if (first_refused == 0 || number < first_refused || number > last_refused) return false;
  atomic_fetch_add(&counts->refused, 1);
  return true;
}

static struct head *head_of(void *block) { return (struct head *)block - 1; }

// A block at a multiple of the alignment, which is a power of 2.
static void *grown(size_t size, size_t alignment) {
  if (size > PTRDIFF_MAX - alignment - sizeof(struct head) || is_refused()) {
    errno = ENOMEM;
    return NULL;
  }
  char *base = __libc_malloc(size + alignment + sizeof(struct head));
  if (!base) return NULL;
  uintptr_t first = (uintptr_t)base + sizeof(struct head);
  void *block = base + ((first + alignment - 1) / alignment * alignment - (uintptr_t)base);
  *head_of(block) = (struct head){size, base};
  return block;
}

void *malloc(size_t size) { return grown(size, 16); }

void *calloc(size_t count, size_t each) {
  size_t size;
  if (__builtin_mul_overflow(count, each, &size)) {
    errno = ENOMEM;
    return NULL;
  }
  void *block = grown(size, 16);
  return block ? memset(block, 0, size) : NULL;
}

void free(void *block) {
  if (block) __libc_free(head_of(block)->base);
}

// A growth moves the block, so that a pointer which is kept to the old place shows.
void *realloc(void *block, size_t size) {
  if (!block) return malloc(size);
  struct head *head = head_of(block);
  if (size <= head->size) {
    head->size = size;
    return block;
  }
  void *moved = grown(size, 16);
  if (!moved) return NULL;
  memcpy(moved, block, head->size);
  free(block);
  return moved;
}

void *memalign(size_t alignment, size_t size) { return grown(size, alignment < 16 ? 16 : alignment); }

void *aligned_alloc(size_t alignment, size_t size) { return memalign(alignment, size); }

int posix_memalign(void **block, size_t alignment, size_t size) {
  void *fresh = memalign(alignment, size);
  if (!fresh) return ENOMEM;
  *block = fresh;
  return 0;
}

size_t malloc_usable_size(void *block) { return block ? head_of(block)->size : 0; }
