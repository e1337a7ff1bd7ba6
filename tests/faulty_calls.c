/* Stands before the C library's `read` and `write` of the descriptors 0, 1 and 2 and lets chosen calls go wrong. `tests/ends` builds and preloads it.

   The page that the script shares names a descriptor, the number of the first call that goes wrong, whether all later ones do too, and how: an errno,
   0 (nothing is read or taken), or -1 (one byte alone is passed on). It counts the calls, and the bytes that passed. */

#include <errno.h>
#include <fcntl.h>
#include <stdint.h>
#include <stdlib.h>
#include <sys/mman.h>
#include <sys/syscall.h>
#include <unistd.h>

struct page {
  uint64_t calls[3], bytes[3], descriptor, first, all_later;
  int64_t how;
  uint64_t faulted;
};
static struct page *page;

__attribute__((constructor)) static void share(void) {
  const char *path = getenv("FAULTY_CALLS_PAGE");
  if (!path) return;
  int file = open(path, O_RDWR);
  if (file < 0) _Exit(99);
  void *at = mmap(NULL, sizeof(struct page), PROT_READ | PROT_WRITE, MAP_SHARED, file, 0);
  if (at == MAP_FAILED) _Exit(99);
  close(file);
  page = at;
}

/* Whether this call of the descriptor goes wrong. */
static int is_faulty(int descriptor) {
  if (!page || descriptor < 0 || descriptor > 2) return 0;
  uint64_t number = ++page->calls[descriptor];
  if (page->descriptor != (uint64_t)descriptor || !page->first) return 0;
  if (number != page->first && !(page->all_later && number > page->first)) return 0;
  page->faulted += 1;
  return 1;
}

static ssize_t passed_on(long call, int descriptor, void *bytes, size_t count) {
  if (is_faulty(descriptor)) {
    if (page->how > 0) {
      errno = (int)page->how;
      return -1;
    }
    if (page->how == 0 || count == 0) return 0;
    count = 1;
  }
  ssize_t passed = syscall(call, descriptor, bytes, count);
  if (page && passed > 0 && descriptor >= 0 && descriptor <= 2) page->bytes[descriptor] += (uint64_t)passed;
  return passed;
}

ssize_t read(int descriptor, void *bytes, size_t count) { return passed_on(SYS_read, descriptor, bytes, count); }
ssize_t write(int descriptor, const void *bytes, size_t count) { return passed_on(SYS_write, descriptor, (void *)bytes, count); }
