/* A library that shortens a file while it is read, to stand before that of the system (LD_PRELOAD):
   before the first read of more than a thousand bytes the file SHORTENED is cut to KEPT bytes. A query
   that is shorter is read before. */
#define _GNU_SOURCE
#include <dlfcn.h>
#include <stdbool.h>
#include <stdlib.h>
#include <unistd.h>

static bool is_cut;

ssize_t pread(int file, void *into, size_t count, off_t at) {
  static ssize_t (*next)(int, void *, size_t, off_t);
  const char *name = getenv("SHORTENED");
  const char *kept = getenv("KEPT");
  if (!next) next = (ssize_t(*)(int, void *, size_t, off_t))dlsym(RTLD_NEXT, "pread");
  if (!is_cut && name && kept && count > 1000) {
    is_cut = true;
    if (truncate(name, atol(kept)) != 0) abort();
  }
  return next(file, into, count, at);
}
