/* A library that refuses requests for memory, to stand before that of the system (LD_PRELOAD): the
   request with the number REFUSED, and with ALL_LATER each one after it. It writes the number of all
   requests to the file COUNTED when the program ends. */
#define _GNU_SOURCE
#include <dlfcn.h>
#include <fcntl.h>
#include <stdatomic.h>
#include <stdbool.h>
#include <stdlib.h>
#include <unistd.h>

static atomic_long requests;
static long refused = -1;
static bool all_later;
static void *(*next_malloc)(size_t);
static void *(*next_realloc)(void *, size_t);

__attribute__((constructor)) static void begin(void) {
  const char *number = getenv("REFUSED");
  next_malloc = (void *(*)(size_t))dlsym(RTLD_NEXT, "malloc");
  next_realloc = (void *(*)(void *, size_t))dlsym(RTLD_NEXT, "realloc");
  all_later = getenv("ALL_LATER") != NULL;
  if (number) refused = atol(number);
  atomic_store(&requests, 0);
}

static bool is_refused(void) {
  long request = atomic_fetch_add(&requests, 1);
  return refused >= 0 && (request == refused || (all_later && request > refused));
}

void *malloc(size_t size) {
  if (!next_malloc) begin();
  return is_refused() ? NULL : next_malloc(size);
}

void *realloc(void *old, size_t size) {
  if (!next_realloc) begin();
  return is_refused() ? NULL : next_realloc(old, size);
}

__attribute__((destructor)) static void end(void) {
  const char *name = getenv("COUNTED");
  char digits[20];
  int first = sizeof digits;
  int file = name ? open(name, O_WRONLY | O_CREAT | O_TRUNC, 0600) : -1;
  if (file < 0) return;
  for (long left = atomic_load(&requests); first > 0 && (left > 0 || first == sizeof digits); left /= 10)
    digits[--first] = (char)('0' + left % 10);
  if (write(file, digits + first, sizeof digits - first) < 0) _exit(70);
  close(file);
}
