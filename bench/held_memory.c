/* Preloaded into a program, counts the memory that it holds: the blocks that were handed out and not given back, each with
   what the allocator keeps beside it. At the signal SIGUSR1 the count is written to the file named by HELD_COUNT. */
#define _GNU_SOURCE
#include <dlfcn.h>
#include <fcntl.h>
#include <malloc.h>
#include <signal.h>
#include <stdio.h>
#include <stdlib.h>
#include <unistd.h>

enum { BESIDE = 8 };

static volatile long held;

static void *taken(void *block) {
  if (block) held += malloc_usable_size(block) + BESIDE;
  return block;
}

static void given_back(void *block) {
  if (block) held -= malloc_usable_size(block) + BESIDE;
}

void *malloc(size_t size) {
  static void *(*real)(size_t);
  if (!real) real = (void *(*)(size_t))dlsym(RTLD_NEXT, "malloc");
  return taken(real(size));
}

void *realloc(void *old, size_t size) {
  static void *(*real)(void *, size_t);
  if (!real) real = (void *(*)(void *, size_t))dlsym(RTLD_NEXT, "realloc");
  size_t before = old ? malloc_usable_size(old) + BESIDE : 0;
  void *block = real(old, size);
  if (block) {
    held -= before;
    taken(block);
  }
  return block;
}

int posix_memalign(void **block, size_t alignment, size_t size) {
  static int (*real)(void **, size_t, size_t);
  if (!real) real = (int (*)(void **, size_t, size_t))dlsym(RTLD_NEXT, "posix_memalign");
  int code = real(block, alignment, size);
  if (code == 0) taken(*block);
  return code;
}

void *aligned_alloc(size_t alignment, size_t size) {
  static void *(*real)(size_t, size_t);
  if (!real) real = (void *(*)(size_t, size_t))dlsym(RTLD_NEXT, "aligned_alloc");
  return taken(real(alignment, size));
}

void free(void *block) {
  static void (*real)(void *);
  if (!real) real = (void (*)(void *))dlsym(RTLD_NEXT, "free");
  given_back(block);
  real(block);
}

static void tell(int signal) {
  (void)signal;
  const char *name = getenv("HELD_COUNT");
  int file = name ? open(name, O_WRONLY | O_CREAT | O_TRUNC, 0600) : -1;
  if (file >= 0) {
    dprintf(file, "%ld\n", held);
    close(file);
  }
}

__attribute__((constructor)) static void listen(void) {
  signal(SIGUSR1, tell);
}
