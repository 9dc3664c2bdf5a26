/* Preloaded into a program, makes requests for memory fail: the Nth, counting from 1, or with REFUSE_ALL in the
   environment the Nth and all after it. N is in the environment as REFUSE_NTH. How many requests there were is written
   to the file named by REFUSE_COUNT when the program ends. */
#define _GNU_SOURCE
#include <dlfcn.h>
#include <fcntl.h>
#include <stdio.h>
#include <stdlib.h>
#include <unistd.h>

static unsigned long count;

static int refused(void) {
  static unsigned long nth;
  static int all;
  static int known;
  if (!known) {
    const char *text = getenv("REFUSE_NTH");
    nth = text ? strtoul(text, NULL, 10) : 0;
    all = getenv("REFUSE_ALL") != NULL;
    known = 1;
  }
  ++count;
  return nth != 0 && (count == nth || (all && count > nth));
}

void *malloc(size_t size) {
  static void *(*real)(size_t);
  if (!real) real = (void *(*)(size_t))dlsym(RTLD_NEXT, "malloc");
  return refused() ? NULL : real(size);
}

void *realloc(void *old, size_t size) {
  static void *(*real)(void *, size_t);
  if (!real) real = (void *(*)(void *, size_t))dlsym(RTLD_NEXT, "realloc");
  return refused() ? NULL : real(old, size);
}

/* By calls that take no memory. */
__attribute__((destructor)) static void tell(void) {
  const char *name = getenv("REFUSE_COUNT");
  int file = name ? open(name, O_WRONLY | O_CREAT | O_TRUNC, 0600) : -1;
  if (file >= 0) {
    dprintf(file, "%lu\n", count);
    close(file);
  }
}
