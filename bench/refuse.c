/* Refuses one request for memory: the one whose number the variable REFUSE holds, counted from 1 over the whole run.
   The file that COUNT names is written how many there were. Loaded in front of the C library (LD_PRELOAD). */
#define _GNU_SOURCE
#include <dlfcn.h>
#include <stdio.h>
#include <stdlib.h>

static long requests;

static int is_refused(void) {
  static long refused = -1;
  if (refused < 0) {
    const char *number = getenv("REFUSE");
    refused = number ? atol(number) : 0;
  }
  requests += 1;
  return requests == refused;
}

void *malloc(size_t size) {
  static void *(*real)(size_t);
  if (!real) real = (void *(*)(size_t)) dlsym(RTLD_NEXT, "malloc");
  return is_refused() ? NULL : real(size);
}

void *realloc(void *block, size_t size) {
  static void *(*real)(void *, size_t);
  if (!real) real = (void *(*)(void *, size_t)) dlsym(RTLD_NEXT, "realloc");
  return is_refused() ? NULL : real(block, size);
}

__attribute__((destructor)) static void tell(void) {
  long counted = requests;
  const char *name = getenv("COUNT");
  FILE *file = name ? fopen(name, "w") : NULL;
  if (file) {
    fprintf(file, "%ld\n", counted);
    fclose(file);
  }
}
