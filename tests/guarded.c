/* guarded.c: the memory of guarded.h. */

#define _DEFAULT_SOURCE

#include "guarded.h"

#include <stdio.h>
#include <stdlib.h>
#include <sys/mman.h>
#include <unistd.h>

uint64_t *guarded_end(uint64_t most) {
  size_t page = (size_t)sysconf(_SC_PAGESIZE), bytes = (most * sizeof(uint64_t) + page - 1) / page * page;
  char *all = mmap(NULL, bytes + page, PROT_READ | PROT_WRITE, MAP_PRIVATE | MAP_ANONYMOUS, -1, 0);
  if (all == MAP_FAILED || mprotect(all + bytes, page, PROT_NONE) != 0) {
    printf("no memory to lend\n0 passed, 1 failed\n");
    exit(1);
  }
  return (uint64_t *)(void *)(all + bytes);
}
