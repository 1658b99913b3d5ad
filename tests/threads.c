/* threads.c: threads that call the library at the same time, each with a desk and a core of its own, get what one alone gets. POSIX
   threads; tests/header builds it, and runs it with the hand deck on standard input. */
#include <pthread.h>
#include <stdio.h>
#include <string.h>

#include "clamp.h"
#include "hand_deck.h"

enum { THREADS = 4, ROUNDS = 2000, CORE_WORDS = 4096 };

struct host {
  uint64_t area, desk[CLAMP_DESK_WORDS], core[CORE_WORDS];
  unsigned long passed, failed;
};

static struct host hosts[THREADS];

static void check(struct host *host, int ok) {
  if (ok)
    host->passed++;
  else
    host->failed++;
}

static void *run(void *argument) {
  struct host *host = argument;
  const uint64_t map[16] = {0, CORE_WORDS};
  for (unsigned round = 0; round < ROUNDS; round++) {
    uint64_t at = host->area + round % 64, answer = 0;
    memset(host->core, 0, sizeof host->core);
    clamp_make(host->desk, CLAMP_DESK_WORDS, CORE_WORDS, map, 16);
    clamp_open(host->desk, CLAMP_DESK_WORDS, host->core, CORE_WORDS, 0, at, 64, NULL, 0, NULL, 0);
    for (unsigned i = 0; i < DECK_BLOCKS; i++)
      answer = clamp_feed(host->desk, CLAMP_DESK_WORDS, host->core, CORE_WORDS, 0, 0, deck[i], 256);
    check(host, answer == ((uint64_t)CLAMP_DONE << 32) + at);
    check(host, host->core[at] == 7 + at);
    answer = clamp_release(host->desk, CLAMP_DESK_WORDS, CORE_WORDS, 0, 0);
    check(host, answer == (uint64_t)CLAMP_RELEASED << 32);
  }
  return NULL;
}

int main(void) {
  pthread_t threads[THREADS];
  unsigned long passed = 0, failed = 0;
  read_deck();
  for (unsigned i = 0; i < THREADS; i++) {
    hosts[i].area = 512 * i;
    if (pthread_create(&threads[i], NULL, run, &hosts[i]) != 0) {
      printf("threads: a thread cannot be started\n");
      return 2;
    }
  }
  for (unsigned i = 0; i < THREADS; i++) {
    pthread_join(threads[i], NULL);
    passed += hosts[i].passed;
    failed += hosts[i].failed;
  }
  printf("%lu passed, %lu failed\n", passed, failed);
  return failed != 0;
}
