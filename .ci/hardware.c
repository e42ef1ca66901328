// Runs clients on the processor, for .ci/hardware, which makes `tests` of program texts. Each thread of a client is a thread of the
// system; all meet before and behind each run, and begin at one time of the processor's clock, or by chance a little later.
//
//   hardware TEST RUNS SECONDS   runs a client so often, or as often as goes in so many seconds; a third of the rounds with its threads
//                                side by side on cores of their own, a third on others, a third wherever the system puts them. It prints
//                                each end that was seen: how often, of each call how it ended with RAX and RDX, and of each other thread how
//                                many calls had returned before it began, eight bits each; and the words of memory.
#define _GNU_SOURCE
#include "hardware.h"
#include <pthread.h>
#include <sched.h>
#include <stdatomic.h>
#include <stdio.h>
#include <stdlib.h>
#include <string.h>
#include <time.h>
#include <x86intrin.h>

#define ROUNDS 6
#define WORDS (4 * 12 + 256)
#define ENDS 16384

// An end of a run, and how often it was seen.
struct end {
  uint64_t words[WORDS];
  uint64_t count;
};

static const struct test *test;
static struct end *ends;
static unsigned ends_seen;
// How each call ended, thread by thread; those of the prologue last.
static struct answer answers[THREADS + 1][CALLS] __attribute__((aligned(128)));
static atomic_uint arrived __attribute__((aligned(128)));
static atomic_uint meeting __attribute__((aligned(128)));
// When those who have met begin, in ticks of the processor's clock.
static atomic_ullong start;
static atomic_bool is_over __attribute__((aligned(128)));
static uint64_t runs;
static double deadline;
static cpu_set_t all_cores;

static double now(void) {
  struct timespec at;
  clock_gettime(CLOCK_MONOTONIC, &at);
  return at.tv_sec + at.tv_nsec / 1e9;
}

// Waits until all threads of the client are here. Who waits long lets others run, since there may be fewer cores than threads.
static void meet(void) {
  unsigned this_meeting = atomic_load(&meeting);
  if (atomic_fetch_add(&arrived, 1) + 1 == test->threads) {
    atomic_store(&arrived, 0);
    atomic_store(&start, __rdtsc() + 1000);
    atomic_store(&meeting, this_meeting + 1);
    return;
  }
  for (unsigned looks = 0; atomic_load(&meeting) == this_meeting; looks++) {
    if (looks > 5000) sched_yield();
  }
}

static void run_calls(unsigned thread) {
  for (unsigned call = 0; call < test->counts[thread]; call++) {
    struct answer *answer = &answers[thread][call];
    const struct call *it = &test->calls[thread][call];
    // Between two of these stand no loads but those of the call, and its loads are done; of its stores this says nothing.
    answer->begun = __rdtsc();
    _mm_lfence();
    it->procedure(it->argument, answer);
    _mm_lfence();
    answer->ended = __rdtsc();
    if (answer->how != RETURNED) return;
  }
}

// Puts memory and answers as they are at first, and runs the prologue.
static void prepare(void) {
  memset(answers, 0, sizeof answers);
  for (unsigned word = 0; word < test->words; word++) *test->places[word] = test->initial[word];
  run_calls(THREADS);
}

// How many calls of each thread had returned, by the clock, before one began, eight bits for each thread.
static uint64_t seen_by(const struct answer *answer) {
  uint64_t seen = 0;
  for (unsigned thread = 0; thread < test->threads; thread++) {
    for (unsigned call = 0; call < test->counts[thread]; call++) {
      const struct answer *other = &answers[thread][call];
      if (answer->how && other->how == RETURNED && other->ended < answer->begun) seen += (uint64_t)1 << 8 * thread;
    }
  }
  return seen;
}

// Counts the end that is there.
static void count_end(void) {
  uint64_t words[WORDS] = {0};
  unsigned at = 0;
  for (unsigned thread = 0; thread <= THREADS; thread++) {
    for (unsigned call = 0; call < test->counts[thread]; call++) {
      struct answer *answer = &answers[thread][call];
      words[at++] = answer->how;
      words[at++] = answer->how == RETURNED ? answer->rax : 0;
      words[at++] = answer->how == RETURNED && test->calls[thread][call].is_pop && answer->rax == 1 ? answer->rdx : 0;
      words[at++] = seen_by(answer);
    }
  }
  for (unsigned word = 0; word < test->words; word++) words[at++] = *test->places[word];
  uint64_t hash = 0;
  for (unsigned it = 0; it < at; it++) hash = (hash ^ words[it]) * 0x9e3779b97f4a7c15 >> 7 ^ hash << 31;
  unsigned place = hash % ENDS;
  while (ends[place].count && memcmp(ends[place].words, words, sizeof words)) place = (place + 1) % ENDS;
  if (!ends[place].count) {
    if (++ends_seen == ENDS) exit(3);
    memcpy(ends[place].words, words, sizeof words);
  }
  ends[place].count++;
}

// What a thread does in a round. Between the meetings one of them, each in its turn, counts and prepares, so that memory lies in the
// caches of each.
static void *work(void *which) {
  unsigned thread = (unsigned)(uintptr_t)which;
  uint64_t chance = 0x2545f4914f6cdd1d * (thread + 1) ^ (uint64_t)(now() * 1e9);
  for (uint64_t run = 0;; run++) {
    meet();
    if (is_over) return 0;
    chance ^= chance << 13, chance ^= chance >> 7, chance ^= chance << 17;
    uint64_t begin = atomic_load(&start) + (chance & 1 ? chance >> 8 & 255 : 0);
    // No longer than that, should this core's clock be far behind.
    for (unsigned looks = 0; __rdtsc() < begin && looks < 10000; looks++) continue;
    run_calls(thread);
    meet();
    if (thread == run % test->threads) {
      count_end();
      is_over = run + 1 == runs || (run % 64 == 0 && now() > deadline);
      prepare();
    }
  }
}

// Lets a thread run on one core, counted among those that there are, or on all.
static void place_on(pthread_attr_t *how, int is_pinned, unsigned number) {
  cpu_set_t one = all_cores;
  if (is_pinned) {
    unsigned left = number % CPU_COUNT(&all_cores);
    CPU_ZERO(&one);
    for (unsigned core = 0; core < CPU_SETSIZE; core++) {
      if (CPU_ISSET(core, &all_cores) && left-- == 0) {
        CPU_SET(core, &one);
        break;
      }
    }
  }
  pthread_attr_setaffinity_np(how, sizeof one, &one);
}

static void run_round(unsigned round, double seconds) {
  pthread_t threads[THREADS];
  deadline = now() + seconds;
  is_over = 0;
  prepare();
  for (unsigned thread = 0; thread < test->threads; thread++) {
    pthread_attr_t how;
    pthread_attr_init(&how);
    // Side by side from the first core on or from another one, or two cores apart.
    place_on(&how, round % 3 != 2, round % 3 == 0 ? thread + round : 2 * thread + thread / 2 + round);
    if (pthread_create(&threads[thread], &how, work, (void *)(uintptr_t)thread)) exit(2);
    pthread_attr_destroy(&how);
  }
  for (unsigned thread = 0; thread < test->threads; thread++) pthread_join(threads[thread], 0);
}

int main(int count, char **words) {
  if (count != 4) return 64;
  test = &tests[atoi(words[1])];
  ends = calloc(ENDS, sizeof *ends);
  if (!ends || sched_getaffinity(0, sizeof all_cores, &all_cores)) return 2;
  runs = strtoull(words[2], 0, 10) / ROUNDS;
  if (runs == 0) runs = 1;
  for (unsigned round = 0; round < ROUNDS; round++) run_round(round, atof(words[3]) / ROUNDS);
  for (unsigned place = 0; place < ENDS; place++) {
    if (!ends[place].count) continue;
    printf("%lu", ends[place].count);
    unsigned length = test->words;
    for (unsigned thread = 0; thread <= THREADS; thread++) length += 4 * test->counts[thread];
    for (unsigned it = 0; it < length; it++) printf(" %lu", ends[place].words[it]);
    printf("\n");
  }
  return 0;
}
