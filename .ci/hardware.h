// What .ci/hardware makes of program texts, and .ci/hardware.c runs.
#include <stdint.h>

// As many threads as a client may have, the prologue's not counted, and as many calls as a thread may have.
#define THREADS 4
#define CALLS 4

// How a call ended: not at all, by `ret`, at the bound of a jump back, or by a false assertion.
enum { UNBEGUN, RETURNED, CUT, FAULT };

// Before it began and behind its end stands what the processor's clock said.
struct answer {
  uint64_t how, rax, rdx, begun, ended;
};

struct call {
  void (*procedure)(uint64_t argument, struct answer *answer);
  uint64_t argument;
  int is_pop;
};

struct test {
  unsigned threads;
  // The calls of each thread, those of the prologue last.
  unsigned counts[THREADS + 1];
  const struct call *calls[THREADS + 1];
  unsigned words;
  uint64_t *const *places;
  const uint64_t *initial;
};

extern const struct test tests[];
