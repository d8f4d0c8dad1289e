/* Calls the turn-taker in every set of marks, so that a test in Python has all of them by one call. What is right is not known here: every answer and
   every state is handed over. */
#include <stdbool.h>
#include <stddef.h>
#include <stdint.h>
#include <string.h>

enum { STATIONS = 16, STATES = 1 << STATIONS };

uint64_t harness_announce(bool *waiting, size_t *last, size_t station);
uint64_t harness_turn(bool *waiting, size_t *last);

/* A state as it is lent, with bytes around both parts that must not change. */
struct lent {
  unsigned char before[16];
  bool waiting[STATIONS];
  unsigned char between[16];
  size_t last;
  unsigned char behind[16];
};

/* What a call answered and left in each set of marks. */
struct outcomes {
  uint64_t answers[STATES];
  uint16_t marks[STATES];
  uint64_t last[STATES];
};

static void lend(struct lent *state, unsigned marks, size_t last) {
  memset(state, 0xa5, sizeof *state);
  for (int station = 0; station < STATIONS; station++)
    state->waiting[station] = marks >> station & 1;
  state->last = last;
}

/* Keeps an outcome; whether a byte that was not lent has changed, or a mark is no bool. */
static bool keep(const struct lent *state, unsigned marks, uint64_t answer, struct outcomes *outcomes) {
  struct lent lent_again;
  unsigned left = 0;
  bool broken = false;
  lend(&lent_again, 0, state->last);
  for (int station = 0; station < STATIONS; station++) {
    unsigned char mark;
    memcpy(&mark, &state->waiting[station], 1);
    broken = broken || mark > 1;
    left |= (unsigned)(mark & 1) << station;
    lent_again.waiting[station] = mark & 1;
  }
  outcomes->answers[marks] = answer;
  outcomes->marks[marks] = left;
  outcomes->last[marks] = state->last;
  return broken || memcmp(state, &lent_again, sizeof *state) != 0;
}

/* A turn in every set of marks, with this station served last. Answers in how many sets something changed that was not lent. */
size_t sweep_turns(size_t last, struct outcomes *outcomes) {
  size_t broken = 0;
  for (unsigned marks = 0; marks < STATES; marks++) {
    struct lent state;
    lend(&state, marks, last);
    uint64_t answer = harness_turn(state.waiting, &state.last);
    broken += keep(&state, marks, answer, outcomes);
  }
  return broken;
}

/* The same of an announcement by this station. */
size_t sweep_announcements(size_t last, size_t station, struct outcomes *outcomes) {
  size_t broken = 0;
  for (unsigned marks = 0; marks < STATES; marks++) {
    struct lent state;
    lend(&state, marks, last);
    uint64_t answer = harness_announce(state.waiting, &state.last, station);
    broken += keep(&state, marks, answer, outcomes);
  }
  return broken;
}
