/* Taking turns among sixteen stations, for comparison: the same answers and the same states as the library's.
 *
 * Like the library's a state goes in by value, and the next one comes back beside the answer.
 */
#include <stdbool.h>
#include <stddef.h>
#include <stdint.h>
#include <string.h>

#define STATIONS 16
#define NOBODY SIZE_MAX

struct state {
  bool waiting[STATIONS];
  size_t last;
};

struct outcome {
  size_t answer;
  struct state next;
};

/* 0, or the number of the refusal. */
static struct outcome announce(struct state state, size_t station) {
  if (station >= STATIONS)
    return (struct outcome){17, state};
  if (state.waiting[station])
    return (struct outcome){18, state};
  state.waiting[station] = true;
  return (struct outcome){0, state};
}

static struct outcome serve(struct state state, size_t station) {
  state.waiting[station] = false;
  state.last = station;
  return (struct outcome){station, state};
}

/* The first station that waits after the one served last, going round, whose mark is cleared, or NOBODY. A number above 15 counts as 15. */
static struct outcome take(struct state state) {
  size_t first = state.last < STATIONS - 1 ? state.last + 1 : 0;
  for (size_t station = first; station < STATIONS; station++)
    if (state.waiting[station])
      return serve(state, station);
  for (size_t station = 0; station < first; station++)
    if (state.waiting[station])
      return serve(state, station);
  return (struct outcome){NOBODY, state};
}

static struct state lent(const bool waiting[STATIONS], size_t last) {
  struct state state;
  memcpy(state.waiting, waiting, sizeof state.waiting);
  state.last = last;
  return state;
}

static size_t give_back(struct outcome outcome, bool waiting[STATIONS], size_t *last) {
  memcpy(waiting, outcome.next.waiting, sizeof outcome.next.waiting);
  *last = outcome.next.last;
  return outcome.answer;
}

size_t turn_announce(bool waiting[STATIONS], size_t *last, size_t station) {
  return give_back(announce(lent(waiting, *last), station), waiting, last);
}

size_t turn_take(bool waiting[STATIONS], size_t *last) {
  return give_back(take(lent(waiting, *last)), waiting, last);
}
