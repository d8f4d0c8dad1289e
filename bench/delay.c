/* The delay between the onsets of two rows, for comparison: the same tests in the same order as the plotter's, and the same answers.
 *
 * The search is that of onset.c. Where the first row has no onset or the factor is not exact, the second row is only judged: every value reaches the
 * least threshold, so that its search ends with the first eight values.
 */
#include <stdbool.h>
#include <stddef.h>
#include <stdint.h>

/* What onset_find answers for a row that has an onset. */
#define ONSET 2

int64_t onset_find(const int32_t *values, size_t length, size_t factor, int32_t threshold, double *position, double *height);

/* Whether positions are exact at a factor from 1 to 16, which they are where it is a power of two. */
static bool exact(size_t factor) {
  return (factor & (factor - 1)) == 0;
}

/* 0, with the first position less the second one and the heights of both onsets, or the number of the refusal. */
size_t delay_between(const int32_t *first, size_t first_length, const int32_t *second, size_t second_length, size_t factor, int32_t threshold,
                     double *samples, double *first_height, double *second_height) {
  double x, y, h, g;
  int64_t one = onset_find(first, first_length, factor, threshold, &x, &h);
  if (one < 0)
    return (size_t)-one;
  bool searched = one == ONSET && exact(factor);
  int64_t two = onset_find(second, second_length, factor, searched ? threshold : INT32_MIN, &y, &g);
  if (two < 0)
    return (size_t)-two;
  if (!exact(factor))
    return 19;
  if (one != ONSET || two != ONSET)
    return 20;
  *samples = x - y;
  *first_height = h;
  *second_height = g;
  return 0;
}
