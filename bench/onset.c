/* Finding an onset in zoomed values, for comparison: the same tests in the same order as the library's, and the same answers.
 *
 * The values that a run would have are looked at from the last to the first, and the scan goes on behind the first of them that is below the
 * threshold. Only a row without an onset is gone through for its greatest value.
 */
#include <stddef.h>
#include <stdint.h>

#define MOST_VALUES 65521
#define LARGEST_FACTOR 16
#define RUN 8

static int32_t greatest(const int32_t *values, size_t length) {
  int32_t best = values[0];
  for (size_t i = 1; i < length; i++)
    if (best < values[i])
      best = values[i];
  return best;
}

/* 2, with the position and the height of the onset, or 1, with the greatest height of a row without one, or the number of the refusal negated. */
int64_t onset_find(const int32_t *values, size_t length, size_t factor, int32_t threshold, double *position, double *height) {
  if (length == 0)
    return -1;
  if (length > MOST_VALUES)
    return -2;
  if (factor < 1 || factor > LARGEST_FACTOR)
    return -7;
  size_t at = 0;
  while (length - at >= RUN) {
    size_t left = RUN;
    while (left > 0 && values[at + left - 1] >= threshold)
      left--;
    if (left == 0) {
      *position = (double)at / (double)factor;
      *height = values[at] / 256.0;
      return 2;
    }
    at += left;
  }
  *height = greatest(values, length) / 256.0;
  return 1;
}
