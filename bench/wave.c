/* Reading a WAVE file in memory, for comparison: the same tests in the same order as the library's, and the same answers.
 *
 * The samples are copied as they stand, since the machine has the low byte of a number first, as the file has.
 */
#include <stddef.h>
#include <stdint.h>
#include <string.h>

#define LONGEST_ROW 4096

_Static_assert(__BYTE_ORDER__ == __ORDER_LITTLE_ENDIAN__, "the bytes of a sample would have to be swapped");

static uint32_t short_at(const uint8_t *bytes) {
  return (uint32_t)bytes[0] | (uint32_t)bytes[1] << 8;
}

static uint32_t long_at(const uint8_t *bytes) {
  return short_at(bytes) | short_at(bytes + 2) << 16;
}

static int named(const uint8_t *bytes, const char *name) {
  return memcmp(bytes, name, 4) == 0;
}

/* The rate times 65,536 plus the count of samples written, or the number of the refusal negated. */
int64_t wave_read(const uint8_t *bytes, size_t length, int16_t *samples, size_t room) {
  if (length < 12 || !named(bytes, "RIFF") || long_at(bytes + 4) != length - 8 || !named(bytes + 8, "WAVE"))
    return -11;
  const uint8_t *chunk = bytes + 12;
  const uint8_t *format = NULL;
  size_t left = length - 12;
  size_t size;
  for (;;) {
    if (left < 8)
      return -11;
    left -= 8;
    size = long_at(chunk + 4);
    /* A body of odd length has a pad byte after it. No sum is made that a size could make too great. */
    if (left < size || left - size < size % 2)
      return -11;
    if (named(chunk, "data"))
      break;
    if (format == NULL && named(chunk, "fmt "))
      format = chunk;
    chunk += 8 + size + size % 2;
    left -= size + size % 2;
  }
  if (format == NULL || long_at(format + 4) < 16)
    return -11;
  if (short_at(format + 8) != 1 || short_at(format + 10) != 1 || short_at(format + 22) != 16)
    return -12;
  size_t count = size / 2;
  if (size % 2 != 0 || room < count)
    return -13;
  if (count == 0)
    return -1;
  if (count > LONGEST_ROW)
    return -2;
  memcpy(samples, chunk + 8, size);
  return 65536 * (int64_t)long_at(format + 12) + (int64_t)count;
}
