/* The program rowzoom in C, for comparison: the same text in and the same text out, to the byte, refusals included.
 *
 * It computes in 64-bit whole numbers as rust.rs does. The text is read whole, numbers are written digit by digit to a buffer of 64 KB, and
 * the buffer goes out when no further line fits. A failed read or write ends the program with status 1.
 */
#include <stddef.h>
#include <stdint.h>
#include <string.h>
#include <unistd.h>

#define POLE INT64_C(575416509)
#define MARGIN 20
#define LONGEST_TEXT 65536
#define LONGEST_ROW 4096
#define LARGEST_FACTOR 16

/* More bytes than any line of the output has. */
#define LONGEST_LINE 40

static char text[LONGEST_TEXT + 1];
static int16_t samples[LONGEST_ROW];
static int64_t work[LONGEST_ROW + 2 * MARGIN];
static int32_t coefficients[LONGEST_ROW];
static char output[65536];
static size_t used;

/* The text that is read: where it goes on, and where it ends. */
struct reader {
  const char *at;
  const char *end;
};

/* The text of standard input into the buffer; the answer is its length, which is that of the buffer for every longer text. */
static size_t read_text(void) {
  size_t length = 0;
  while (length < sizeof text) {
    ssize_t got = read(STDIN_FILENO, text + length, sizeof text - length);
    if (got < 0)
      _exit(1);
    if (got == 0)
      break;
    length += (size_t)got;
  }
  return length;
}

/* One line: an optional minus, 1 to 5 digits and a line feed, the number from -32768 to 32767. The answer is 0 for any other text. */
static int read_number(struct reader *from, int *number) {
  const char *at = from->at;
  int negative = at < from->end && *at == '-';
  at += negative;
  const char *first = at;
  int size = 0;
  while (at < from->end && at - first < 5 && *at >= '0' && *at <= '9')
    size = 10 * size + (*at++ - '0');
  if (at == first || at == from->end || *at != '\n' || size > 32767 + negative)
    return 0;
  *number = negative ? -size : size;
  from->at = at + 1;
  return 1;
}

static void write_out(void) {
  size_t done = 0;
  while (done < used) {
    ssize_t put = write(STDOUT_FILENO, output + done, used - done);
    if (put < 0)
      _exit(1);
    done += (size_t)put;
  }
  used = 0;
}

static void put_text(const char *word) {
  size_t length = strlen(word);
  memcpy(output + used, word, length);
  used += length;
}

static const char PAIRS[] =
    "00010203040506070809101112131415161718192021222324252627282930313233343536373839404142434445464748495051525354555657585960616263646566676869"
    "707172737475767778798081828384858687888990919293949596979899";

static size_t digits(uint32_t number) {
  size_t count = 1;
  for (; number >= 10000; number /= 10000)
    count += 4;
  return count + (number >= 10) + (number >= 100) + (number >= 1000);
}

/* Writes a number and the byte that follows it. */
static void put_number(int32_t number, char after) {
  uint32_t size = (uint32_t)number;
  if (number < 0) {
    output[used++] = '-';
    size = -size;
  }
  used += digits(size);
  char *to = output + used;
  output[used++] = after;
  for (; size >= 100; size /= 100) {
    to -= 2;
    memcpy(to, PAIRS + 2 * (size % 100), 2);
  }
  if (size >= 10)
    memcpy(to - 2, PAIRS + 2 * size, 2);
  else
    to[-1] = (char)('0' + size);
}

static int refuse(int32_t number) {
  put_text("refused ");
  put_number(number, '\n');
  write_out();
  return 0;
}

/* The pole times a number, over 2^31, to the nearest whole number, a tie going away from zero. The sign is that of the number, which is there
 * before the product. */
static int64_t times_pole(int64_t a) {
  return (POLE * a + (INT64_C(1) << 30) - (a < 0)) >> 31;
}

/* The place that an index reads in a row of n, which is continued past both ends without repeating the end sample. */
static size_t mirrored(int64_t index, size_t n) {
  int64_t last = (int64_t)n - 1;
  if (last == 0)
    return 0;
  int64_t within = index % (2 * last);
  if (within < 0)
    within += 2 * last;
  return (size_t)(within > last ? 2 * last - within : within);
}

/* Both recursions, each coefficient rounded, a tie going away from zero, and stored as it is made. Only the margins need the mirrored index. */
static void transform(size_t n) {
  int64_t p = 0;
  for (int64_t k = -MARGIN; k < 0; k++)
    p = 65536 * (int64_t)samples[mirrored(k, n)] - times_pole(p);
  for (size_t k = 0; k < n; k++) {
    p = 65536 * (int64_t)samples[k] - times_pole(p);
    work[k] = p;
  }
  for (size_t k = n; k < n + MARGIN; k++) {
    p = 65536 * (int64_t)samples[mirrored((int64_t)k, n)] - times_pole(p);
    work[k] = p;
  }
  int64_t b = 0;
  for (size_t k = n + MARGIN; k-- > n;)
    b = times_pole(work[k] - b);
  for (size_t k = n; k-- > 0;) {
    b = times_pole(work[k] - b);
    coefficients[k] = (int32_t)((6 * b + 8 - (b < 0)) >> 4);
  }
}

static int64_t coefficient(size_t k, int offset, size_t n) {
  return coefficients[mirrored((int64_t)k + offset, n)];
}

/* Every value is written as it is made: the weighted sum over 96m^3 to the nearest whole number, a tie going away from zero. The division goes
 * towards zero, so that half of the divisor has the sign of the sum. */
static void zoom(size_t n, size_t factor) {
  int64_t weights[LARGEST_FACTOR][4];
  int64_t m = (int64_t)factor;
  int64_t divisor = 96 * m * m * m;
  int64_t half = divisor / 2;
  for (int64_t j = 0; j < m; j++) {
    weights[j][0] = (m - j) * (m - j) * (m - j);
    weights[j][1] = 3 * j * j * j - 6 * j * j * m + 4 * m * m * m;
    weights[j][2] = -3 * j * j * j + 3 * j * j * m + 3 * j * m * m + m * m * m;
    weights[j][3] = j * j * j;
  }
  for (size_t k = 0; k < n; k++) {
    int inside = k >= 1 && k + 2 < n;
    int64_t a = inside ? coefficients[k - 1] : coefficient(k, -1, n);
    int64_t b = coefficients[k];
    int64_t c = inside ? coefficients[k + 1] : coefficient(k, 1, n);
    int64_t d = inside ? coefficients[k + 2] : coefficient(k, 2, n);
    /* The zoom ends at the last sample. */
    size_t count = k + 1 < n ? factor : 1;
    for (size_t j = 0; j < count; j++) {
      int64_t sum = weights[j][0] * a + weights[j][1] * b + weights[j][2] * c + weights[j][3] * d;
      int64_t value = (sum + (sum < 0 ? -half : half)) / divisor;
      if (sizeof output - used < LONGEST_LINE)
        write_out();
      put_number((int32_t)k, ' ');
      put_number((int32_t)j, ' ');
      put_number((int32_t)value, '\n');
    }
  }
}

int main(void) {
  size_t length = read_text();
  struct reader from = {text, text + length};
  int factor;
  if (length > LONGEST_TEXT || !read_number(&from, &factor))
    return refuse(10);
  size_t n = 0;
  while (from.at < from.end) {
    int number;
    if (!read_number(&from, &number))
      return refuse(10);
    /* A row that is too long is refused only when the rest of the text is known to be numbers. */
    if (n < LONGEST_ROW)
      samples[n] = (int16_t)number;
    n++;
  }
  if (n == 0)
    return refuse(1);
  if (n > LONGEST_ROW)
    return refuse(2);
  if (factor < 1 || factor > LARGEST_FACTOR)
    return refuse(7);
  put_text("rowzoom ");
  put_number((int32_t)n, ' ');
  put_number(factor, ' ');
  put_number((int32_t)((n - 1) * (size_t)factor + 1), '\n');
  transform(n);
  zoom(n, (size_t)factor);
  write_out();
  return 0;
}
