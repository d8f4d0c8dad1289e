/* The operations in double precision, for comparison: the classic algorithm of Unser, Aldroubi and Eden.
 *
 * A line is scaled by 6 and goes through one recursion forward and one backward with the pole sqrt(3) - 2, in place. The forward recursion
 * starts from a sum over the mirrored line, cut off where its terms fall below a tolerance, the backward one from a closed formula. Results
 * are in counts and not exact to the bit. Nothing is refused: a line has at least one sample, every buffer is as long as it must be, and every
 * position is on the data.
 */
#include <stddef.h>
#include <stdint.h>

/* sqrt(3) - 2. */
#define POLE (-0.26794919243112270647)

/* (1 - POLE)(1 - 1 / POLE). */
#define GAIN 6.0

/* The first exponent whose power of the pole is below the tolerance of 1e-9 in size: the sum has this many terms. */
#define HORIZON 16

#define LARGEST_FACTOR 16

/* The sum over k from 0 up of POLE^k times the number at k of the line, which is continued past its end without repeating the end number. */
static double first_forward(const double *line, size_t n) {
  double power = POLE;
  double sum = line[0];
  if (n > HORIZON) {
    for (size_t k = 1; k < HORIZON; k++) {
      sum += power * line[k];
      power *= POLE;
    }
    return sum;
  }
  /* A short line: one period of 2(n - 1) numbers, there and back, and the geometric series of all periods. */
  for (size_t k = 1; k < n; k++) {
    sum += power * line[k];
    power *= POLE;
  }
  for (size_t k = n - 2; k >= 1; k--) {
    sum += power * line[k];
    power *= POLE;
  }
  return sum / (1.0 - power);
}

/* Both recursions over a line of two numbers or more, which are scaled already. */
static void filter(double *line, size_t n) {
  double p = first_forward(line, n);
  line[0] = p;
  for (size_t k = 1; k < n; k++) {
    p = line[k] + POLE * p;
    line[k] = p;
  }
  double b = POLE / (POLE * POLE - 1.0) * (POLE * line[n - 2] + line[n - 1]);
  line[n - 1] = b;
  for (size_t k = n - 1; k-- > 0;) {
    b = POLE * (b - line[k]);
    line[k] = b;
  }
}

/* Scales as it loads. The spline of one sample is constant, and its coefficient is the sample. */
void classic_row_transform(const int16_t *samples, size_t n, double *coefficients) {
  if (n == 1) {
    coefficients[0] = samples[0];
    return;
  }
  for (size_t k = 0; k < n; k++)
    coefficients[k] = GAIN * samples[k];
  filter(coefficients, n);
}

/* A row of pixels begins a pitch after the one before; coefficients are closely packed. Rows in place; each column is copied to a line of its own
 * and back. */
void classic_picture_transform(const int16_t *pixels, size_t width, size_t height, size_t pitch, double *coefficients, double *line) {
  for (size_t y = 0; y < height; y++)
    classic_row_transform(pixels + y * pitch, width, coefficients + y * width);
  if (height == 1)
    return;
  for (size_t x = 0; x < width; x++) {
    for (size_t y = 0; y < height; y++)
      line[y] = GAIN * coefficients[x + y * width];
    filter(line, height);
    for (size_t y = 0; y < height; y++)
      coefficients[x + y * width] = line[y];
  }
}

/* The place that an index from -1 to n + 1 reads in a line of n, past the ends by the mirrored index. */
static size_t mirrored_place(size_t n, ptrdiff_t place) {
  ptrdiff_t last = (ptrdiff_t)n - 1;
  if (last == 0)
    return 0;
  if (place < 0)
    place = -place;
  place %= 2 * last;
  return (size_t)(place > last ? 2 * last - place : place);
}

static double mirrored(const double *coefficients, size_t n, ptrdiff_t place) {
  return coefficients[mirrored_place(n, place)];
}

/* The four weights at the fraction j / factor. */
static inline void weigh(size_t j, size_t factor, double weights[4]) {
  double x = (double)j / (double)factor;
  double y = 1.0 - x;
  weights[0] = y * y * y / 6.0;
  weights[1] = 2.0 / 3.0 - x * x * (1.0 + y) / 2.0;
  weights[2] = 2.0 / 3.0 - y * y * (1.0 + x) / 2.0;
  weights[3] = x * x * x / 6.0;
}

/* The four weights of each numerator are computed once for the whole row. */
void classic_row_zoom(const double *coefficients, size_t n, size_t factor, double *values) {
  double weights[LARGEST_FACTOR][4];
  for (size_t j = 0; j < factor; j++)
    weigh(j, factor, weights[j]);
  for (size_t k = 0; k < n; k++) {
    double a, b, c, d;
    if (k >= 1 && k + 2 < n) {
      a = coefficients[k - 1];
      b = coefficients[k];
      c = coefficients[k + 1];
      d = coefficients[k + 2];
    } else {
      a = mirrored(coefficients, n, (ptrdiff_t)k - 1);
      b = coefficients[k];
      c = mirrored(coefficients, n, (ptrdiff_t)k + 1);
      d = mirrored(coefficients, n, (ptrdiff_t)k + 2);
    }
    /* The zoom ends at the last sample. */
    size_t count = k + 1 < n ? factor : 1;
    for (size_t j = 0; j < count; j++)
      values[j] = weights[j][0] * a + weights[j][1] * b + weights[j][2] * c + weights[j][3] * d;
    values += count;
  }
}

/* The four places around the place k of a line of n; only at the ends do they need the mirrored index. */
static inline void places_around(size_t k, size_t n, size_t places[4]) {
  int inside = k >= 1 && k + 2 < n;
  places[0] = inside ? k - 1 : mirrored_place(n, (ptrdiff_t)k - 1);
  places[1] = k;
  places[2] = inside ? k + 1 : mirrored_place(n, (ptrdiff_t)k + 1);
  places[3] = inside ? k + 2 : mirrored_place(n, (ptrdiff_t)k + 2);
}

static inline double weighted(const double *line, const size_t places[4], const double weights[4]) {
  return weights[0] * line[places[0]] + weights[1] * line[places[1]] + weights[2] * line[places[2]] + weights[3] * line[places[3]];
}

/* The position is k + j / factor. */
double classic_row_value(const double *coefficients, size_t n, size_t k, size_t j, size_t factor) {
  size_t places[4];
  double weights[4];
  places_around(k, n, places);
  weigh(j, factor, weights);
  return weighted(coefficients, places, weights);
}

/* The positions are kx + jx / factor in a row and ky + jy / factor in a column. */
double classic_picture_value(const double *coefficients, size_t width, size_t height, size_t pitch, size_t kx, size_t jx, size_t ky, size_t jy,
                             size_t factor) {
  size_t columns[4], rows[4];
  double along_x[4], along_y[4];
  places_around(kx, width, columns);
  places_around(ky, height, rows);
  weigh(jx, factor, along_x);
  weigh(jy, factor, along_y);
  /* Written out, since gcc makes slower code of a loop over the four rows. */
  double a = weighted(coefficients + rows[0] * pitch, columns, along_x);
  double b = weighted(coefficients + rows[1] * pitch, columns, along_x);
  double c = weighted(coefficients + rows[2] * pitch, columns, along_x);
  double d = weighted(coefficients + rows[3] * pitch, columns, along_x);
  return along_y[0] * a + along_y[1] * b + along_y[2] * c + along_y[3] * d;
}

/* Each row of coefficients is zoomed once, and a row of values is the weighted sum of four such lines, of which the last four are kept: room is for
 * four rows of values. */
void classic_picture_enlarge(const double *coefficients, size_t width, size_t height, size_t pitch, size_t factor, double *values, double *room) {
  size_t across = (width - 1) * factor + 1;
  double *a = room, *b = a + across, *c = b + across, *d = c + across;
  double weights[LARGEST_FACTOR][4];
  size_t rows[4];
  for (size_t j = 0; j < factor; j++)
    weigh(j, factor, weights[j]);
  places_around(0, height, rows);
  classic_row_zoom(coefficients + rows[0] * pitch, width, factor, a);
  classic_row_zoom(coefficients + rows[1] * pitch, width, factor, b);
  classic_row_zoom(coefficients + rows[2] * pitch, width, factor, c);
  for (size_t k = 0; k < height; k++) {
    places_around(k, height, rows);
    classic_row_zoom(coefficients + rows[3] * pitch, width, factor, d);
    /* The last row of values is the last row of pixels. */
    size_t count = k + 1 < height ? factor : 1;
    for (size_t j = 0; j < count; j++) {
      double wa = weights[j][0], wb = weights[j][1], wc = weights[j][2], wd = weights[j][3];
      for (size_t x = 0; x < across; x++)
        values[x] = wa * a[x] + wb * b[x] + wc * c[x] + wd * d[x];
      values += across;
    }
    double *oldest = a;
    a = b;
    b = c;
    c = d;
    d = oldest;
  }
}
