//! The operations in safe Rust, for comparison: the same passes over the same buffers with the same results, refusals included.

use std::mem::replace;

const POLE: i64 = 575_416_509;
pub const MARGIN: usize = 20;
pub const LONGEST_ROW: usize = 4096;
pub const LONGEST_SIDE: usize = 512;
const GREATEST_PITCH: usize = 4096;
pub const LARGEST_FACTOR: usize = 16;
pub const MOST_VALUES: usize = (LONGEST_ROW - 1) * LARGEST_FACTOR + 1;
const MOST_PICTURE_VALUES: usize = 1 << 20;
pub const RUN: usize = 8;
pub const STATIONS: usize = 16;

/// What a turn answers when nobody waits.
const NOBODY: usize = usize::MAX;

/// What an operation that gives one value answers to a refusal is this, which is above every value, plus the number of the refusal.
pub const REFUSED: i64 = 1 << 32;

/// The pole times a number, over 2^31, to the nearest whole number, a tie going away from zero. The sign is that of the number, which is there
/// before the product.
fn times_pole(a: i64) -> i64 {
    (POLE * a + (1 << 30) - i64::from(a < 0)) >> 31
}

/// The place that an index reads in a row of n, which is continued past both ends without repeating the end sample.
fn mirrored(index: i64, n: usize) -> usize {
    if n == 1 {
        return 0;
    }
    let last = n as i64 - 1;
    let within = index.rem_euclid(2 * last);
    (if within > last {
        2 * last - within
    } else {
        within
    }) as usize
}

/// The forward recursion over a line of n numbers, each loaded as it is needed; only the margins need the mirrored index.
fn forward(n: usize, work: &mut [i64], load: impl Fn(usize) -> i64) {
    let (left, rest) = work.split_at_mut(MARGIN);
    let (middle, right) = rest.split_at_mut(n);
    let mut p = 0;
    for (i, word) in left.iter_mut().enumerate() {
        p = load(mirrored(i as i64 - MARGIN as i64, n)) - times_pole(p);
        *word = p;
    }
    for (k, word) in middle.iter_mut().enumerate() {
        p = load(k) - times_pole(p);
        *word = p;
    }
    for (i, word) in right.iter_mut().take(MARGIN).enumerate() {
        p = load(mirrored((n + i) as i64, n)) - times_pole(p);
        *word = p;
    }
}

/// The backward recursion, each coefficient rounded, a tie going away from zero, and stored as it is made. Nothing below place 0 is needed.
fn backward(n: usize, work: &[i64], mut store: impl FnMut(usize, i32)) {
    let mut b = 0;
    for &p in work[MARGIN + n..][..MARGIN].iter().rev() {
        b = times_pole(p - b);
    }
    for (k, &p) in work[MARGIN..][..n].iter().enumerate().rev() {
        b = times_pole(p - b);
        store(k, ((3 * b + 4 - i64::from(b < 0)) >> 3) as i32);
    }
}

/// The count of coefficients written, or the number of the refusal negated.
pub fn row_transform(samples: &[i16], coefficients: &mut [i32], work: &mut [i64]) -> i64 {
    let n = samples.len();
    if n == 0 {
        return -1;
    }
    if n > LONGEST_ROW {
        return -2;
    }
    let Some(work) = work.get_mut(..n + 2 * MARGIN) else {
        return -5;
    };
    let Some(coefficients) = coefficients.get_mut(..n) else {
        return -6;
    };
    forward(n, work, |k| 65536 * i64::from(samples[k]));
    backward(n, work, |k, coefficient| coefficients[k] = coefficient);
    work.fill(0);
    n as i64
}

/// The count of coefficients written, or the number of the refusal negated. A row of pixels begins a pitch after the one before.
pub fn picture_transform(
    pixels: &[i16],
    width: usize,
    height: usize,
    pitch: usize,
    coefficients: &mut [i32],
    work: &mut [i64],
) -> i64 {
    if width == 0 || width > LONGEST_SIDE || height == 0 || height > LONGEST_SIDE {
        return -3;
    }
    if pitch < width || pitch > GREATEST_PITCH || pixels.len() < (height - 1) * pitch + width {
        return -4;
    }
    let count = width * height;
    let Some(work) = work.get_mut(..width.max(height) + 2 * MARGIN) else {
        return -5;
    };
    let Some(coefficients) = coefficients.get_mut(..count) else {
        return -6;
    };
    // The last row may end where the slice does, and its chunk is shorter then.
    for (chunk, to) in pixels
        .chunks(pitch)
        .zip(coefficients.chunks_exact_mut(width))
    {
        let row = &chunk[..width];
        forward(width, work, |k| 65536 * i64::from(row[k]));
        backward(width, work, |k, coefficient| to[k] = coefficient);
    }
    for x in 0..width {
        forward(height, work, |k| {
            16 * i64::from(coefficients[x + width * k])
        });
        backward(height, work, |k, coefficient| {
            coefficients[x + width * k] = coefficient
        });
    }
    work.fill(0);
    count as i64
}

/// The weights over 6m³ of the four coefficients around a position with the numerator j.
fn weights(j: i64, m: i64) -> [i64; 4] {
    [
        (m - j).pow(3),
        3 * j.pow(3) - 6 * j * j * m + 4 * m.pow(3),
        -3 * j.pow(3) + 3 * j * j * m + 3 * j * m * m + m.pow(3),
        j.pow(3),
    ]
}

fn weighted(around: [i64; 4], weights: &[i64; 4]) -> i64 {
    around.iter().zip(weights).map(|(c, w)| c * w).sum()
}

/// A sum over a divisor to the nearest whole number, a tie going away from zero. The division goes towards zero, so that half of the divisor
/// has the sign of the sum.
#[inline(always)]
fn rounded(sum: i64, divisor: i64) -> i32 {
    let half = divisor / 2;
    ((sum + if sum < 0 { -half } else { half }) / divisor) as i32
}

/// The value of four numbers around a position, coefficients or sums of them: the weighted sum over the divisor, 96m³ for a row, rounded. In
/// picture value it would be a call of its own, which takes longer.
#[inline(always)]
fn value(around: [i64; 4], weights: &[i64; 4], divisor: i64) -> i32 {
    rounded(weighted(around, weights), divisor)
}

/// The four coefficients around a place; only at the ends do they need the mirrored index.
fn around(coefficients: &[i32], k: usize) -> [i64; 4] {
    let n = coefficients.len();
    if k >= 1 && k + 2 < n {
        let four = &coefficients[k - 1..k + 3];
        return [four[0], four[1], four[2], four[3]].map(i64::from);
    }
    [-1, 0, 1, 2].map(|i| i64::from(coefficients[mirrored(k as i64 + i, n)]))
}

/// The count of values written, or the number of the refusal negated.
pub fn row_zoom(coefficients: &[i32], factor: usize, values: &mut [i32]) -> i64 {
    let n = coefficients.len();
    if n == 0 {
        return -1;
    }
    if n > LONGEST_ROW {
        return -2;
    }
    if factor == 0 || factor > LARGEST_FACTOR {
        return -7;
    }
    let count = (n - 1) * factor + 1;
    let Some(values) = values.get_mut(..count) else {
        return -9;
    };
    let m = factor as i64;
    let divisor = 96 * m.pow(3);
    let mut table = [[0; 4]; LARGEST_FACTOR];
    for (j, entry) in table[..factor].iter_mut().enumerate() {
        *entry = weights(j as i64, m);
    }
    for (k, to) in values.chunks_mut(factor).enumerate() {
        let around = around(coefficients, k);
        // The last chunk holds one value only: the zoom ends at the last sample.
        for (to, weights) in to.iter_mut().zip(&table) {
            *to = value(around, weights, divisor);
        }
    }
    count as i64
}

/// Whether a position, k and the numerator j, is past the end of a line of n.
fn past_end((k, j): (usize, usize), n: usize) -> bool {
    k >= n || (k == n - 1 && j > 0)
}

/// The value, or what stands for a refusal. It is not inlined, since a value of the library is one call too: in a loop the compiler would test
/// the row and the factor only once.
#[inline(never)]
pub fn row_value(coefficients: &[i32], position: (usize, usize), factor: usize) -> i64 {
    let n = coefficients.len();
    if n == 0 {
        return REFUSED + 1;
    }
    if n > LONGEST_ROW {
        return REFUSED + 2;
    }
    if factor == 0 || factor > LARGEST_FACTOR {
        return REFUSED + 7;
    }
    if position.1 >= factor {
        return REFUSED + 8;
    }
    if past_end(position, n) {
        return REFUSED + 14;
    }
    let (k, j) = position;
    let m = factor as i64;
    let weights = weights(j as i64, m);
    i64::from(value(around(coefficients, k), &weights, 96 * m.pow(3)))
}

/// The four places around a place of a line of n; only at the ends do they need the mirrored index.
fn places_around(k: usize, n: usize) -> [usize; 4] {
    if k >= 1 && k + 2 < n {
        return [k - 1, k, k + 1, k + 2];
    }
    [-1, 0, 1, 2].map(|i| mirrored(k as i64 + i, n))
}

/// The value, or what stands for a refusal: the weights along y on the sums of four rows with the weights along x. It is not inlined, as above.
#[inline(never)]
pub fn picture_value(
    coefficients: &[i32],
    width: usize,
    height: usize,
    pitch: usize,
    x: (usize, usize),
    y: (usize, usize),
    factor: usize,
) -> i64 {
    if width == 0 || width > LONGEST_SIDE || height == 0 || height > LONGEST_SIDE {
        return REFUSED + 3;
    }
    if pitch != width || coefficients.len() != width * height {
        return REFUSED + 4;
    }
    if factor == 0 || factor > LARGEST_FACTOR {
        return REFUSED + 7;
    }
    if x.1 >= factor || y.1 >= factor {
        return REFUSED + 8;
    }
    if past_end(x, width) {
        return REFUSED + 14;
    }
    if past_end(y, height) {
        return REFUSED + 15;
    }
    let m = factor as i64;
    let along_x = weights(x.1 as i64, m);
    let along_y = weights(y.1 as i64, m);
    let [a, b, c, d] = places_around(x.0, width);
    let mut sums = [0; 4];
    for (sum, place) in sums.iter_mut().zip(places_around(y.0, height)) {
        let row = &coefficients[width * place..][..width];
        *sum = weighted([row[a], row[b], row[c], row[d]].map(i64::from), &along_x);
    }
    i64::from(value(sums, &along_y, 576 * m.pow(6)))
}

/// How many values a row of an enlarged picture has, and the part of the value buffer that the whole of it takes, or the number of the refusal
/// negated.
fn enlarged<'a>(
    coefficients: &[i32],
    width: usize,
    height: usize,
    pitch: usize,
    factor: usize,
    values: &'a mut [i32],
) -> Result<(usize, &'a mut [i32]), i64> {
    if width == 0 || width > LONGEST_SIDE || height == 0 || height > LONGEST_SIDE {
        return Err(-3);
    }
    if pitch != width || coefficients.len() != width * height {
        return Err(-4);
    }
    if factor == 0 || factor > LARGEST_FACTOR {
        return Err(-7);
    }
    let across = (width - 1) * factor + 1;
    let count = across * ((height - 1) * factor + 1);
    if count > MOST_PICTURE_VALUES {
        return Err(-16);
    }
    Ok((across, values.get_mut(..count).ok_or(-9)?))
}

/// The count of values written, or the number of the refusal negated: each value by itself, its weights by their formula, the sum of sixteen
/// products, and one division. It is the least that can be written and not the fastest; a table of its own has its times.
pub fn picture_enlarge_by_terms(
    coefficients: &[i32],
    width: usize,
    height: usize,
    pitch: usize,
    factor: usize,
    values: &mut [i32],
) -> i64 {
    let (across, values) = match enlarged(coefficients, width, height, pitch, factor, values) {
        Ok(enlarged) => enlarged,
        Err(refusal) => return refusal,
    };
    let m = factor as i64;
    for (y, row) in values.chunks_exact_mut(across).enumerate() {
        for (kx, to) in row.chunks_mut(factor).enumerate() {
            for (jx, to) in to.iter_mut().enumerate() {
                let along_x = weights(jx as i64, m);
                let along_y = weights((y % factor) as i64, m);
                let columns = places_around(kx, width);
                let mut sum = 0;
                for (weight, place) in along_y.iter().zip(places_around(y / factor, height)) {
                    for (other, column) in along_x.iter().zip(columns) {
                        sum += weight * other * i64::from(coefficients[width * place + column]);
                    }
                }
                *to = rounded(sum, 576 * m.pow(6));
            }
        }
    }
    values.len() as i64
}

/// How many columns of an enlarged picture are computed beside each other: what they need fits in the processor's registers for two numbers of
/// 64 bits.
const LANES: usize = 4;

/// The divisor of a picture's values at factor m.
const fn divisor(m: usize) -> i64 {
    576 * (m as i64).pow(6)
}

/// The bit that tells the sign of a sum that has been moved. A sum has at most 2^27 times the divisor in size.
const fn sign_bit(m: usize) -> u32 {
    28 + divisor(m).ilog2()
}

/// How many times the divisor a sum is moved up: so often that it cannot be negative, and by less than a divisor below 2^(sign bit).
const fn moved_times(m: usize) -> i64 {
    (1 << sign_bit(m)) / divisor(m)
}

/// What is added to a sum before it is rounded: besides the move, half of the divisor less 1.
const fn moved_by(m: usize) -> i64 {
    moved_times(m) * divisor(m) + divisor(m) / 2 - 1
}

/// The sum that has been moved, over the divisor, to the nearest whole number, a tie going away from zero. At a sum of half the divisor or more
/// the sign bit is 1, and at one of minus half or less it is 0; between them it does not matter. Added, it takes a positive tie up and leaves a
/// negative one down. The divisor of a power of two is 9 times a power of two: the sum over that power has 32 bits, and a number u of 32 bits
/// over 9 is u(2^33 + 1) / 9 over 2^33. Thus the compiler computes several quotients at once, which it cannot with a division by 64 bits; where
/// it does not, `narrow` is false.
#[inline(always)]
fn rounded_moved<const M: usize>(moved: i64, narrow: bool) -> i32 {
    let sum = moved as u64;
    let sum = sum + (sum >> const { sign_bit(M) });
    let quotient = if M.is_power_of_two() && narrow {
        let ninths = (sum >> const { divisor(M).trailing_zeros() }) as u32;
        (u64::from(ninths) * const { ((1 << 33) + 1) / 9 }) >> 33
    } else {
        sum / const { divisor(M) as u64 }
    };
    (quotient as i32).wrapping_sub(const { moved_times(M) as i32 })
}

/// The sums at the numerators 0, 1, 2 and so on of one place, in N lines beside each other: a cubic by its differences.
struct Sums<const N: usize> {
    now: [i64; N],
    first: [i64; N],
    second: [i64; N],
    third: [i64; N],
}

impl<const N: usize> Sums<N> {
    /// Those of four numbers around the place in each line, at factor M, with a number that is added to every sum.
    #[inline(always)]
    fn new<const M: usize>([before, here, after, beyond]: [[i64; N]; 4], added: i64) -> Sums<N> {
        let m = M as i64;
        let mut sums = Sums {
            now: [0; N],
            first: [0; N],
            second: [0; N],
            third: [0; N],
        };
        for i in 0..N {
            let (a, b, c, d) = (before[i], here[i], after[i], beyond[i]);
            let zero = m.pow(3) * (a + 4 * b + c);
            let one = 3 * m * m * (c - a);
            let two = 3 * m * (a - 2 * b + c);
            let three = d - a + 3 * (b - c);
            sums.now[i] = zero + added;
            // Factor 2 needs one difference only. The sum at numerator 1, less that at 0, takes fewer steps, with 23 as 16 + 8 - 1: the
            // processor multiplies no two numbers of 64 bits at once.
            let both = b + c;
            sums.first[i] = if M == 2 {
                a + d + ((both << 4) + (both << 3) - both) - zero
            } else {
                one + two + three
            };
            sums.second[i] = 2 * two + 6 * three;
            sums.third[i] = 6 * three;
        }
        sums
    }

    /// The sums at the next numerator.
    #[inline(always)]
    fn next(&mut self) -> [i64; N] {
        let now = self.now;
        for i in 0..N {
            self.now[i] += self.first[i];
            self.first[i] += self.second[i];
            self.second[i] += self.third[i];
        }
        now
    }
}

/// Writes the sums along one row of coefficients, at every position of the enlarged row; only at the ends does it need the mirrored index.
fn lengthen<const M: usize>(row: &[i32], line: &mut [i64]) {
    let n = row.len();
    let at = |four: [i32; 4]| Sums::new::<M>(four.map(|c| [i64::from(c)]), 0);
    let end = |k: usize| at(places_around(k, n).map(|place| row[place]));
    let fill = |part: &mut [i64; M], mut sums: Sums<1>| {
        for to in part {
            [*to] = sums.next();
        }
    };
    let Some((last, front)) = line.split_last_mut() else {
        return;
    };
    let (parts, _) = front.as_chunks_mut();
    if let [first, inner @ ..] = parts {
        fill(first, end(0));
        for (part, four) in inner.iter_mut().zip(row.windows(4)) {
            fill(part, at([four[0], four[1], four[2], four[3]]));
        }
        if let [.., part] = inner {
            fill(part, end(n - 2));
        }
    }
    [*last] = end(n - 1).next();
}

/// Writes the rows of values between two rows of coefficients, or the last row, of the four lines around them.
fn write_rows<const M: usize>(lines: [&[i64]; 4], rows: &mut [i32]) {
    let across = lines[0].len();
    let mut chunks = rows.chunks_exact_mut(across);
    let mut parts: [&mut [[i32; LANES]]; M] = std::array::from_fn(|_| match chunks.next() {
        Some(row) => row.as_chunks_mut().0,
        None => &mut [],
    });
    let [a, b, c, d] = lines.map(|line| line.as_chunks().0);
    let around = a.iter().zip(b).zip(c).zip(d);
    for (place, (((a, b), c), d)) in around.enumerate() {
        let mut sums = Sums::<LANES>::new::<M>([*a, *b, *c, *d], const { moved_by(M) });
        for part in &mut parts {
            let values = sums.next().map(|sum| rounded_moved::<M>(sum, true));
            if let Some(to) = part.get_mut(place) {
                *to = values;
            }
        }
    }
    for x in across / LANES * LANES..across {
        let mut sums = Sums::<1>::new::<M>(lines.map(|line| [line[x]]), const { moved_by(M) });
        for row in rows.chunks_exact_mut(across) {
            [row[x]] = sums.next().map(|sum| rounded_moved::<M>(sum, true));
        }
    }
}

/// Writes all values. Each row of coefficients becomes a line of sums along x once, and four lines are there at a time.
fn enlarge_by_lines<const M: usize>(
    coefficients: &[i32],
    width: usize,
    across: usize,
    values: &mut [i32],
) {
    let height = coefficients.len() / width;
    let row = |y: usize| &coefficients[width * y..][..width];
    let [before, here, after, _] = places_around(0, height);
    let mut room = vec![0; 4 * across];
    let (a, rest) = room.split_at_mut(across);
    let (b, rest) = rest.split_at_mut(across);
    let (c, d) = rest.split_at_mut(across);
    let [mut a, mut b, mut c, mut d] = [a, b, c, d];
    lengthen::<M>(row(before), a);
    lengthen::<M>(row(here), b);
    lengthen::<M>(row(after), c);
    for (k, rows) in values.chunks_mut(M * across).enumerate() {
        let [.., beyond] = places_around(k, height);
        lengthen::<M>(row(beyond), d);
        write_rows::<M>([a, b, c, d], rows);
        (a, b, c, d) = (b, c, d, a);
    }
}

/// Writes the values of one place of a row, of the sums along the four columns around it. At the factors 1 and 2 the compiler does not compute
/// several quotients at once, and the two values of factor 2 take fewer steps without differences.
#[inline(always)]
fn write_place<const M: usize>(around: [i64; 4], to: &mut [i32; M]) {
    if M == 2 {
        let [before, here, after, beyond] = around;
        let first = 8 * (before + 4 * here + after) + const { moved_by(M) };
        let second = before + beyond + 23 * (here + after) + const { moved_by(M) };
        to[0] = rounded_moved::<M>(first, false);
        to[1] = rounded_moved::<M>(second, false);
        return;
    }
    let mut sums = Sums::<1>::new::<M>(around.map(|sum| [sum]), const { moved_by(M) });
    for to in to {
        [*to] = sums.next().map(|sum| rounded_moved::<M>(sum, M > 2));
    }
}

/// Writes a row of values, of four rows of coefficients and their weights. The sum along a column is computed once, where it is the last of the
/// four; only at the ends does it need the mirrored index.
fn write_row<const M: usize>(rows: [&[i32]; 4], weights: [i64; 4], values: &mut [i32]) {
    let n = rows[0].len();
    let [a, b, c, d] = rows.map(|row| &row[..n]);
    let [wa, wb, wc, wd] = weights;
    let sum = |x: usize| {
        wa * i64::from(a[x]) + wb * i64::from(b[x]) + wc * i64::from(c[x]) + wd * i64::from(d[x])
    };
    let [before, here, after, _] = places_around(0, n);
    let (mut before, mut here, mut after) = (sum(before), sum(here), sum(after));
    let (parts, _) = values.as_chunks_mut::<M>();
    // At factor 1 the last value is a part too.
    if let [inner @ .., part] = &mut parts[..n - 1] {
        for (x, part) in inner.iter_mut().enumerate() {
            let beyond = sum(x + 2);
            write_place([before, here, after, beyond], part);
            (before, here, after) = (here, after, beyond);
        }
        let [.., beyond] = places_around(n - 2, n);
        let beyond = sum(beyond);
        write_place([before, here, after, beyond], part);
        (before, here, after) = (here, after, beyond);
    }
    let last = (M as i64).pow(3) * (before + 4 * here + after) + const { moved_by(M) };
    values[(n - 1) * M] = rounded_moved::<M>(last, false);
}

/// Writes all values, row after row. Nothing is kept but the sums along four columns.
fn enlarge<const M: usize>(coefficients: &[i32], width: usize, across: usize, values: &mut [i32]) {
    let height = coefficients.len() / width;
    for (y, row) in values.chunks_exact_mut(across).enumerate() {
        let rows =
            places_around(y / M, height).map(|place| &coefficients[width * place..][..width]);
        write_row::<M>(rows, weights((y % M) as i64, M as i64), row);
    }
}

/// The count of values written, or the number of the refusal negated. The compiler knows the factor in each of the sixteen cases.
pub fn picture_enlarge(
    coefficients: &[i32],
    width: usize,
    height: usize,
    pitch: usize,
    factor: usize,
    values: &mut [i32],
) -> i64 {
    let (across, values) = match enlarged(coefficients, width, height, pitch, factor, values) {
        Ok(enlarged) => enlarged,
        Err(refusal) => return refusal,
    };
    match factor {
        1 => enlarge::<1>(coefficients, width, across, values),
        2 => enlarge::<2>(coefficients, width, across, values),
        3 => enlarge::<3>(coefficients, width, across, values),
        4 => enlarge::<4>(coefficients, width, across, values),
        5 => enlarge::<5>(coefficients, width, across, values),
        6 => enlarge::<6>(coefficients, width, across, values),
        7 => enlarge::<7>(coefficients, width, across, values),
        8 => enlarge::<8>(coefficients, width, across, values),
        9 => enlarge::<9>(coefficients, width, across, values),
        10 => enlarge::<10>(coefficients, width, across, values),
        11 => enlarge::<11>(coefficients, width, across, values),
        12 => enlarge::<12>(coefficients, width, across, values),
        13 => enlarge::<13>(coefficients, width, across, values),
        14 => enlarge::<14>(coefficients, width, across, values),
        15 => enlarge::<15>(coefficients, width, across, values),
        _ => enlarge::<16>(coefficients, width, across, values),
    }
    values.len() as i64
}

/// The same with four whole lines in memory of its own, which it allocates. A table of its own has its times.
pub fn picture_enlarge_by_lines(
    coefficients: &[i32],
    width: usize,
    height: usize,
    pitch: usize,
    factor: usize,
    values: &mut [i32],
) -> i64 {
    let (across, values) = match enlarged(coefficients, width, height, pitch, factor, values) {
        Ok(enlarged) => enlarged,
        Err(refusal) => return refusal,
    };
    match factor {
        1 => enlarge_by_lines::<1>(coefficients, width, across, values),
        2 => enlarge_by_lines::<2>(coefficients, width, across, values),
        3 => enlarge_by_lines::<3>(coefficients, width, across, values),
        4 => enlarge_by_lines::<4>(coefficients, width, across, values),
        5 => enlarge_by_lines::<5>(coefficients, width, across, values),
        6 => enlarge_by_lines::<6>(coefficients, width, across, values),
        7 => enlarge_by_lines::<7>(coefficients, width, across, values),
        8 => enlarge_by_lines::<8>(coefficients, width, across, values),
        9 => enlarge_by_lines::<9>(coefficients, width, across, values),
        10 => enlarge_by_lines::<10>(coefficients, width, across, values),
        11 => enlarge_by_lines::<11>(coefficients, width, across, values),
        12 => enlarge_by_lines::<12>(coefficients, width, across, values),
        13 => enlarge_by_lines::<13>(coefficients, width, across, values),
        14 => enlarge_by_lines::<14>(coefficients, width, across, values),
        15 => enlarge_by_lines::<15>(coefficients, width, across, values),
        _ => enlarge_by_lines::<16>(coefficients, width, across, values),
    }
    values.len() as i64
}

/// The number of two bytes from a place on, the low one first.
fn short(bytes: &[u8], at: usize) -> u16 {
    u16::from_le_bytes([bytes[at], bytes[at + 1]])
}

/// The number of four bytes from a place on, the lowest first.
fn long(bytes: &[u8], at: usize) -> u32 {
    u32::from_le_bytes([bytes[at], bytes[at + 1], bytes[at + 2], bytes[at + 3]])
}

/// The first 16 bytes of a WAVE file's first "fmt " chunk, and its first "data" chunk, if the file has both in this order.
fn chunks(bytes: &[u8]) -> Option<(&[u8; 16], &[u8])> {
    let (head, mut rest) = bytes.split_at_checked(12)?;
    if head[..4] != *b"RIFF" || long(head, 4) as usize != bytes.len() - 8 || head[8..] != *b"WAVE" {
        return None;
    }
    let mut format: Option<&[u8]> = None;
    loop {
        let (head, after) = rest.split_at_checked(8)?;
        let size = long(head, 4) as usize;
        let (body, after) = after.split_at_checked(size)?;
        // A body of odd length has a pad byte after it.
        rest = after.get(size % 2..)?;
        match &head[..4] {
            b"data" => return Some((format?.first_chunk()?, body)),
            b"fmt " => format = format.or(Some(body)),
            _ => {}
        }
    }
}

/// The rate times 65,536 plus the count of samples written, or the number of the refusal negated.
pub fn wav_read(bytes: &[u8], samples: &mut [i16]) -> i64 {
    let Some((format, content)) = chunks(bytes) else {
        return -11;
    };
    if short(format, 0) != 1 || short(format, 2) != 1 || short(format, 14) != 16 {
        return -12;
    }
    if content.len() % 2 != 0 {
        return -13;
    }
    let count = content.len() / 2;
    let Some(samples) = samples.get_mut(..count) else {
        return -13;
    };
    if count == 0 {
        return -1;
    }
    if count > LONGEST_ROW {
        return -2;
    }
    for (sample, bytes) in samples.iter_mut().zip(content.chunks_exact(2)) {
        *sample = i16::from_le_bytes([bytes[0], bytes[1]]);
    }
    65536 * i64::from(long(format, 4)) + count as i64
}

/// Where the first run of values at or above the threshold starts. What a run would have is looked at from its last value to its first, and the
/// scan goes on behind the first of them that is below it.
fn first_run(values: &[i32], threshold: i32) -> Option<usize> {
    let mut rest = values;
    while let Some(run) = rest.first_chunk::<RUN>() {
        match run.iter().rposition(|&value| value < threshold) {
            Some(missed) => rest = &rest[missed + 1..],
            None => return Some(values.len() - rest.len()),
        }
    }
    None
}

/// 2, with the position and the height of the onset, or 1, with the greatest height of a row without one, or the number of the refusal negated. It is
/// not inlined, since a search of the library is one call too: in a delay, which needs no greatest height, the compiler would not look for it.
#[inline(never)]
pub fn onset_find(
    values: &[i32],
    factor: usize,
    threshold: i32,
    position: &mut f64,
    height: &mut f64,
) -> i64 {
    if values.is_empty() {
        return -1;
    }
    if values.len() > MOST_VALUES {
        return -2;
    }
    if factor == 0 || factor > LARGEST_FACTOR {
        return -7;
    }
    if let Some(place) = first_run(values, threshold) {
        *position = place as f64 / factor as f64;
        *height = f64::from(values[place]) / 256.0;
        return 2;
    }
    let greatest = values.iter().fold(i32::MIN, |best, &value| best.max(value));
    *height = f64::from(greatest) / 256.0;
    1
}

/// The delay between two rows: the position of the first onset less that of the second, in samples, and the heights of both onsets.
pub struct Delay {
    pub samples: f64,
    pub first_height: f64,
    pub second_height: f64,
}

/// The position and the height of the onset, or nothing for a row without one, or the number of the refusal.
fn onset(values: &[i32], factor: usize, threshold: i32) -> Result<Option<(f64, f64)>, usize> {
    let (mut position, mut height) = (0.0, 0.0);
    match onset_find(values, factor, threshold, &mut position, &mut height) {
        2 => Ok(Some((position, height))),
        1 => Ok(None),
        refused => Err(refused.unsigned_abs() as usize),
    }
}

/// The delay, or the number of the refusal. Where the first row has no onset or the factor is not exact, the second row is only judged: every value
/// reaches the least threshold, so that its search ends with the first eight values.
pub fn delay(first: &[i32], second: &[i32], factor: usize, threshold: i32) -> Result<Delay, usize> {
    let one = onset(first, factor, threshold)?;
    // The factor is from 1 to 16 here. Positions are exact where it is a power of two.
    let exact = factor.is_power_of_two();
    let searched = one.is_some() && exact;
    let two = onset(second, factor, if searched { threshold } else { i32::MIN })?;
    if !exact {
        return Err(19);
    }
    match (one, two) {
        (Some((x, h)), Some((y, g))) => Ok(Delay {
            samples: x - y,
            first_height: h,
            second_height: g,
        }),
        _ => Err(20),
    }
}

/// Who waits, and who was served last. Like the library's it goes in by value, and the next one comes back beside the answer.
#[derive(Clone, Copy)]
struct TurnTaker {
    waiting: [bool; STATIONS],
    last: usize,
}

/// The station after the one served last, going round. A number above 15 counts as 15.
fn next(last: usize) -> usize {
    if last < STATIONS - 1 {
        last + 1
    } else {
        0
    }
}

impl TurnTaker {
    /// 0, or the number of the refusal.
    fn announce(mut self, station: usize) -> (usize, TurnTaker) {
        let answer = match self.waiting.get_mut(station) {
            None => 17,
            Some(mark) => match replace(mark, true) {
                true => 18,
                false => 0,
            },
        };
        (answer, self)
    }

    /// The first station that waits after the one served last, going round, whose mark is cleared, or `NOBODY`.
    fn turn(mut self) -> (usize, TurnTaker) {
        let first = next(self.last);
        let Some(station) = (first..STATIONS).chain(0..first).find(|&k| self.waiting[k]) else {
            return (NOBODY, self);
        };
        self.waiting[station] = false;
        self.last = station;
        (station, self)
    }
}

/// An announcement, by value. It is not inlined, since an announcement of the library is one call too.
#[inline(never)]
pub fn announce(waiting: &mut [bool; STATIONS], last: &mut usize, station: usize) -> usize {
    let taker = TurnTaker {
        waiting: *waiting,
        last: *last,
    };
    let (answer, next) = taker.announce(station);
    *waiting = next.waiting;
    *last = next.last;
    answer
}

/// A turn, by value. It is not inlined, as above.
#[inline(never)]
pub fn turn(waiting: &mut [bool; STATIONS], last: &mut usize) -> usize {
    let taker = TurnTaker {
        waiting: *waiting,
        last: *last,
    };
    let (answer, next) = taker.turn();
    *waiting = next.waiting;
    *last = next.last;
    answer
}

/// An announcement that changes the marks where they are: 0, or the number of the refusal. A station that waits is marked again, which changes nothing
/// and needs no branch. A table of its own has its times, and those of the three functions below.
#[inline(never)]
pub fn announce_in_place(waiting: &mut [bool; STATIONS], station: usize) -> usize {
    let Some(mark) = waiting.get_mut(station) else {
        return 17;
    };
    if replace(mark, true) {
        18
    } else {
        0
    }
}

/// A turn that changes the state where it is.
#[inline(never)]
pub fn turn_in_place(waiting: &mut [bool; STATIONS], last: &mut usize) -> usize {
    let first = next(*last);
    let Some(station) = (first..STATIONS).chain(0..first).find(|&k| waiting[k]) else {
        return NOBODY;
    };
    waiting[station] = false;
    *last = station;
    station
}

/// An announcement where the marks are the bits of a word, that of station 0 the lowest.
#[inline(never)]
pub fn announce_bits(waiting: &mut u16, station: usize) -> usize {
    if station >= STATIONS {
        return 17;
    }
    let before = *waiting;
    *waiting |= 1 << station;
    if *waiting == before {
        18
    } else {
        0
    }
}

/// A turn on such a word, without a search: rotated, it has the bit of the first station to be looked at lowest, and the zeros below its lowest one
/// are counted.
#[inline(never)]
pub fn turn_bits(waiting: &mut u16, last: &mut usize) -> usize {
    if *waiting == 0 {
        return NOBODY;
    }
    let first = next(*last);
    let rotated = waiting.rotate_right(first as u32);
    let station = (first + rotated.trailing_zeros() as usize) % STATIONS;
    *waiting &= !(1 << station);
    *last = station;
    station
}
