//! The operations of the library, by its C functions, and the delay of the plotter, by the one of its own archive: a slice passes as a pointer and a
//! length, an array as a pointer. `run --before` makes a crate of a copy of this file for an earlier version of the library; `inline` is for the
//! calls of that crate to be like those of this module.

extern "C" {
    fn harness_row_transform(
        samples: *const i16,
        samples_length: usize,
        coefficients: *mut i32,
        coefficients_length: usize,
        work: *mut i64,
        work_length: usize,
    ) -> i64;

    fn harness_picture_transform(
        pixels: *const i16,
        pixels_length: usize,
        width: usize,
        height: usize,
        pitch: usize,
        coefficients: *mut i32,
        coefficients_length: usize,
        work: *mut i64,
        work_length: usize,
    ) -> i64;

    fn harness_row_zoom(
        coefficients: *const i32,
        coefficients_length: usize,
        factor: usize,
        values: *mut i32,
        values_length: usize,
    ) -> i64;

    fn harness_row_value(
        coefficients: *const i32,
        coefficients_length: usize,
        k: usize,
        j: usize,
        factor: usize,
    ) -> i64;

    fn harness_picture_value(
        coefficients: *const i32,
        coefficients_length: usize,
        width: usize,
        height: usize,
        pitch: usize,
        kx: usize,
        jx: usize,
        ky: usize,
        jy: usize,
        factor: usize,
    ) -> i64;

    fn harness_picture_enlarge(
        coefficients: *const i32,
        coefficients_length: usize,
        width: usize,
        height: usize,
        pitch: usize,
        factor: usize,
        values: *mut i32,
        values_length: usize,
    ) -> i64;

    fn harness_wav_read(
        bytes: *const u8,
        bytes_length: usize,
        samples: *mut i16,
        samples_length: usize,
    ) -> i64;

    fn harness_onset_find(
        values: *const i32,
        values_length: usize,
        factor: usize,
        threshold: i32,
        position: *mut f64,
        height: *mut f64,
    ) -> i64;

    fn harness_announce(waiting: *mut bool, last: *mut usize, station: usize) -> usize;

    fn harness_turn(waiting: *mut bool, last: *mut usize) -> usize;

    fn harness_delay_between(
        first: *const i32,
        first_length: usize,
        second: *const i32,
        second_length: usize,
        factor: usize,
        threshold: i32,
        samples: *mut f64,
        first_height: *mut f64,
        second_height: *mut f64,
    ) -> usize;
}

#[inline]
pub fn row_transform(samples: &[i16], coefficients: &mut [i32], work: &mut [i64]) -> i64 {
    // SAFETY: each pointer and length are those of a slice, and the slices that are written are lent mutably.
    unsafe {
        harness_row_transform(
            samples.as_ptr(),
            samples.len(),
            coefficients.as_mut_ptr(),
            coefficients.len(),
            work.as_mut_ptr(),
            work.len(),
        )
    }
}

#[inline]
pub fn picture_transform(
    pixels: &[i16],
    width: usize,
    height: usize,
    pitch: usize,
    coefficients: &mut [i32],
    work: &mut [i64],
) -> i64 {
    // SAFETY: as above.
    unsafe {
        harness_picture_transform(
            pixels.as_ptr(),
            pixels.len(),
            width,
            height,
            pitch,
            coefficients.as_mut_ptr(),
            coefficients.len(),
            work.as_mut_ptr(),
            work.len(),
        )
    }
}

#[inline]
pub fn row_zoom(coefficients: &[i32], factor: usize, values: &mut [i32]) -> i64 {
    // SAFETY: as above.
    unsafe {
        harness_row_zoom(
            coefficients.as_ptr(),
            coefficients.len(),
            factor,
            values.as_mut_ptr(),
            values.len(),
        )
    }
}

#[inline]
pub fn row_value(coefficients: &[i32], position: (usize, usize), factor: usize) -> i64 {
    let (k, j) = position;
    // SAFETY: the pointer and the length are those of a slice, which is only read.
    unsafe { harness_row_value(coefficients.as_ptr(), coefficients.len(), k, j, factor) }
}

#[inline]
pub fn picture_value(
    coefficients: &[i32],
    width: usize,
    height: usize,
    pitch: usize,
    x: (usize, usize),
    y: (usize, usize),
    factor: usize,
) -> i64 {
    // SAFETY: as above.
    unsafe {
        harness_picture_value(
            coefficients.as_ptr(),
            coefficients.len(),
            width,
            height,
            pitch,
            x.0,
            x.1,
            y.0,
            y.1,
            factor,
        )
    }
}

#[inline]
pub fn picture_enlarge(
    coefficients: &[i32],
    width: usize,
    height: usize,
    pitch: usize,
    factor: usize,
    values: &mut [i32],
) -> i64 {
    // SAFETY: each pointer and length are those of a slice, and the slice that is written is lent mutably.
    unsafe {
        harness_picture_enlarge(
            coefficients.as_ptr(),
            coefficients.len(),
            width,
            height,
            pitch,
            factor,
            values.as_mut_ptr(),
            values.len(),
        )
    }
}

#[inline]
pub fn wav_read(bytes: &[u8], samples: &mut [i16]) -> i64 {
    // SAFETY: as above.
    unsafe {
        harness_wav_read(
            bytes.as_ptr(),
            bytes.len(),
            samples.as_mut_ptr(),
            samples.len(),
        )
    }
}

#[inline]
pub fn onset_find(
    values: &[i32],
    factor: usize,
    threshold: i32,
    position: &mut f64,
    height: &mut f64,
) -> i64 {
    // SAFETY: as above, and the two numbers are lent mutably.
    unsafe {
        harness_onset_find(
            values.as_ptr(),
            values.len(),
            factor,
            threshold,
            position,
            height,
        )
    }
}

#[inline]
pub fn announce(waiting: &mut [bool; 16], last: &mut usize, station: usize) -> usize {
    // SAFETY: the function reads and writes sixteen marks, which are lent mutably, and the number.
    unsafe { harness_announce(waiting.as_mut_ptr(), last, station) }
}

#[inline]
pub fn turn(waiting: &mut [bool; 16], last: &mut usize) -> usize {
    // SAFETY: as above.
    unsafe { harness_turn(waiting.as_mut_ptr(), last) }
}

#[inline]
pub fn delay_between(
    first: &[i32],
    second: &[i32],
    factor: usize,
    threshold: i32,
    samples: &mut f64,
    first_height: &mut f64,
    second_height: &mut f64,
) -> usize {
    // SAFETY: each pointer and length are those of a slice, and the three numbers that are written are lent mutably.
    unsafe {
        harness_delay_between(
            first.as_ptr(),
            first.len(),
            second.as_ptr(),
            second.len(),
            factor,
            threshold,
            samples,
            first_height,
            second_height,
        )
    }
}
