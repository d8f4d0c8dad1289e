//! The delay between two rows, by the function of delay.c.

extern "C" {
    fn delay_between(
        first: *const i32,
        first_length: usize,
        second: *const i32,
        second_length: usize,
        factor: usize,
        threshold: i32,
        samples: *mut f64,
        first_height: *mut f64,
        second_height: *mut f64,
    ) -> usize;
}

pub fn between(
    first: &[i32],
    second: &[i32],
    factor: usize,
    threshold: i32,
    samples: &mut f64,
    first_height: &mut f64,
    second_height: &mut f64,
) -> usize {
    // SAFETY: each pointer and length are those of a slice, and the three numbers that are written are lent mutably.
    unsafe {
        delay_between(
            first.as_ptr(),
            first.len(),
            second.as_ptr(),
            second.len(),
            factor,
            threshold,
            samples,
            first_height,
            second_height,
        )
    }
}
