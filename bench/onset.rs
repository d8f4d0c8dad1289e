//! Finding an onset, by the function of onset.c.

extern "C" {
    fn onset_find(
        values: *const i32,
        length: usize,
        factor: usize,
        threshold: i32,
        position: *mut f64,
        height: *mut f64,
    ) -> i64;
}

pub fn find(
    values: &[i32],
    factor: usize,
    threshold: i32,
    position: &mut f64,
    height: &mut f64,
) -> i64 {
    // SAFETY: the pointer and the length are those of a slice, and the two numbers that are written are lent mutably.
    unsafe {
        onset_find(
            values.as_ptr(),
            values.len(),
            factor,
            threshold,
            position,
            height,
        )
    }
}
