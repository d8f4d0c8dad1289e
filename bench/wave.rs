//! Reading a WAVE file, by the function of wave.c.

extern "C" {
    fn wave_read(bytes: *const u8, length: usize, samples: *mut i16, room: usize) -> i64;
}

pub fn read(bytes: &[u8], samples: &mut [i16]) -> i64 {
    // SAFETY: each pointer and length are those of a slice, and the slice that is written is lent mutably.
    unsafe {
        wave_read(
            bytes.as_ptr(),
            bytes.len(),
            samples.as_mut_ptr(),
            samples.len(),
        )
    }
}
