//! The data of the measurements: pseudo-random and the same in every run, in whole numbers only, so that another language makes the same.
//!
//! `number(repetition, place)` is the output function of splitmix64 over a counter. Even repetitions are noise over all 16 bits; odd ones are
//! like recordings of clicks: faint noise, and in each 512 samples one wave that halves every 8 samples.

const WAVE: [i64; 8] = [0, 5, 8, 5, 0, -5, -8, -5];
const SECTION: usize = 512;

/// 64 pseudo-random bits.
pub fn number(repetition: u64, place: u64) -> u64 {
    let mut bits = (repetition << 32 | place).wrapping_mul(0x9E37_79B9_7F4A_7C15);
    bits = (bits ^ (bits >> 30)).wrapping_mul(0xBF58_476D_1CE4_E5B9);
    bits = (bits ^ (bits >> 27)).wrapping_mul(0x94D0_49BB_1331_11EB);
    bits ^ (bits >> 31)
}

/// Fills the samples (or pixels) of one repetition.
pub fn fill(repetition: u64, samples: &mut [i16]) {
    if repetition % 2 == 0 {
        for (place, sample) in samples.iter_mut().enumerate() {
            *sample = (number(repetition, place as u64) >> 48) as i16;
        }
        return;
    }
    for (index, section) in samples.chunks_mut(SECTION).enumerate() {
        let choice = number(repetition, 1 << 31 | index as u64);
        let start = choice % 448;
        let height = 8192 + (choice >> 50) as i64;
        for (offset, sample) in section.iter_mut().enumerate() {
            let place = (index * SECTION + offset) as u64;
            let faint = (number(repetition, place) >> 55) as i64 - 256;
            let since = (offset as u64).wrapping_sub(start);
            let click = if since < 64 {
                (height * WAVE[(since % 8) as usize]) >> (3 + since / 8)
            } else {
                0
            };
            *sample = (faint + click) as i16;
        }
    }
}
