//! Taking turns, by the functions of turn.c.

extern "C" {
    fn turn_announce(waiting: *mut bool, last: *mut usize, station: usize) -> usize;

    fn turn_take(waiting: *mut bool, last: *mut usize) -> usize;
}

pub fn announce(waiting: &mut [bool; 16], last: &mut usize, station: usize) -> usize {
    // SAFETY: the function reads and writes sixteen marks, which are lent mutably, and the number.
    unsafe { turn_announce(waiting.as_mut_ptr(), last, station) }
}

pub fn take(waiting: &mut [bool; 16], last: &mut usize) -> usize {
    // SAFETY: as above.
    unsafe { turn_take(waiting.as_mut_ptr(), last) }
}
