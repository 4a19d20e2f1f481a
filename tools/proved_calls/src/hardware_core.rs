//! The calls of include/core.h. Each returns its refusal number, 0 when done.

extern "C" {
    fn icepole_check_log(log: *const u8, log_len: usize, agrees: *mut u32, round: *mut u32) -> u32;

    fn icepole_rounds_back(state: *mut u8, state_len: usize, rounds: u32) -> u32;

    fn icepole_rounds_forward(state: *mut u8, state_len: usize, rounds: u32) -> u32;
}

/// Judges a round log of the hardware core.
pub fn check_log(log: &[u8], agrees: &mut u32, round: &mut u32) -> u32 {
    // SAFETY: see the head of the package; it writes to agrees and round.
    unsafe { icepole_check_log(log.as_ptr(), log.len(), agrees, round) }
}

/// Goes back from a state to the one from which so many rounds reach it.
pub fn rounds_back(state: &mut [u8], rounds: u32) -> u32 {
    // SAFETY: see the head of the package; it writes to state.
    unsafe { icepole_rounds_back(state.as_mut_ptr(), state.len(), rounds) }
}

/// Runs so many rounds on a state.
pub fn rounds_forward(state: &mut [u8], rounds: u32) -> u32 {
    // SAFETY: see the head of the package; it writes to state.
    unsafe { icepole_rounds_forward(state.as_mut_ptr(), state.len(), rounds) }
}
