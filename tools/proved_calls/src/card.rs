//! The call of include/card.h.

extern "C" {
    fn burst_card_line(
        card: u64,
        shots: u64,
        picture: u64,
        bursts: *mut u64,
        left: *mut u64,
    ) -> u32;
}

/// How many full bursts a card holds, and the bytes left: the refusal number.
pub fn card_line(card: u64, shots: u64, picture: u64, bursts: &mut u64, left: &mut u64) -> u32 {
    // SAFETY: see the head of the package; it writes to bursts and left.
    unsafe { burst_card_line(card, shots, picture, bursts, left) }
}
