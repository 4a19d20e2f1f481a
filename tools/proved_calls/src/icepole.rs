//! The calls of include/icepole.h. Each returns its refusal number, 0 when done.

/// The calls of a variant: a module with `seal`, `open` and `open_in_place`.
macro_rules! variant {
    ($variant:ident, $seal:ident, $open:ident, $open_in_place:ident) => {
        pub mod $variant {
            extern "C" {
                fn $seal(
                    key: *const u8,
                    key_len: usize,
                    nonce: *const u8,
                    nonce_len: usize,
                    secret: *const u8,
                    secret_len: usize,
                    ad1: *const u8,
                    ad1_len: usize,
                    ad2: *const u8,
                    ad2_len: usize,
                    msg: *const u8,
                    msg_len: usize,
                    out: *mut u8,
                    out_len: usize,
                ) -> u32;

                fn $open(
                    key: *const u8,
                    key_len: usize,
                    nonce: *const u8,
                    nonce_len: usize,
                    ad1: *const u8,
                    ad1_len: usize,
                    ad2: *const u8,
                    ad2_len: usize,
                    sealed: *const u8,
                    sealed_len: usize,
                    out: *mut u8,
                    out_len: usize,
                    info: *mut u8,
                    info_len: usize,
                ) -> u32;

                fn $open_in_place(
                    key: *const u8,
                    key_len: usize,
                    nonce: *const u8,
                    nonce_len: usize,
                    ad1: *const u8,
                    ad1_len: usize,
                    ad2: *const u8,
                    ad2_len: usize,
                    buffer: *mut u8,
                    buffer_len: usize,
                    info: *mut u8,
                    info_len: usize,
                ) -> u32;
            }

            pub fn seal(
                key: &[u8],
                nonce: &[u8],
                secret: &[u8],
                ad1: &[u8],
                ad2: &[u8],
                msg: &[u8],
                out: &mut [u8],
            ) -> u32 {
                // SAFETY: see the head of the package; it writes to out.
                unsafe {
                    $seal(
                        key.as_ptr(),
                        key.len(),
                        nonce.as_ptr(),
                        nonce.len(),
                        secret.as_ptr(),
                        secret.len(),
                        ad1.as_ptr(),
                        ad1.len(),
                        ad2.as_ptr(),
                        ad2.len(),
                        msg.as_ptr(),
                        msg.len(),
                        out.as_mut_ptr(),
                        out.len(),
                    )
                }
            }

            pub fn open(
                key: &[u8],
                nonce: &[u8],
                ad1: &[u8],
                ad2: &[u8],
                sealed: &[u8],
                out: &mut [u8],
                info: &mut [u8],
            ) -> u32 {
                // SAFETY: see the head of the package; it writes to out and info.
                unsafe {
                    $open(
                        key.as_ptr(),
                        key.len(),
                        nonce.as_ptr(),
                        nonce.len(),
                        ad1.as_ptr(),
                        ad1.len(),
                        ad2.as_ptr(),
                        ad2.len(),
                        sealed.as_ptr(),
                        sealed.len(),
                        out.as_mut_ptr(),
                        out.len(),
                        info.as_mut_ptr(),
                        info.len(),
                    )
                }
            }

            pub fn open_in_place(
                key: &[u8],
                nonce: &[u8],
                ad1: &[u8],
                ad2: &[u8],
                buffer: &mut [u8],
                info: &mut [u8],
            ) -> u32 {
                // SAFETY: see the head of the package; it writes to buffer and info.
                unsafe {
                    $open_in_place(
                        key.as_ptr(),
                        key.len(),
                        nonce.as_ptr(),
                        nonce.len(),
                        ad1.as_ptr(),
                        ad1.len(),
                        ad2.as_ptr(),
                        ad2.len(),
                        buffer.as_mut_ptr(),
                        buffer.len(),
                        info.as_mut_ptr(),
                        info.len(),
                    )
                }
            }
        }
    };
}

variant!(
    icepole128,
    icepole128_seal,
    icepole128_open,
    icepole128_open_in_place
);
variant!(
    icepole128a,
    icepole128a_seal,
    icepole128a_open,
    icepole128a_open_in_place
);
variant!(
    icepole256a,
    icepole256a_seal,
    icepole256a_open,
    icepole256a_open_in_place
);

extern "C" {
    fn icepole128_start(
        key: *const u8,
        key_len: usize,
        nonce: *const u8,
        nonce_len: usize,
        secret: *const u8,
        secret_len: usize,
        ad1: *const u8,
        ad1_len: usize,
        ad2: *const u8,
        ad2_len: usize,
        out: *mut u8,
        out_len: usize,
        state: *mut u8,
        state_len: usize,
    ) -> u32;

    fn icepole128_strip(
        state: *mut u8,
        state_len: usize,
        msg: *const u8,
        msg_len: usize,
        out: *mut u8,
        out_len: usize,
    ) -> u32;

    fn icepole128_end(state: *mut u8, state_len: usize, out: *mut u8, out_len: usize) -> u32;
}

pub fn start(
    key: &[u8],
    nonce: &[u8],
    secret: &[u8],
    ad1: &[u8],
    ad2: &[u8],
    out: &mut [u8],
    state: &mut [u8],
) -> u32 {
    // SAFETY: see the head of the package; it writes to out and state.
    unsafe {
        icepole128_start(
            key.as_ptr(),
            key.len(),
            nonce.as_ptr(),
            nonce.len(),
            secret.as_ptr(),
            secret.len(),
            ad1.as_ptr(),
            ad1.len(),
            ad2.as_ptr(),
            ad2.len(),
            out.as_mut_ptr(),
            out.len(),
            state.as_mut_ptr(),
            state.len(),
        )
    }
}

pub fn strip(state: &mut [u8], msg: &[u8], out: &mut [u8]) -> u32 {
    // SAFETY: see the head of the package; it writes to state and out.
    unsafe {
        icepole128_strip(
            state.as_mut_ptr(),
            state.len(),
            msg.as_ptr(),
            msg.len(),
            out.as_mut_ptr(),
            out.len(),
        )
    }
}

pub fn end(state: &mut [u8], out: &mut [u8]) -> u32 {
    // SAFETY: see the head of the package; it writes to state and out.
    unsafe { icepole128_end(state.as_mut_ptr(), state.len(), out.as_mut_ptr(), out.len()) }
}
