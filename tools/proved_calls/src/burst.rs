//! The calls of include/burst.h, and its sizes.

/// The bytes of a script that are calls.
pub const CALL_DROP: u8 = 0;
pub const CALL_CLOSE: u8 = 1;
pub const CALL_KEEP: u8 = 2;

pub const KEY_BYTES: usize = 16;
pub const SITE_MARK_BYTES: usize = 16;
pub const STAMP_BYTES: usize = 16;
pub const MAX_PICTURE_BYTES: usize = 1_048_576;
pub const MAX_SHOTS: usize = 60;
/// The shortest file that is written, of edition 2.
pub const MIN_WRITTEN_BYTES: usize = 72;
/// The shortest file that is read, of edition 1.
pub const MIN_READ_BYTES: usize = 64;
pub const CHECK_INFO_BYTES: usize = 34;
pub const FETCH_INFO_BYTES: usize = 22;
/// Room for every text of `list`.
pub const LIST_BYTES: usize = 4_800;
pub const MAX_LISTED_BYTES: usize = 65_536;
pub const ANSWER_BYTES: usize = 8;

extern "C" {
    fn burst_replay(
        key: *const u8,
        key_len: usize,
        burst_number: u64,
        camera: u32,
        site_mark: *const u8,
        site_mark_len: usize,
        script: *const u8,
        script_len: usize,
        buffer: *mut u8,
        buffer_len: usize,
        answers: *mut u8,
        answers_len: usize,
        whole: *mut u32,
    ) -> usize;

    fn burst_check(
        key: *const u8,
        key_len: usize,
        file: *const u8,
        file_len: usize,
        mark: *mut u32,
        info: *mut u8,
        info_len: usize,
    ) -> u32;

    fn burst_fetch(
        key: *const u8,
        key_len: usize,
        file: *const u8,
        file_len: usize,
        place: usize,
        out: *mut u8,
        out_len: usize,
        mark: *mut u32,
        info: *mut u8,
        info_len: usize,
    ) -> u32;

    fn burst_record(
        key: *const u8,
        key_len: usize,
        file: *const u8,
        file_len: usize,
        place: usize,
        mark: *mut u32,
        offset: *mut u32,
        size: *mut u32,
    ) -> u32;

    fn burst_list(
        file: *const u8,
        file_len: usize,
        text: *mut u8,
        text_len: usize,
        length: *mut u32,
    ) -> u32;

    fn burst_size_up(
        lengths: *const u64,
        count: usize,
        file_length: *mut u64,
        p12: *mut u64,
        p6: *mut u64,
    ) -> u32;
}

/// Begin and the calls of a script on a buffer: the count of answers written.
pub fn replay(
    key: &[u8],
    burst_number: u64,
    camera: u32,
    site_mark: &[u8],
    script: &[u8],
    buffer: &mut [u8],
    answers: &mut [u8],
    whole: &mut u32,
) -> usize {
    // SAFETY: see the head of the package; it writes to buffer, answers and
    // whole.
    unsafe {
        burst_replay(
            key.as_ptr(),
            key.len(),
            burst_number,
            camera,
            site_mark.as_ptr(),
            site_mark.len(),
            script.as_ptr(),
            script.len(),
            buffer.as_mut_ptr(),
            buffer.len(),
            answers.as_mut_ptr(),
            answers.len(),
            whole,
        )
    }
}

/// Checks a whole file: the refusal number.
pub fn check(key: &[u8], file: &[u8], mark: &mut u32, info: &mut [u8]) -> u32 {
    // SAFETY: see the head of the package; it writes to mark and info.
    unsafe {
        burst_check(
            key.as_ptr(),
            key.len(),
            file.as_ptr(),
            file.len(),
            mark,
            info.as_mut_ptr(),
            info.len(),
        )
    }
}

/// Checks a whole file and writes the picture of a place: the refusal number.
pub fn fetch(
    key: &[u8],
    file: &[u8],
    place: usize,
    out: &mut [u8],
    mark: &mut u32,
    info: &mut [u8],
) -> u32 {
    // SAFETY: see the head of the package; it writes to out, mark and info.
    unsafe {
        burst_fetch(
            key.as_ptr(),
            key.len(),
            file.as_ptr(),
            file.len(),
            place,
            out.as_mut_ptr(),
            out.len(),
            mark,
            info.as_mut_ptr(),
            info.len(),
        )
    }
}

/// Checks a whole file and says where the record of a place stands: the refusal
/// number.
pub fn record(
    key: &[u8],
    file: &[u8],
    place: usize,
    mark: &mut u32,
    offset: &mut u32,
    size: &mut u32,
) -> u32 {
    // SAFETY: see the head of the package; it writes to mark, offset and size.
    unsafe {
        burst_record(
            key.as_ptr(),
            key.len(),
            file.as_ptr(),
            file.len(),
            place,
            mark,
            offset,
            size,
        )
    }
}

/// Writes the listing of a file: the refusal number.
pub fn list(file: &[u8], text: &mut [u8], length: &mut u32) -> u32 {
    // SAFETY: see the head of the package; it writes to text and length.
    unsafe {
        burst_list(
            file.as_ptr(),
            file.len(),
            text.as_mut_ptr(),
            text.len(),
            length,
        )
    }
}

/// Sizes up a planned burst, a length for each shot and 0 for a dropped one: the
/// refusal number.
pub fn size_up(lengths: &[u64], file_length: &mut u64, p12: &mut u64, p6: &mut u64) -> u32 {
    // SAFETY: see the head of the package; it writes to file_length, p12 and p6.
    unsafe { burst_size_up(lengths.as_ptr(), lengths.len(), file_length, p12, p6) }
}
