//! The calls that read a file, held against the reference's reader and against
//! the burst that the file is of.

use crate::lent::Lent;
use crate::list::ROOM;
use reference::burst::plain::PlainShot;
use reference::burst::reader::{self, Checked, Fetched, RecordPart};
use reference::burst::{PlainBurst, Refusal};

/// What check and fetch write into their info.
pub use proved_calls::burst::{CHECK_INFO_BYTES as CHECK_INFO, FETCH_INFO_BYTES as FETCH_INFO};

/// Places that are not below kept, though their low bits may be.
pub const WIDE_PLACES: [usize; 9] = [
    65_535,
    65_536,
    65_537,
    (1 << 32) - 1,
    1 << 32,
    (1 << 32) + 1,
    1 << 63,
    (1 << 63) + 1,
    usize::MAX,
];

/// Burst number, site mark, taken, kept, dropped, camera number.
pub fn check_info(checked: &Checked) -> Vec<u8> {
    let mut info = checked.burst_number.to_le_bytes().to_vec();
    info.extend(checked.site_mark);
    for count in [checked.taken, checked.kept, checked.dropped] {
        info.extend(u16::try_from(count).unwrap().to_le_bytes());
    }
    info.extend(checked.camera.to_le_bytes());
    info
}

/// Shot number, picture length, stamp.
pub fn fetch_info(fetched: &Fetched) -> Vec<u8> {
    let mut info = u16::try_from(fetched.shot).unwrap().to_le_bytes().to_vec();
    info.extend(u32::try_from(fetched.length).unwrap().to_le_bytes());
    info.extend(fetched.stamp);
    info
}

/// A refusal where there was none, if info is too short.
fn with_info<T>(done: Result<T, Refusal>, info_len: usize, needed: usize) -> Result<T, Refusal> {
    match done {
        Ok(_) if info_len < needed => Err(Refusal::unmarked(5)),
        done => done,
    }
}

/// burst_check is as the reference's check, 5 for info coming last. Gives the
/// number and the mark.
pub fn check_check(
    key: &[u8],
    file: &[u8],
    info_len: usize,
    what: &dyn Fn() -> String,
) -> (u32, u32) {
    let mut info = Lent::of(info_len);
    let what = || format!("check, key {}, info {info_len}, {}", key.len(), what());
    let given = crate::check(key, file, info.slice());
    match with_info(reader::check(key, file), info_len, CHECK_INFO) {
        Ok(checked) => {
            assert_eq!(given, (0, 0), "{}", what());
            info.check_written(&check_info(&checked), &|| format!("info, {}", what()));
        }
        Err(refusal) => {
            assert_eq!(given, (refusal.number, refusal.mark), "{}", what());
            info.check_untouched(&|| format!("info, {}", what()));
        }
    }
    given
}

/// burst_fetch is as the reference's fetch, with 5 for info too. Gives the
/// number and the mark.
pub fn check_fetch(
    key: &[u8],
    file: &[u8],
    place: usize,
    (out_len, info_len): (usize, usize),
    what: &dyn Fn() -> String,
) -> (u32, u32) {
    let (mut out, mut info) = (Lent::of(out_len), Lent::of(info_len));
    let what = |part: &str| {
        let (key, what) = (key.len(), what());
        format!("{part}, fetch {place}, key {key}, out {out_len}, info {info_len}, {what}")
    };
    let given = crate::fetch(key, file, place, out.slice(), info.slice());
    let fetched = reader::fetch(key, file, place as u64, out_len);
    match with_info(fetched, info_len, FETCH_INFO) {
        Ok(fetched) => {
            assert_eq!(given, (0, 0), "{}", what("number and mark"));
            out.check_written(&fetched.picture, &|| what("out"));
            info.check_written(&fetch_info(&fetched), &|| what("info"));
        }
        Err(refusal) => {
            let expected = (refusal.number, refusal.mark);
            assert_eq!(given, expected, "{}", what("number and mark"));
            out.check_untouched(&|| what("out"));
            info.check_untouched(&|| what("info"));
        }
    }
    given
}

/// burst_record is as the reference's record. Gives the number and the mark.
pub fn check_record(
    key: &[u8],
    file: &[u8],
    place: usize,
    what: &dyn Fn() -> String,
) -> (u32, u32) {
    let given = crate::record(key, file, place);
    let expected = reader::record(key, file, place as u64);
    let (key, what) = (key.len(), what());
    assert_eq!(given, expected, "record {place}, key {key}, {what}");
    (given.number, given.mark)
}

/// Check, fetch and record refuse the file with the reference's number and
/// mark, at every one of some places, and write nothing. Gives the number and
/// the mark.
pub fn check_refused(key: &[u8], file: &[u8], what: &dyn Fn() -> String) -> (u32, u32) {
    let refused = check_check(key, file, CHECK_INFO, what);
    assert_ne!(refused.0, 0, "accepted, {}", what());
    // Output and info long enough, and also too short: that comes later in
    // the order.
    for (place, lengths) in [
        (0, (300, FETCH_INFO)),
        (1, (300, FETCH_INFO + 1)),
        (0, (0, FETCH_INFO)),
        (2, (1, FETCH_INFO - 1)),
        (65_535, (300, 0)),
        (65_536, (300, FETCH_INFO)),
        (usize::MAX, (0, 0)),
    ] {
        let fetched = check_fetch(key, file, place, lengths, what);
        let recorded = check_record(key, file, place, what);
        assert_eq!([fetched, recorded], [refused; 2], "{place}, {}", what());
    }
    let short = check_check(key, file, CHECK_INFO - 1, what);
    assert_eq!(short, refused, "{}", what());
    refused
}

/// Some places that are not below kept are refused with 13.
fn check_no_such_place(key: &[u8], file: &[u8], kept: usize, what: &dyn Fn() -> String) {
    let near = [kept, kept + 1, 60, 255, 256, 256 + kept];
    for place in near.into_iter().chain(WIDE_PLACES) {
        let (mut out, mut info) = (Lent::of(40), Lent::of(FETCH_INFO));
        let what = || format!("place {place}, {}", what());
        let fetched = crate::fetch(key, file, place, out.slice(), info.slice());
        assert_eq!(fetched, (13, 0), "{}", what());
        out.check_untouched(&what);
        info.check_untouched(&what);
        let refused = RecordPart {
            number: 13,
            mark: 0,
            offset: 0,
            length: 0,
        };
        assert_eq!(crate::record(key, file, place), refused, "{}", what());
    }
}

/// What fetch gives at a place, its output being exactly as long as it must.
fn fetched(
    key: &[u8],
    file: &[u8],
    place: usize,
    length: usize,
    what: &dyn Fn() -> String,
) -> Fetched {
    let (mut out, mut info) = (Lent::of(length), Lent::of(FETCH_INFO));
    let given = crate::fetch(key, file, place, out.slice(), info.slice());
    assert_eq!(given, (0, 0), "{}", what());
    let picture = out.slice().to_vec();
    out.check_written(&picture, what);
    let written: [u8; FETCH_INFO] = info.slice().try_into().unwrap();
    info.check_written(&written, what);
    Fetched {
        picture,
        stamp: written[6..].try_into().unwrap(),
        shot: u16::from_le_bytes([written[0], written[1]]).into(),
        length: u32::from_le_bytes(written[2..6].try_into().unwrap()).into(),
    }
}

/// Puts a picture where its shot number says.
fn put_shot(shots: &mut [PlainShot], fetched: Fetched) -> Result<(), String> {
    let number = fetched.shot as usize;
    let shot = number.checked_sub(1).and_then(|at| shots.get_mut(at));
    let shot = shot.ok_or(format!("no shot has number {number}"))?;
    if shot.is_some() {
        return Err(format!("shot {number} twice"));
    }
    *shot = Some((fetched.stamp, fetched.picture));
    Ok(())
}

/// burst_check, and burst_fetch and burst_record at every place, give the list
/// back: the numbered pictures, and gaps for the shot numbers that no fetch
/// returns.
pub fn check_gives_back(burst: &PlainBurst, file: &[u8], what: &dyn Fn() -> String) {
    let mut info = Lent::of(CHECK_INFO);
    let given = crate::check(&burst.key, file, info.slice());
    assert_eq!(given, (0, 0), "{}", what());
    let checked = Checked {
        burst_number: burst.burst_number,
        camera: burst.camera,
        site_mark: burst.site_mark,
        taken: burst.taken() as u64,
        kept: burst.kept() as u64,
        dropped: burst.dropped() as u64,
    };
    info.check_written(&check_info(&checked), &|| format!("info, {}", what()));

    let mut shots = vec![None; burst.taken()];
    let mut offset = burst.edition.header_bytes;
    for (place, (_, picture)) in (0..).zip(burst.pictures()) {
        let what = || format!("place {place}, {}", what());
        let length = picture.len();
        let fetched = fetched(&burst.key, file, place, length, &what);
        assert_eq!(fetched.length, length as u64, "{}", what());
        let shot = put_shot(&mut shots, fetched);
        assert!(shot.is_ok(), "{shot:?}, {}", what());

        let part = RecordPart {
            number: 0,
            mark: 0,
            offset,
            length: length + 32,
        };
        assert_eq!(crate::record(&burst.key, file, place), part, "{}", what());
        offset += length + 32;
    }
    assert!(shots == burst.shots, "another list, {}", what());
    check_no_such_place(&burst.key, file, burst.kept(), what);
}

/// The reference's reader gives the list back.
pub fn check_reference_gives_back(burst: &PlainBurst, file: &[u8], what: &dyn Fn() -> String) {
    let checked = reader::check(&burst.key, file).unwrap_or_else(|refusal| {
        panic!("the reference refuses with {refusal:?}, {}", what());
    });
    assert_eq!(checked.burst_number, burst.burst_number, "{}", what());
    assert_eq!(checked.camera, burst.camera, "{}", what());
    assert_eq!(checked.site_mark, burst.site_mark, "{}", what());
    let counts = [checked.taken, checked.kept, checked.dropped].map(|count| count as usize);
    let expected = [burst.taken(), burst.kept(), burst.dropped()];
    assert_eq!(counts, expected, "{}", what());
    let mut shots = vec![None; burst.taken()];
    for place in 0..checked.kept {
        let fetched = reader::fetch(&burst.key, file, place, ROOM).unwrap();
        let shot = put_shot(&mut shots, fetched);
        assert!(shot.is_ok(), "{shot:?}, {}", what());
    }
    assert!(shots == burst.shots, "another list, {}", what());
}
