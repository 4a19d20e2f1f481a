//! One random front that may break rules, in a file whose seals are right: only
//! the front rules can refuse it.

use crate::draft::{draft, Draft};
use crate::list::KEY;
use crate::listing::{check_list, LIST_BYTES};
use crate::random_list::{camera_or_0, one_of};
use crate::random_read::edition_read;
use crate::reading::{check_check, check_fetch, check_record, CHECK_INFO, FETCH_INFO};
use reference::burst::EDITIONS;
use reference::random::SplitMix64;

/// A few shots, some kept, in either edition. The camera number is rarely 0.
fn random_draft(generator: &mut SplitMix64) -> Draft {
    let edition = one_of(generator, &EDITIONS);
    let taken = generator.below(6) as u16;
    let mut kept = Vec::new();
    for shot in 1..=taken {
        if generator.below(3) > 0 {
            kept.push((shot, 1 + generator.below(20) as u32));
        }
    }
    let mut draft = draft(edition, taken, &kept);
    if edition.has_camera {
        draft.header.camera = camera_or_0(generator, 20);
    }
    draft
}

/// A step to another number, near it or to where some bits are cut.
fn step(generator: &mut SplitMix64) -> u32 {
    let near = [1, 2, 8, 12, 32, 44, 1 << 8, 1 << 16, 1 << 24, 1 << 31];
    let step = one_of(generator, &near);
    match generator.below(2) {
        0 => step,
        _ => 0u32.wrapping_sub(step),
    }
}

/// Changes one field of the header, or of an entry.
fn change(generator: &mut SplitMix64, draft: &mut Draft) {
    let by = step(generator);
    let add_2 = |field: &mut u16| *field = field.wrapping_add(by as u16);
    let add_4 = |field: &mut u32| *field = field.wrapping_add(by);
    let header = &mut draft.header;
    let fields = if header.edition.has_camera { 13 } else { 12 };
    match generator.below(fields) {
        0 => add_2(&mut header.edition.number),
        1 => add_2(&mut header.taken),
        2 => add_2(&mut header.kept),
        3 => add_2(&mut header.dropped),
        4 => add_4(&mut header.picture_offset),
        5 => add_4(&mut header.index_offset),
        6 => add_4(&mut header.closing_offset),
        7 => add_4(&mut header.total),
        12 => add_4(&mut header.zeros),
        field => {
            let count = draft.entries.len();
            if count > 0 {
                let entry = &mut draft.entries[generator.below(count)];
                match field {
                    8 => add_2(&mut entry.shot),
                    9 => add_2(&mut entry.zero),
                    10 => add_4(&mut entry.offset),
                    _ => add_4(&mut entry.length),
                }
            }
        }
    }
}

/// A few shots, with up to three fields changed.
pub fn random_front(generator: &mut SplitMix64) -> Draft {
    let mut draft = random_draft(generator);
    for _ in 0..generator.below(4) {
        change(generator, &mut draft);
    }
    draft
}

/// Check, fetch, record and list of the file do what the reference does. Gives
/// their numbers, and the edition that was read.
pub fn front_call(generator: &mut SplitMix64, what: &dyn Fn() -> String) -> [u32; 5] {
    let draft = random_front(generator);
    let file = draft.file();
    let place = generator.below(7);
    let lengths = (generator.below(40), FETCH_INFO);
    let what = || format!("{}, front {:?} {:?}", what(), draft.header, draft.entries);
    let checked = check_check(&KEY, &file, CHECK_INFO, &what);
    let fetched = check_fetch(&KEY, &file, place, lengths, &what);
    let recorded = check_record(&KEY, &file, place, &what);
    let listed = check_list(&file, LIST_BYTES, &what);
    let edition = edition_read(checked.0, &file);
    [checked.0, fetched.0, recorded.0, listed, edition]
}
