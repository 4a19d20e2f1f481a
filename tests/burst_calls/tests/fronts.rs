//! The front rules ("The burst file", and request N1 for edition 2), each broken
//! alone, in each edition, in a file whose seals are right: a reader without
//! that rule would not answer 12. And headers whose sums agree only in 16 or in
//! 32 bits.

use burst_calls::draft::{base, changed, draft, Draft};
use burst_calls::list::{CAMERAS, KEY};
use burst_calls::listing::{check_list, LIST_BYTES};
use burst_calls::reading::{check_check, check_fetch, check_record, check_refused, CHECK_INFO};
use reference::burst::reader::{front, Front};
use reference::burst::{Edition, Entry, Header, EDITIONS, EDITION_1, EDITION_2};
use reference::random::SplitMix64;

/// The calls and the reference refuse with 12, and so do their listers.
fn assert_12(file: &[u8], what: &str) {
    let refused = check_refused(&KEY, file, &|| what.into());
    assert_eq!(refused, (12, 0), "{what}");
    assert_eq!(front(file), Err(12), "{what}");
    if file.len() <= 65_536 {
        let listed = check_list(file, LIST_BYTES, &|| what.into());
        assert_eq!(listed, 12, "{what}");
    }
}

/// A test in each edition, with the offset where its records start.
fn in_each(test: impl Fn(Edition, u32)) {
    for (edition, start) in [(EDITION_1, 32), (EDITION_2, 40)] {
        test(edition, start);
    }
}

#[test]
fn drafts_that_keep_the_rules_are_accepted() {
    let sixty: Vec<(u16, u32)> = (1..=60).map(|shot| (shot, 1)).collect();
    let mut right: Vec<Draft> = CAMERAS.map(of_camera).into();
    for edition in EDITIONS {
        right.extend([
            base(edition),
            draft(edition, 0, &[]),
            draft(edition, 60, &[]),
            draft(edition, 60, &[(60, 1)]),
            draft(edition, 2, &[(1, 1_048_576), (2, 1)]),
            draft(edition, 60, &sixty),
            long(edition),
        ]);
    }
    for right in right {
        let file = right.file();
        let what = || format!("{:?}", right.header);
        assert_eq!(check_check(&KEY, &file, CHECK_INFO, &what), (0, 0));
        for (place, entry) in right.entries.iter().enumerate() {
            let length = entry.length as usize;
            let fetched = check_fetch(&KEY, &file, place, (length, 22), &what);
            let recorded = check_record(&KEY, &file, place, &what);
            assert_eq!([fetched, recorded], [(0, 0); 2]);
        }
        let (header, entries) = (right.header, right.entries);
        assert_eq!(front(&file), Ok(Front { header, entries }));
    }
}

/// The base of edition 2 by this camera.
fn of_camera(camera: u32) -> Draft {
    changed(EDITION_2, |draft| draft.header.camera = camera)
}

// Shorter files cannot keep the other rules; these do not get that far. Each is
// lent as a slice of its own.
#[test]
fn file_below_the_shortest() {
    in_each(|edition, start| {
        let file = draft(edition, 0, &[]).file();
        assert_eq!(file.len(), start as usize + 32);
        for length in 0..file.len() {
            assert_12(&file[..length], "cut");
            let mut named = file[..length].to_vec().into_boxed_slice();
            assert_12(&named, "cut, a slice of its own");
            if length >= 32 {
                named[28] = length as u8;
                assert_12(&named, "total is the length");
                named[24] = length as u8 - 32;
                assert_12(&named, "and the closing offset fits");
                named[20] = length as u8 - 32;
                assert_12(&named, "and the index offset");
                named[16] = length as u8 - 32;
                assert_12(&named, "and the picture offset");
            }
        }
    });
}

/// Files of 64 to 71 bytes, as edition 1 may have, that call themselves
/// edition 2. The first is an empty burst of edition 1 but for that.
#[test]
fn file_of_64_to_71_bytes_called_edition_2() {
    for length in 64..72 {
        for start in [32, 40] {
            let mut file = draft(EDITION_1, 0, &[]).file();
            file.resize(length, 0);
            (file[0], file[28]) = (2, length as u8);
            for at in [16, 20, 24] {
                file[at] = start;
            }
            let mut file = file.into_boxed_slice();
            assert_12(&file, &format!("{length} bytes from {start}"));
            file[24] = length as u8 - 32;
            assert_12(&file, &format!("{length} bytes from {start}, closed"));
            file[32..40].copy_from_slice(&[5, 0, 0, 0, 0, 0, 0, 0]);
            assert_12(&file, &format!("{length} bytes from {start}, camera 5"));
        }
    }
}

/// A number that no edition has, or the other's.
#[test]
fn edition() {
    in_each(|edition, _| {
        for number in [0, 1, 2, 3, 4, 256, 257, 258, 512, 513, 0xFFFF] {
            if number != edition.number {
                let draft = changed(edition, |draft| draft.header.edition.number = number);
                let what = format!("edition {} called {number}", edition.number);
                assert_12(&draft.file(), &what);
            }
        }
    });
}

#[test]
fn picture_offset() {
    in_each(|edition, start| {
        let near = [0, 31, 33, 39, 41, 72 - start];
        let cut = [start + 256, start + 65_536, start << 24];
        for offset in near.into_iter().chain(cut) {
            let draft = changed(edition, |draft| draft.header.picture_offset = offset);
            assert_12(&draft.file(), "picture offset");
        }
    });
}

/// The nonces are those of edition 1.
#[test]
fn camera_number_0() {
    assert_12(&of_camera(0).file(), "camera number 0");
    let mut empty = draft(EDITION_2, 0, &[]);
    empty.header.camera = 0;
    assert_12(&empty.file(), "camera number 0, nothing kept");
}

/// Each of the four bytes behind the camera number.
#[test]
fn zeros_of_the_header() {
    for bit in 0..32 {
        let draft = changed(EDITION_2, |draft| draft.header.zeros = 1 << bit);
        assert_12(&draft.file(), &format!("bit {bit} of the zeros"));
    }
    for byte in [0xFF, 0xFF00, 0xFF_0000, 0xFF00_0000, u32::MAX] {
        let draft = changed(EDITION_2, |draft| draft.header.zeros = byte);
        assert_12(&draft.file(), &format!("zeros {byte:#x}"));
    }
}

#[test]
fn taken_above_60() {
    in_each(|edition, _| {
        for taken in [61, 62, 256, 256 + 3, 65_535] {
            let kept = draft(edition, taken, &[(1, 5), (3, 7)]);
            assert_12(&kept.file(), "taken");
            let dropped = draft(edition, taken, &[]);
            assert_12(&dropped.file(), "taken, nothing kept");
        }
        for most in [61, 62, 120] {
            let kept: Vec<(u16, u32)> = (1..=most).map(|shot| (shot, 1)).collect();
            assert_12(&draft(edition, most, &kept).file(), "all kept");
        }
    });
}

#[test]
fn taken_is_kept_and_dropped() {
    in_each(|edition, _| {
        for dropped in [0, 2, 257, 0xFFFF] {
            let draft = changed(edition, |draft| draft.header.dropped = dropped);
            assert_12(&draft.file(), "dropped");
        }
        for taken in [4, 60] {
            let draft = changed(edition, |draft| draft.header.taken = taken);
            assert_12(&draft.file(), "taken");
        }
    });
}

#[test]
fn shot_numbers() {
    in_each(|edition, _| {
        for (first, second) in [
            (0, 1),
            (0, 0),
            (1, 0),
            (1, 1),
            (3, 3),
            (2, 1),
            (3, 1),
            (1, 4),
            (4, 5),
            (1, 0x0103),
            (0xFFFF, 1),
        ] {
            let wrong = draft(edition, 3, &[(first, 5), (second, 7)]);
            assert_12(&wrong.file(), &format!("shots {first} and {second}"));
        }
        let above = draft(edition, 2, &[(3, 1)]);
        assert_12(&above.file(), "a lone shot above taken");
        let zero = draft(edition, 2, &[(0, 1)]);
        assert_12(&zero.file(), "a lone shot 0");
        let back = draft(edition, 5, &[(1, 1), (4, 1), (3, 1)]);
        assert_12(&back.file(), "back by one");
    });
}

#[test]
fn zeros() {
    in_each(|edition, _| {
        for place in 0..2 {
            for zero in [1, 0x0100, 0x8000, 0xFFFF] {
                let draft = changed(edition, |draft| draft.entries[place].zero = zero);
                assert_12(&draft.file(), "zeros");
            }
        }
    });
}

#[test]
fn picture_lengths() {
    in_each(|edition, _| {
        for length in [0, 1_048_577] {
            let first = draft(edition, 3, &[(1, length), (3, 7)]);
            assert_12(&first.file(), "first length");
            let last = draft(edition, 3, &[(1, 5), (3, length)]);
            assert_12(&last.file(), "last length");
            let lone = draft(edition, 1, &[(1, length)]);
            assert_12(&lone.file(), "lone length");
        }
    });
}

/// From 32, or in edition 2 from 40.
#[test]
fn records_touch_from_the_header() {
    in_each(|edition, start| {
        for wrong in [start + 1, start + 8, start + 12, start + 256] {
            let moved = changed(edition, |draft| draft.lay_out(wrong));
            assert_12(&moved.file(), "start");
        }
        for gap in [1, 8, 12, 256, 65_536] {
            let between = changed(edition, |draft| {
                let end = draft.header.index_offset;
                draft.entries[1].offset += gap;
                draft.lay_out_index(end + gap);
            });
            assert_12(&between.file(), "a gap between");
            let last = changed(edition, |draft| {
                draft.lay_out_index(draft.header.index_offset + gap);
            });
            assert_12(&last.file(), "a gap before the index");
            let mut empty = draft(edition, 4, &[]);
            empty.lay_out_index(start + gap);
            assert_12(&empty.file(), "a gap and no records");
        }
    });
}

#[test]
fn records_do_not_overlap() {
    in_each(|edition, start| {
        let between = changed(edition, |draft| {
            draft.entries[1].offset -= 1;
            draft.lay_out_index(draft.header.index_offset - 1);
        });
        assert_12(&between.file(), "records overlap");
        let alone = changed(edition, |draft| draft.entries[1].offset -= 1);
        assert_12(&alone.file(), "only the offset");
        let index = changed(edition, |draft| {
            draft.lay_out_index(draft.header.index_offset - 1);
        });
        assert_12(&index.file(), "the index overlaps");
        for less in [1, 8] {
            let header = changed(edition, |draft| draft.lay_out(start - less));
            assert_12(&header.file(), "the header overlaps");
        }
        // Two entries share one record.
        let same = changed(edition, |draft| {
            draft.entries[1] = draft.entries[0];
            draft.entries[1].shot = 3;
            draft.lay_out_index(start + 37);
        });
        assert_12(&same.file(), "one record twice");
    });
}

#[test]
fn closing_offset_follows_the_index() {
    in_each(|edition, _| {
        for gap in [1, 8, 12, 256, 65_536] {
            let later = changed(edition, |draft| {
                draft.lay_out_closing(draft.header.closing_offset + gap);
            });
            assert_12(&later.file(), "a gap before the closing seal");
        }
        let earlier = changed(edition, |draft| {
            draft.lay_out_closing(draft.header.closing_offset - 12);
        });
        assert_12(&earlier.file(), "an entry too few");
        // The index as long as taken says, a slip we have seen.
        let mut by_taken = draft(edition, 3, &[(2, 3)]);
        by_taken.lay_out_closing(by_taken.header.index_offset + 36);
        assert_12(&by_taken.file(), "taken used as the index length");
    });
}

#[test]
fn total_is_the_end_and_the_length() {
    in_each(|edition, _| {
        for more in [1, 8, 12, 256, 65_536] {
            let longer = changed(edition, |draft| {
                draft.header.total += more;
                draft.length += more as usize;
            });
            assert_12(&longer.file(), "bytes after the closing seal");
            let unsaid = changed(edition, |draft| draft.length += more as usize);
            assert_12(&unsaid.file(), "bytes that the total leaves out");
            let promised = changed(edition, |draft| draft.header.total += more);
            assert_12(&promised.file(), "total above the length");
        }
        let total = changed(edition, |draft| draft.header.total -= 1);
        assert_12(&total.file(), "total below the length");
    });
}

/// The file with one bit of its front changed, and every seal made anew for it.
fn sealed_anew(right: &Draft, at: usize, bit: u8) -> Vec<u8> {
    let mut front = right.unsealed();
    front[at] ^= 1 << bit;
    let index = front[right.index_at..right.closing_at].chunks(12);
    let other = Draft {
        header: Header::from_bytes(right.header.edition, &front),
        entries: index.map(Entry::from_bytes).collect(),
        ..right.clone()
    };
    let sealed = other.file();
    assert_eq!(sealed[at], front[at]);
    sealed
}

/// Every bit of header and index, changed before the seals are made: all but
/// burst number, camera number and a few shot numbers break a rule.
#[test]
fn every_bit_sealed_anew() {
    in_each(|edition, start| {
        let right = draft(edition, 7, &[(2, 5), (4, 7), (5, 1)]);
        let mut accepted = Vec::new();
        for at in (0..start as usize).chain(right.index_at..right.closing_at) {
            for bit in 0..8 {
                let sealed = sealed_anew(&right, at, bit);
                let what = || format!("byte {at} bit {bit}, {edition:?}");
                let checked = check_check(&KEY, &sealed, CHECK_INFO, &what);
                let fetched = check_fetch(&KEY, &sealed, 1, (7, 22), &what);
                let recorded = check_record(&KEY, &sealed, 1, &what);
                assert_eq!([fetched, recorded], [checked; 2], "{}", what());
                let is_free = (8..16).contains(&at) || (32..36).contains(&at);
                assert!(!is_free || checked == (0, 0), "{}", what());
                match checked {
                    (0, 0) if is_free => {}
                    (0, 0) => accepted.push((at - right.index_at, 1 << bit)),
                    refused => assert_eq!(refused, (12, 0), "{}", what()),
                }
            }
        }
        // Shot 2 becomes 3; shot 5 becomes 7.
        assert_eq!(accepted, [(0, 1), (24, 2)]);
    });
}

/// More than 65,536 bytes: shot 1 of 70,000 bytes, shot 2 of 3, shot 3 of 9.
fn long(edition: Edition) -> Draft {
    draft(edition, 3, &[(1, 70_000), (2, 3), (3, 9)])
}

/// Offsets that are right in 16 bits, with every part where it would be.
#[test]
fn offsets_do_not_wrap_in_16_bits() {
    type Change = fn(&mut Draft, u32);
    let changes: [(&str, Change); 7] = [
        ("index offset", |draft, by| {
            draft.header.index_offset = draft.header.index_offset.wrapping_add(by);
        }),
        ("closing offset", |draft, by| {
            draft.header.closing_offset = draft.header.closing_offset.wrapping_add(by);
        }),
        ("total", |draft, by| {
            draft.header.total = draft.header.total.wrapping_add(by);
        }),
        ("all three", |draft, by| {
            let header = &mut draft.header;
            for offset in [
                &mut header.index_offset,
                &mut header.closing_offset,
                &mut header.total,
            ] {
                *offset = offset.wrapping_add(by);
            }
        }),
        ("first record", |draft, by| {
            draft.entries[0].offset = draft.entries[0].offset.wrapping_add(by);
        }),
        ("second record", |draft, by| {
            draft.entries[1].offset = draft.entries[1].offset.wrapping_add(by);
        }),
        ("last record", |draft, by| {
            draft.entries[2].offset = draft.entries[2].offset.wrapping_add(by);
        }),
    ];
    in_each(|edition, _| {
        for (name, change) in changes {
            for by in [65_536, 1 << 24, 1 << 31, 65_536u32.wrapping_neg()] {
                let mut wrong = long(edition);
                change(&mut wrong, by);
                assert_12(&wrong.file(), &format!("{name} by {by}"));
            }
        }
        // Bytes after the file, as many as 16 bits do not see.
        let mut longer = long(edition);
        longer.length += 65_536;
        assert_12(&longer.file(), "65,536 bytes more");
    });
}

/// The file of a header and bytes after it; the seals cannot be right.
fn with_header(header: Header, rest: &[u8]) -> Vec<u8> {
    [&header.to_bytes()[..], rest].concat()
}

// Kept + dropped is taken in 16 bits. Kept is then above taken, so shot numbers
// cannot rise within 1 to taken either; but a reader must get that far. With
// 5,462 kept pictures the index length wraps in 16 bits too.
#[test]
fn counts_do_not_wrap() {
    in_each(|edition, start| {
        for (taken, kept, dropped) in [
            (60, 61, 65_535),
            (0, 1, 65_535),
            (3, 32_768, 32_771),
            (60, 5_462, 60_134),
            (60, 65_535, 61),
            (0, 65_535, 1),
        ] {
            assert_eq!(u16::wrapping_add(kept, dropped), taken);
            for index in [vec![0; 12 * kept as usize], rising(kept)] {
                let closing_offset = start + index.len() as u32;
                let header = Header {
                    taken,
                    kept,
                    dropped,
                    index_offset: start,
                    closing_offset,
                    total: closing_offset + 32,
                    ..base(edition).header
                };
                let file = with_header(header, &[index, vec![0; 32]].concat());
                assert_12(&file, &format!("{taken} {kept} {dropped}"));
                // The index length in 16 bits.
                let index_bytes = (12 * u32::from(kept)) % 65_536;
                let header = Header {
                    closing_offset: start + index_bytes,
                    total: start + index_bytes + 32,
                    ..header
                };
                let file = with_header(header, &vec![0; index_bytes as usize + 32]);
                assert_12(&file, &format!("{taken} {kept} {dropped}, short"));
            }
        }
    });
}

/// Entries whose shot numbers rise, with nothing else in them.
fn rising(kept: u16) -> Vec<u8> {
    let entry = |shot| Entry {
        shot,
        ..Entry::ZERO
    };
    (1..=kept).flat_map(|shot| entry(shot).to_bytes()).collect()
}

// Index offset + 12 kept is the closing offset in 32 bits.
#[test]
fn index_does_not_wrap() {
    in_each(|edition, start| {
        for (kept, index) in [(4, 0), (8, 0), (60, 0), (60, 668), (59, 667)] {
            let closing_offset = start + index;
            let index_offset = u32::wrapping_sub(closing_offset, 12 * u32::from(kept));
            assert!(index_offset > u32::MAX - 720);
            let header = Header {
                taken: kept,
                kept,
                dropped: 0,
                index_offset,
                closing_offset,
                total: closing_offset + 32,
                ..base(edition).header
            };
            let rest = vec![0; index as usize + 32];
            assert_12(&with_header(header, &rest), &format!("{kept} kept"));
        }
    });
}

// Closing offset + 32 is the total in 32 bits. The total is then below 64, so
// it cannot be the file's length; but a reader must get that far.
#[test]
fn closing_does_not_wrap() {
    in_each(|edition, start| {
        for total in [0, 1, 31] {
            let closing_offset = u32::wrapping_sub(total, 32);
            let header = Header {
                taken: 0,
                kept: 0,
                dropped: 0,
                index_offset: closing_offset,
                closing_offset,
                total,
                ..base(edition).header
            };
            assert_12(&with_header(header, &[0; 32]), "32 bits");
            assert_12(&header.to_bytes()[..total as usize], "as long as its total");
            let header = Header {
                total: start + 32,
                ..header
            };
            assert_12(&with_header(header, &[0; 32]), "the total is the length");
        }
    });
}

// Offset + length + 32 is the index offset, or the next offset, in 32 bits.
// The lengths are then out of range too.
#[test]
fn records_do_not_wrap() {
    in_each(|edition, start| {
        // All else is as it would be if the sum were right.
        let mut lone = draft(edition, 1, &[(1, 5)]);
        lone.lay_out_index(start + 8);
        lone.entries[0].length = 8u32.wrapping_sub(32);
        assert_12(&lone.file(), "the end is the index offset");

        let mut two = draft(edition, 2, &[(1, 5), (2, 5)]);
        two.lay_out_index(start + 12 + 5 + 32);
        two.entries[0].length = 12u32.wrapping_sub(32);
        two.entries[1].offset = start + 12;
        assert_12(&two.file(), "the end is the next offset");

        // An offset far away, from which length + 32 comes back.
        let mut far = draft(edition, 2, &[(1, 5), (2, 5)]);
        far.entries[1].offset = far.header.index_offset.wrapping_sub(1_048_576 + 32);
        far.entries[1].length = 1_048_576;
        assert_12(&far.file(), "the offset in 32 bits");
    });
}

/// Headers and indexes with random changes, against the reference.
#[test]
fn random_changes() {
    const SEED: u64 = 0xF207_0000_0000;
    let rounds = |edition: Edition, start: u32| {
        let right = base(edition);
        let file = right.file();
        let header = (0..8).chain(16..start as usize);
        let changeable: Vec<usize> = header.chain(right.index_at..right.closing_at).collect();
        for number in 0..10_000 {
            let mut generator = SplitMix64::new(SEED + number);
            let mut wrong = file.clone();
            for _ in 0..=generator.below(4) {
                let at = changeable[generator.below(changeable.len())];
                wrong[at] = generator.next_word() as u8 >> generator.below(8);
            }
            let what = || format!("change {number}, seed {:#x}, {edition:?}", SEED + number);
            let place = generator.below(3);
            let (checked, _) = check_check(&KEY, &wrong, CHECK_INFO, &what);
            check_fetch(&KEY, &wrong, place, (7, 22), &what);
            check_record(&KEY, &wrong, place, &what);
            assert_eq!(checked == 0, wrong == file, "{}", what());
        }
    };
    in_each(rounds);
}
