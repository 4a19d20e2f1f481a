//! Files written by each side, read by the other.

use burst_calls::list::{burst_of, CAMERA, KEY, SITE_MARK};
use burst_calls::random_list::random_camera;
use burst_calls::reading::{
    check_check, check_fetch, check_gives_back, check_record, check_reference_gives_back,
    CHECK_INFO, FETCH_INFO,
};
use burst_calls::recording::Recording;
use burst_calls::script::script_of;
use proved_calls::icepole::icepole128;
use reference::burst::layout::{nonce, open_shot};
use reference::burst::lister::list;
use reference::burst::plain::PlainShot;
use reference::burst::{Call, Edition, Entry, PlainBurst, EDITIONS, EDITION_2};
use reference::random::SplitMix64;

/// Burst `n` has the seed plus `n`.
const BURSTS: u64 = 3_000;
const SEED: u64 = 0x4EAD_0000_0000;

/// Up to 12 shots, rarely up to 60; pictures of some hundred bytes, rarely of
/// some ten thousand.
fn random_burst(generator: &mut SplitMix64, edition: Edition) -> PlainBurst {
    let count = match generator.below(50) {
        0 => generator.below(61),
        _ => generator.below(13),
    };
    let mut shot = |_| -> PlainShot {
        let length = match generator.below(300) {
            0 => 1 + generator.below(30_000),
            1..60 => 120 + generator.below(20),
            _ => 1 + generator.below(300),
        };
        let stamp = generator.next_bytes(16).try_into().unwrap();
        (generator.below(4) > 0).then(|| (stamp, generator.next_bytes(length)))
    };
    let shots = (0..count).map(&mut shot).collect();
    let camera = random_camera(generator);
    PlainBurst {
        edition,
        key: generator.next_bytes(16).try_into().unwrap(),
        burst_number: generator.next_word() >> generator.below(64),
        camera: if edition.has_camera { camera } else { 0 },
        site_mark: generator.next_bytes(16).try_into().unwrap(),
        shots,
        closed: true,
    }
}

/// The calls after begin that lead to a burst.
fn calls_of(burst: &PlainBurst) -> Vec<Call> {
    let call = |shot: &PlainShot| match shot {
        Some((stamp, picture)) => Call::Keep {
            stamp: stamp.to_vec(),
            picture: picture.clone(),
        },
        None => Call::Drop,
    };
    let mut calls: Vec<Call> = burst.shots.iter().map(call).collect();
    calls.push(Call::Close);
    calls
}

/// Bursts of these editions, in turn.
fn for_each_burst(
    editions: &[Edition],
    mut test: impl FnMut(&PlainBurst, &mut SplitMix64, &dyn Fn() -> String),
) {
    for (number, edition) in (0..BURSTS).zip(editions.iter().cycle()) {
        let seed = SEED + number;
        let mut generator = SplitMix64::new(seed);
        let burst = random_burst(&mut generator, *edition);
        let what = || format!("burst {number}, seed {seed:#x}");
        test(&burst, &mut generator, &what);
    }
}

/// The reference writes, the calls read.
#[test]
fn files_of_the_reference() {
    for_each_burst(&EDITIONS, |burst, generator, what| {
        let file = burst.file();
        check_gives_back(burst, &file, what);
        // Output and info may be longer; their later bytes stay.
        let spare = 1 + generator.below(200);
        check_check(&burst.key, &file, CHECK_INFO + spare, what);
        for (place, (_, picture)) in (0..).zip(burst.pictures()).take(3) {
            let lengths = (picture.len() + spare, FETCH_INFO + spare);
            check_fetch(&burst.key, &file, place, lengths, what);
            check_record(&burst.key, &file, place, what);
        }
    });
}

/// The calls write, the reference reads.
#[test]
fn files_of_the_calls() {
    for_each_burst(&[EDITION_2], |burst, generator, what| {
        let script = script_of(&calls_of(burst));
        let answers = vec![0; 8 * (burst.taken() + 2)];
        let spare = generator.below(100);
        let recording = Recording {
            key: burst.key.to_vec(),
            burst_number: burst.burst_number,
            camera: burst.camera,
            site_mark: burst.site_mark.to_vec(),
            script,
            buffer: generator.next_bytes(burst.total() + spare),
            answers,
        };
        let performed = recording.check(what);
        let file = performed.file().unwrap();
        check_reference_gives_back(burst, file, what);
        let lines = list(file);
        let first = format!("burst {}\n", burst.burst_number);
        assert!(file.len() > 65_536 || lines.starts_with(&first));
    });
}

/// What burst_record names opens by itself, with its index entry.
#[test]
fn sealed_records_open_alone() {
    for edition in EDITIONS {
        let burst = burst_of(edition, 60, &[0, 3, 130, 0, 1, 128]);
        let file = burst.file();
        let index = file.len() - 32 - 12 * 4;
        for (place, shot) in [(0, 2), (1, 3), (2, 5), (3, 6)] {
            let part = burst_calls::record(&KEY, &file, place);
            assert_eq!((part.number, part.mark), (0, 0));
            let sealed = &file[part.offset..part.offset + part.length];
            let entry = &file[index + 12 * place..];
            assert_eq!(Entry::from_bytes(entry).shot, shot);
            let ad: [&[u8]; 2] = [&entry[..12], &[]];
            let (picture, stamp) = open_shot(&KEY, 60, shot, burst.camera, ad, sealed).unwrap();
            let expected = burst.shots[usize::from(shot) - 1].clone();
            assert_eq!(Some((stamp, picture)), expected);
        }
    }
}

/// It also opens in place, within the file, whose other bytes stay. The file is
/// then not what was recorded.
#[test]
fn sealed_records_open_in_place() {
    let burst = burst_of(EDITION_2, 63, &[0, 3, 130, 0, 1, 128]);
    let mut file = burst.file();
    let parts = [0, 1, 2, 3].map(|place| burst_calls::record(&KEY, &file, place));
    let index = file[file.len() - 32 - 12 * 4..].to_vec();
    let mut expected = file.clone();
    for (part, entry) in parts.iter().zip(index.chunks_exact(12)) {
        let shot = Entry::from_bytes(entry).shot;
        let (stamp, picture) = burst.shots[usize::from(shot) - 1].clone().unwrap();
        let record = &mut file[part.offset..part.offset + part.length];
        let (nonce, mut info) = (nonce(63, shot, CAMERA), [0; 24]);
        let number = icepole128::open_in_place(&KEY, &nonce, entry, &[], record, &mut info);
        assert_eq!(number, 0, "shot {shot}");
        assert_eq!(info[..8], (picture.len() as u64).to_le_bytes());
        assert_eq!(info[8..], stamp);
        expected[part.offset..part.offset + picture.len()].copy_from_slice(&picture);
        assert!(file == expected, "shot {shot}");
        let refused = burst_calls::check(&KEY, &file, &mut [0; CHECK_INFO]);
        assert_eq!(refused, (7, 2), "shot {shot}");
    }
}

/// Bytes at an address that is `shift` above the start of a vector.
fn shifted(bytes: &[u8], shift: usize) -> Vec<u8> {
    [&vec![0xEE; shift], bytes].concat()
}

/// What is lent to be read may stand at any address.
#[test]
fn slices_at_any_address() {
    let burst = burst_of(EDITION_2, 62, &[0, 3, 130]);
    let script = script_of(&calls_of(&burst));
    for shift in 0..16 {
        let [key, site_mark, script, file] =
            [&KEY[..], &SITE_MARK, &script, &burst.file()].map(|bytes| shifted(bytes, shift));
        let (key, file) = (&key[shift..], &file[shift..]);
        let (mut buffer, mut answers) = (vec![1; file.len()], [1; 40]);
        let (site_mark, script) = (&site_mark[shift..], &script[shift..]);
        let given = burst_calls::replay(
            key,
            62,
            CAMERA,
            site_mark,
            script,
            &mut buffer,
            &mut answers,
        );
        assert_eq!(given, (5, 1), "shift {shift}");
        assert!(buffer == file, "shift {shift}");
        let what = || format!("shift {shift}");
        check_check(key, file, CHECK_INFO, &what);
        for place in 0..3 {
            check_fetch(key, file, place, (130, FETCH_INFO), &what);
            check_record(key, file, place, &what);
        }
    }
}

/// Two files that differ in the site mark alone give back each its own.
#[test]
fn site_marks() {
    for edition in EDITIONS {
        let burst = burst_of(edition, 61, &[4]);
        for changed in 0..16 {
            let mut other = burst.clone();
            other.site_mark[changed] ^= 0x80;
            assert_ne!(other.site_mark, SITE_MARK);
            check_gives_back(&other, &other.file(), &|| format!("byte {changed}"));
        }
    }
}
