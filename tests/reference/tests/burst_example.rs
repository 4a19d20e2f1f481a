//! The example of the scope paper: burst 7 with drop, keep of 3 bytes, drop, in
//! edition 1 and as camera 5 records it in edition 2. Offsets and bytes are
//! worked out by hand, the seals by the bit-level version.

mod help;

use help::{buffer_of, record_call, with_camera, KEY, SITE_MARK};
use reference::burst::lister::list;
use reference::burst::plain::run;
use reference::burst::reader::{check, Checked};
use reference::burst::{Answer, Call, Edition, Recorder, EDITION_1, EDITION_2};
use reference::sealing::{bits, Variant};

const CAMERA: u32 = 5;

const STAMP: [u8; 16] = *b"stamp of shot 02";

/// What the file has in one edition, by hand.
struct Worked {
    edition: Edition,
    header: &'static str,
    /// Shot number 2, zero, record offset, picture length 3.
    entry: &'static str,
    /// What follows the shot number in the nonce.
    nonce_end: &'static str,
    /// Where records, index and closing seal start, and the total.
    offsets: [usize; 4],
    /// What check returns.
    camera: u32,
}

const WORKED: [Worked; 2] = [
    Worked {
        edition: EDITION_1,
        header: "0100 0300 0100 0200 0700000000000000 20000000 43000000 4F000000 6F000000",
        entry: "0200 0000 20000000 03000000",
        nonce_end: "000000000000",
        offsets: [32, 67, 79, 111],
        camera: 0,
    },
    Worked {
        edition: EDITION_2,
        header: "0200 0300 0100 0200 0700000000000000 28000000 4B000000 57000000 77000000 \
                 05000000 00000000",
        entry: "0200 0000 28000000 03000000",
        nonce_end: "05000000 0000",
        offsets: [40, 75, 87, 119],
        camera: CAMERA,
    },
];

fn from_hex(text: &str) -> Vec<u8> {
    let digits: Vec<char> = text.chars().filter(|c| *c != ' ').collect();
    let byte = |pair: &[char]| u8::from_str_radix(&String::from_iter(pair), 16).unwrap();
    digits.chunks(2).map(byte).collect()
}

fn example() -> Vec<Call> {
    let calls = vec![
        help::begin(7),
        Call::Drop,
        Call::Keep {
            stamp: STAMP.to_vec(),
            picture: b"pic".to_vec(),
        },
        Call::Drop,
        Call::Close,
    ];
    with_camera(calls, CAMERA)
}

impl Worked {
    fn total(&self) -> usize {
        self.offsets[3]
    }

    fn answers(&self) -> [Answer; 5] {
        [0, 1, 2, 3, self.total() as u64].map(Answer::accepted)
    }

    fn seal(&self, shot: &str, secret: &[u8], ad: &[u8], msg: &[u8]) -> Vec<u8> {
        let nonce = from_hex(&["0700000000000000", shot, self.nonce_end].concat());
        assert_eq!(nonce.len(), 16);
        bits::seal(Variant::Icepole128, &KEY, &nonce, secret, ad, msg)
    }

    fn file_by_hand(&self) -> Vec<u8> {
        let (header, entry) = (from_hex(self.header), from_hex(self.entry));
        let record = self.seal("0200", &STAMP, &entry, b"pic");
        let ad = [&header[..], &entry].concat();
        let closing = self.seal("0000", &SITE_MARK, &ad, b"");
        [header, record, entry, closing].concat()
    }
}

#[test]
fn parts_are_where_the_papers_say() {
    for worked in WORKED {
        let [records, index, closing, total] = worked.offsets;
        let file = run(worked.edition, &example(), total).file.unwrap();
        assert_eq!(file.len(), total);
        assert_eq!(file[..records], from_hex(worked.header));
        assert_eq!(file[index..closing], from_hex(worked.entry));
        let number = |at: usize| u32::from_le_bytes(file[at..at + 4].try_into().unwrap());
        assert_eq!(
            [16, 20, 24, 28].map(number),
            worked.offsets.map(|at| at as u32)
        );
    }
}

#[test]
fn plain_burst_makes_the_file() {
    for worked in WORKED {
        let outcome = run(worked.edition, &example(), worked.total());
        assert_eq!(outcome.answers, worked.answers());
        assert_eq!(outcome.file, Some(worked.file_by_hand()));
    }
}

/// The recorder writes edition 2.
#[test]
fn recorder_makes_the_file() {
    let worked = &WORKED[1];
    let mut buffer = buffer_of(130);
    let mut recorder = Recorder::REFUSED;
    let answers: Vec<Answer> = example()
        .iter()
        .map(|call| record_call(&mut recorder, call, &mut buffer))
        .collect();
    assert_eq!(answers, worked.answers());
    assert_eq!(buffer[..119], worked.file_by_hand());
    assert_eq!(buffer[119..], buffer_of(130)[119..]);
}

#[test]
fn reader_gives_it_back() {
    for worked in WORKED {
        let (outcome, file) = (
            run(worked.edition, &example(), worked.total()),
            worked.file_by_hand(),
        );
        help::assert_gives_back(&outcome.burst, &file);
        assert_eq!(outcome.burst.shots[1], Some((STAMP, b"pic".to_vec())));
        let checked = Checked {
            burst_number: 7,
            camera: worked.camera,
            site_mark: SITE_MARK,
            taken: 3,
            kept: 1,
            dropped: 2,
        };
        assert_eq!(check(&KEY, &file), Ok(checked));
    }
}

#[test]
fn lister_prints_the_text_of_the_paper() {
    for worked in WORKED {
        let expected = format!(
            "burst 7\ntaken 3 kept 1 dropped 2\nshot 2 at {} length 3\n",
            worked.offsets[0]
        );
        assert_eq!(list(&worked.file_by_hand()), expected);
    }
}

/// A list without an accepted close has no file.
#[test]
fn only_an_accepted_close_makes_a_file() {
    for worked in WORKED {
        let (edition, total) = (worked.edition, worked.total());
        let least = worked.offsets[0] + 32;
        assert_eq!(run(edition, &example()[..4], total).file, None);
        assert_eq!(run(edition, &example(), least - 1).file, None);
        // The keep is turned down, so the burst is empty.
        let short = run(edition, &example(), total - 1);
        let numbers: Vec<u32> = short.answers.iter().map(|answer| answer.number).collect();
        assert_eq!(numbers, [0, 0, 11, 0, 0]);
        assert_eq!(short.file.unwrap().len(), least);
    }
}
