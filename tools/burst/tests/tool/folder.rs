//! A temporary folder to run the tool in, and what the tests share.

use std::fs;
use std::io::{pipe, PipeWriter, Write};
use std::os::unix::fs::PermissionsExt;
use std::path::{Path, PathBuf};
use std::process::{Child, Command, Output, Stdio};
use std::sync::atomic::{AtomicU32, Ordering};

const FILE_1: [u8; 111] = [
    0x01, 0x00, 0x03, 0x00, 0x01, 0x00, 0x02, 0x00, 0x07, 0x00, 0x00, 0x00, 0x00, 0x00, 0x00, 0x00,
    0x20, 0x00, 0x00, 0x00, 0x43, 0x00, 0x00, 0x00, 0x4F, 0x00, 0x00, 0x00, 0x6F, 0x00, 0x00, 0x00,
    0x18, 0x6C, 0xF0, 0x42, 0x60, 0x54, 0xF5, 0xC6, 0x98, 0x45, 0xF6, 0xB7, 0x80, 0x23, 0x5C, 0x80,
    0xA3, 0x9E, 0xAC, 0xB5, 0x1F, 0xBD, 0x29, 0x40, 0x01, 0x7A, 0x6F, 0x9E, 0x8D, 0xB1, 0x07, 0x7F,
    0x03, 0xDF, 0xBF, 0x02, 0x00, 0x00, 0x00, 0x20, 0x00, 0x00, 0x00, 0x03, 0x00, 0x00, 0x00, 0x61,
    0xDF, 0x81, 0x2D, 0xBB, 0x3B, 0x45, 0x94, 0xFC, 0x85, 0x93, 0x61, 0x11, 0x9E, 0x07, 0xC7, 0x1F,
    0xDC, 0x3F, 0x75, 0xE3, 0x14, 0xD0, 0x68, 0xBB, 0x8F, 0xA9, 0x0A, 0x2F, 0xBC, 0x19, 0x43,
];

const FILE_2: [u8; 119] = [
    0x02, 0x00, 0x03, 0x00, 0x01, 0x00, 0x02, 0x00, 0x07, 0x00, 0x00, 0x00, 0x00, 0x00, 0x00, 0x00,
    0x28, 0x00, 0x00, 0x00, 0x4B, 0x00, 0x00, 0x00, 0x57, 0x00, 0x00, 0x00, 0x77, 0x00, 0x00, 0x00,
    0x03, 0x00, 0x00, 0x00, 0x00, 0x00, 0x00, 0x00, 0x01, 0xBC, 0xE4, 0xC5, 0x07, 0xAB, 0x62, 0xFD,
    0x45, 0xD3, 0x9C, 0x0F, 0xEB, 0x1B, 0xBC, 0xFE, 0x40, 0x0B, 0xBE, 0xD8, 0x76, 0xE5, 0xA3, 0x7F,
    0xCC, 0xFF, 0x87, 0x3D, 0x54, 0x38, 0xC9, 0x88, 0x3F, 0x81, 0x4B, 0x02, 0x00, 0x00, 0x00, 0x28,
    0x00, 0x00, 0x00, 0x03, 0x00, 0x00, 0x00, 0x58, 0xC9, 0x53, 0x0B, 0x2E, 0xD3, 0x0B, 0x9A, 0x94,
    0x5D, 0x73, 0xCE, 0xE5, 0xA1, 0x1F, 0x49, 0xDB, 0x27, 0xE7, 0x97, 0x26, 0x9E, 0xAA, 0xE0, 0xB3,
    0xB7, 0x37, 0x00, 0x4C, 0x97, 0xE1, 0xBC,
];

/// The file of burst 7 with drop, keep of `fox`, drop. In edition 1 it is the first
/// worked file of docs/FORMAT.md; in edition 2 it is of camera 3, and else the same.
pub struct Worked {
    pub edition: usize,
    pub file: &'static [u8],
    /// How long the header is; the record follows.
    pub header: usize,
}

impl Worked {
    pub fn index(&self) -> usize {
        self.header + 35
    }

    pub fn closing(&self) -> usize {
        self.index() + 12
    }

    /// The file with another byte at an offset.
    pub fn with(&self, at: usize, byte: u8) -> Vec<u8> {
        let mut file = self.file.to_vec();
        file[at] = byte;
        file
    }

    /// The file with some bits of a byte changed.
    pub fn changed(&self, at: usize, bits: u8) -> Vec<u8> {
        self.with(at, self.file[at] ^ bits)
    }
}

pub const EDITION_1: Worked = Worked {
    edition: 1,
    file: &FILE_1,
    header: 32,
};

pub const EDITION_2: Worked = Worked {
    edition: 2,
    file: &FILE_2,
    header: 40,
};

pub const EDITIONS: [Worked; 2] = [EDITION_1, EDITION_2];

/// What list says of a file of camera 3 on standard error.
pub const NOTE: &str = "camera 3\n";

/// Site mark and stamp of the worked files.
pub const SITE_MARK: &str = "hex:101112131415161718191A1B1C1D1E1F";
pub const STAMP: &str = "hex:202122232425262728292A2B2C2D2E2F";

/// A pipe whose reader is gone before anything is written to it.
pub fn unread() -> PipeWriter {
    let (reader, writer) = pipe().unwrap();
    drop(reader);
    writer
}

/// The key of the worked files is 0 to 15.
pub fn key() -> Vec<u8> {
    (0..16).collect()
}

/// What a run of the tool gave.
pub struct Run {
    pub status: i32,
    pub out: String,
    pub err: String,
}

impl Run {
    pub fn of(output: Output) -> Self {
        let text = |bytes| String::from_utf8(bytes).expect("the tool writes UTF-8");
        Run {
            status: output.status.code().expect("the tool ends by itself"),
            out: text(output.stdout),
            err: text(output.stderr),
        }
    }

    /// It went well: what it printed.
    pub fn done(self) -> String {
        self.noted("")
    }

    /// The same, with these words on standard error.
    pub fn noted(self, note: &str) -> String {
        assert_eq!((self.status, self.err.as_str()), (0, note), "{}", self.out);
        self.out
    }

    /// It failed with this status, and its message has all these parts.
    pub fn failed(self, status: i32, parts: &[&str]) -> Self {
        assert_eq!(self.status, status, "{}{}", self.out, self.err);
        assert!(self.err.starts_with("burst: "), "{}", self.err);
        assert!(self.err.ends_with(".\n"), "no remedy: {}", self.err);
        for part in parts {
            assert!(self.err.contains(part), "no {part:?} in {}", self.err);
        }
        self
    }

    /// The library refused with this number.
    pub fn refused(self, number: i32, parts: &[&str]) -> Self {
        let words = format!("burst: refused with {number}: ");
        self.failed(number, &[&[words.as_str()], parts].concat())
    }
}

/// A folder of its own for a test; it goes when the test ends.
pub struct Folder(PathBuf);

static COUNT: AtomicU32 = AtomicU32::new(0);

impl Folder {
    /// With key, picture and file of the worked file of edition 2.
    pub fn new() -> Self {
        Folder::of(&EDITION_2)
    }

    /// With key, picture and file of a worked file.
    pub fn of(worked: &Worked) -> Self {
        let number = COUNT.fetch_add(1, Ordering::Relaxed);
        let name = format!("burst-test-{}-{number}", std::process::id());
        let folder = Folder(std::env::temp_dir().join(name));
        fs::create_dir(&folder.0).unwrap();
        folder.put("key", &key());
        folder.put("fox", b"fox");
        folder.put("7.burst", worked.file);
        folder
    }

    pub fn path(&self) -> &Path {
        &self.0
    }

    pub fn put(&self, name: &str, bytes: &[u8]) {
        fs::write(self.0.join(name), bytes).unwrap();
    }

    pub fn get(&self, name: &str) -> Vec<u8> {
        fs::read(self.0.join(name)).unwrap_or_else(|error| panic!("{name}: {error}"))
    }

    /// All names in a folder below this one, hidden ones too, sorted.
    pub fn names(&self, below: &str) -> Vec<String> {
        let entries = fs::read_dir(self.0.join(below)).unwrap();
        let name = |entry: std::io::Result<fs::DirEntry>| entry.unwrap().file_name();
        let mut names: Vec<String> = entries
            .map(|entry| name(entry).into_string().unwrap())
            .collect();
        names.sort();
        names
    }

    /// What stands in the folder when the test has written nothing.
    pub fn check_nothing_new(&self) {
        assert_eq!(self.names("."), ["7.burst", "fox", "key"]);
    }

    /// The tool with these words, ready to run.
    pub fn command(&self, words: &[&str]) -> Command {
        let mut command = Command::new(env!("CARGO_BIN_EXE_burst"));
        command.args(words).current_dir(&self.0);
        command.stdin(Stdio::null());
        command
    }

    pub fn run(&self, words: &[&str]) -> Run {
        Run::of(self.command(words).output().unwrap())
    }

    /// The words, split at spaces.
    pub fn say(&self, line: &str) -> Run {
        self.run(&line.split(' ').collect::<Vec<_>>())
    }

    /// Records shots to `out.burst`, with key, numbers and site mark of the
    /// worked file of edition 2.
    pub fn record(&self, shots: &[&str]) -> Run {
        let front = "record --key key --number 7 --camera 3 --out out.burst --site-mark";
        let words = front.split(' ').chain([SITE_MARK]);
        let words: Vec<&str> = words.chain(shots.iter().copied()).collect();
        self.run(&words)
    }

    /// The tool's line, run by a shell in which no file may grow beyond some
    /// blocks of 512 bytes.
    pub fn say_short_of_room(&self, blocks: u32, line: &str) -> Run {
        self.say_after(&format!("ulimit -f {blocks}"), line)
    }

    /// The tool's line, run by a shell after some words of its own.
    pub fn say_after(&self, words: &str, line: &str) -> Run {
        let tool = env!("CARGO_BIN_EXE_burst");
        let mut command = Shell::command(&format!("{words}; exec '{tool}' {line}"));
        Run::of(command.current_dir(&self.0).output().unwrap())
    }

    /// The rights of a file or folder below this one.
    pub fn mode(&self, name: &str) -> u32 {
        let found = fs::symlink_metadata(self.0.join(name)).unwrap();
        found.permissions().mode() & 0o7777
    }

    pub fn set_mode(&self, name: &str, mode: u32) {
        let rights = fs::Permissions::from_mode(mode);
        fs::set_permissions(self.0.join(name), rights).unwrap();
    }
}

/// A shell that waits for a line on its standard input before it runs a script.
pub struct Shell(Child);

impl Shell {
    pub fn command(script: &str) -> Command {
        let mut command = Command::new("sh");
        command.args(["-c", script]).stdin(Stdio::null());
        command
    }

    pub fn waiting(script: &str) -> Self {
        let mut command = Shell::command(&format!("read line; {script}"));
        // A process that has ended already takes no signal.
        command.stdin(Stdio::piped()).stderr(Stdio::null());
        Shell(command.spawn().unwrap())
    }

    /// Runs the script to its end.
    pub fn go(&mut self) {
        self.0.stdin.take().unwrap().write_all(b"\n").unwrap();
        self.0.wait().unwrap();
    }
}

impl Drop for Folder {
    fn drop(&mut self) {
        let _ = fs::remove_dir_all(&self.0);
    }
}

/// Bytes that do not repeat soon, different for each seed.
pub fn picture(length: usize, seed: u64) -> Vec<u8> {
    let mut state = seed.wrapping_mul(0x9E37_79B9_7F4A_7C15) | 1;
    let mut next = || {
        state ^= state << 13;
        state ^= state >> 7;
        state ^= state << 17;
        (state >> 32) as u8
    };
    (0..length).map(|_| next()).collect()
}
