//! Runs a proved program, which is built before cargo runs.

use std::io::{ErrorKind, Read, Write};
use std::path::Path;
use std::process::{Child, ChildStdin, Command, Stdio};
use std::thread::sleep;
use std::time::{Duration, Instant};

/// The folder of the crates.
const FOLDER: &str = concat!(env!("CARGO_MANIFEST_DIR"), "/../../crates");

/// A program should end long before this.
const LONGEST: Duration = Duration::from_secs(20);

/// A program, by its name.
pub struct Program(pub &'static str);

impl Program {
    /// Starts the program with this standard input.
    fn start(&self, input: Stdio) -> Child {
        let name = self.0;
        let path = Path::new(FOLDER).join(name).join("out").join(name);
        if !path.is_file() {
            panic!("crates/{name}/out/{name} is not there: run `sh scripts/build.sh {name}` first");
        }
        let mut command = Command::new(path);
        command.stdin(input).stdout(Stdio::piped());
        command.stderr(Stdio::piped()).spawn().unwrap()
    }

    /// Waits for the program's end; one that does not end is killed.
    fn wait(&self, program: &mut Child) {
        let name = self.0;
        let started = Instant::now();
        loop {
            if let Some(status) = program.try_wait().unwrap() {
                return assert!(status.success(), "{name} ended with {status}");
            }
            if started.elapsed() > LONGEST {
                program.kill().unwrap();
                panic!("{name} does not end");
            }
            sleep(Duration::from_micros(200));
        }
    }

    /// What the program printed. Pipes hold all of it, so it can end before this
    /// reads.
    fn finish(&self, mut program: Child) -> String {
        self.wait(&mut program);
        let (mut text, mut errors) = (String::new(), String::new());
        let (stdout, stderr) = (program.stdout.as_mut(), program.stderr.as_mut());
        stdout.unwrap().read_to_string(&mut text).unwrap();
        stderr.unwrap().read_to_string(&mut errors).unwrap();
        assert_eq!(errors, "", "standard error");
        text
    }

    /// What the program prints with this standard input.
    pub fn printed_from(&self, input: Stdio) -> String {
        self.finish(self.start(input))
    }

    /// What the program prints for an input that `write` writes into a pipe. The
    /// pipe is closed before the program's end is waited for.
    pub fn printed_by(&self, write: impl FnOnce(&mut ChildStdin)) -> String {
        let mut program = self.start(Stdio::piped());
        write(program.stdin.as_mut().unwrap());
        program.stdin = None;
        self.finish(program)
    }

    /// What the program prints for an input that it reads to the end.
    pub fn printed(&self, input: &[u8]) -> String {
        self.printed_by(|pipe| pipe.write_all(input).unwrap())
    }
}

/// Writes pieces of `length` bytes, with a wait after each so that the program
/// reads them one by one.
pub fn write_pieces(pipe: &mut ChildStdin, input: &[u8], length: usize) {
    for piece in input.chunks(length) {
        pipe.write_all(piece).unwrap();
        pipe.flush().unwrap();
        sleep(Duration::from_millis(1));
    }
}

/// Writes these bytes until the program is no longer there to read them.
pub fn write_while_read(pipe: &mut ChildStdin, bytes: &[u8]) {
    if let Err(error) = pipe.write_all(bytes) {
        assert_eq!(error.kind(), ErrorKind::BrokenPipe, "{error}");
    }
}
