//! A run that a signal ends leaves its outputs whole or not at all, and nothing
//! in the way of the next.

use crate::folder::{picture, unread, Folder, Run, Shell};
use std::fs;
use std::io::Write;
use std::ops::RangeInclusive;
use std::os::unix::fs::PermissionsExt;
use std::os::unix::process::ExitStatusExt;
use std::path::PathBuf;
use std::process::{Child, ExitStatus, Stdio};
use std::thread::sleep;
use std::time::Duration;

/// The signals that are tried at many moments, by name and number.
const SIGNALS: [(&str, i32); 4] = [("INT", 2), ("TERM", 15), ("HUP", 1), ("USR1", 10)];

/// The signals from outside that end a program: HUP, INT, QUIT, ABRT, USR1, USR2,
/// ALRM, TERM, STKFLT, XCPU, VTALRM, PROF, IO and PWR, and the real-time signals.
/// KILL cannot be held, PIPE and XFSZ are ignored, ILL, TRAP, BUS, FPE, SEGV and
/// SYS tell of a fault, and 32 and 33 are the C library's own.
const ENDING: [i32; 14] = [1, 2, 3, 6, 10, 12, 14, 15, 16, 24, 26, 27, 29, 30];
const REAL_TIME: RangeInclusive<i32> = 34..=64;

/// The tests, and so the tool, were not started to ignore the signal, as a shell
/// has it for INT in the background, and nohup for HUP.
fn is_heard(number: i32) -> bool {
    let status = fs::read_to_string("/proc/self/status").unwrap();
    let line = status.lines().find_map(|line| line.strip_prefix("SigIgn:"));
    let ignored = u64::from_str_radix(line.unwrap().trim(), 16).unwrap();
    ignored >> (number - 1) & 1 == 0
}

fn signals() -> Vec<(&'static str, i32)> {
    let heard = SIGNALS.into_iter().filter(|(_, number)| is_heard(*number));
    heard.collect()
}

/// When the signal comes, after the first hidden name shows: in milliseconds.
const MOMENTS: [u64; 5] = [0, 1, 5, 20, 80];

const KEPT: usize = 40;
const PICTURE_BYTES: usize = 250_000;
pub const ALL: &str = "fetch --key key --all all many.burst";

/// A folder with a burst of many pictures, which takes a while to fetch.
pub fn many() -> Folder {
    let folder = Folder::new();
    folder.put("large", &picture(PICTURE_BYTES, 1));
    folder.record(&["--keep", "x", "large"].repeat(KEPT)).done();
    let in_folder = |name| folder.path().join(name);
    fs::rename(in_folder("out.burst"), in_folder("many.burst")).unwrap();
    folder
}

/// What stands in the folder of `many` when nothing was written.
pub const NOTHING_NEW: [&str; 5] = ["7.burst", "fox", "key", "large", "many.burst"];

/// The hidden files and folders of a run, in the folder and in `all`.
pub fn hidden(folder: &Folder) -> Vec<PathBuf> {
    let below = [".", "all"].into_iter();
    let there = below.filter(|below| folder.path().join(below).is_dir());
    let paths = there.flat_map(|below| {
        let mut names = folder.names(below);
        names.retain(|name| name.starts_with(".burst-"));
        let path = |name| folder.path().join(below).join(name);
        names.into_iter().map(path).collect::<Vec<_>>()
    });
    paths.collect()
}

/// Waits until something hidden shows, or the run ends.
fn wait_for_hidden(folder: &Folder, tool: &mut Child) {
    while hidden(folder).is_empty() && tool.try_wait().unwrap().is_none() {}
}

/// Starts the tool by a shell, after some words of its own.
fn start(folder: &Folder, words: &str, line: &str) -> Child {
    let tool = env!("CARGO_BIN_EXE_burst");
    let mut shell = Shell::command(&format!("{words}; exec '{tool}' {line}"));
    shell.current_dir(folder.path()).stdout(Stdio::null());
    shell.spawn().unwrap()
}

/// Starts the tool, and sends the signal, by name or number, some time after it
/// has written something hidden.
fn interrupt(folder: &Folder, line: &str, signal: &str, moment: u64) -> ExitStatus {
    let mut tool = start(folder, "ulimit -c 0", line);
    // The shell is there already when the moment comes, so that little time
    // is lost.
    let mut sender = Shell::waiting(&format!("kill -{signal} {}", tool.id()));
    wait_for_hidden(folder, &mut tool);
    sleep(Duration::from_millis(moment));
    sender.go();
    tool.wait().unwrap()
}

/// How many of the pictures stand in `all`.
fn count_fetched(folder: &Folder) -> usize {
    let expected = folder.get("large");
    let is_fetched = |name: &&String| folder.get(&format!("all/{name}")) == expected;
    folder.names("all").iter().filter(is_fetched).count()
}

/// Every picture is there and right, and nothing hidden.
pub fn check_all(folder: &Folder) {
    assert_eq!(count_fetched(folder), KEPT);
    assert_eq!(hidden(folder), Vec::<PathBuf>::new());
}

/// The run is done, or the signal has ended it.
fn check_end(status: ExitStatus, number: i32) {
    let ended = status.signal() == Some(number);
    assert!(status.success() || ended, "signal {number}: {status}");
}

/// Sends every signal at every moment to the line, which fetches all. Each time
/// `before` makes the folder ready. If the signal ends the run, the folder is
/// as `nothing` wants it, or whole, where it came at the very end. At least one
/// signal comes in time; the next run after it fetches all.
fn try_signals(folder: &Folder, line: &str, before: impl Fn(), nothing: impl Fn()) {
    let all = folder.path().join("all");
    let mut taken_back = 0;
    for (signal, number) in signals() {
        for moment in MOMENTS {
            let _ = fs::remove_dir_all(&all);
            before();
            let status = interrupt(folder, line, signal, moment);
            check_end(status, number);
            if status.success() || (all.is_dir() && count_fetched(folder) > 0) {
                check_all(folder);
                continue;
            }
            taken_back += 1;
            nothing();
            if taken_back == 1 {
                folder.say(line).done();
                check_all(folder);
            }
        }
    }
    assert!(taken_back > 0, "every signal came too late");
}

#[test]
fn a_new_folder_is_whole_or_not_there() {
    let folder = many();
    let nothing = || assert_eq!(folder.names("."), NOTHING_NEW);
    try_signals(&folder, ALL, || (), nothing);
}

#[test]
fn an_empty_folder_is_whole_or_empty() {
    let folder = many();
    let all = folder.path().join("all");
    let before = || {
        fs::create_dir(&all).unwrap();
        folder.set_mode("all", 0o710);
    };
    let nothing = || {
        assert_eq!(folder.names("all"), Vec::<String>::new());
        assert_eq!(folder.mode("all"), 0o710);
    };
    try_signals(&folder, ALL, before, nothing);
    assert_eq!(folder.mode("all"), 0o710);
}

#[test]
fn files_of_a_folder_that_is_not_empty_stay() {
    let folder = many();
    let earlier = ["other", "shot-001", "shot-040"];
    let before = || {
        fs::create_dir(folder.path().join("all")).unwrap();
        for name in earlier {
            folder.put(&format!("all/{name}"), name.as_bytes());
        }
    };
    let nothing = || {
        assert_eq!(folder.names("all"), earlier);
        for name in earlier {
            assert_eq!(folder.get(&format!("all/{name}")), name.as_bytes());
        }
    };
    try_signals(&folder, &format!("{ALL} --force"), before, nothing);
    assert_eq!(hidden(&folder), Vec::<PathBuf>::new());
}

/// A signal that comes too late is sent to another run.
#[test]
fn every_signal_that_ends_a_program_leaves_nothing() {
    let folder = many();
    let all = folder.path().join("all");
    for number in ENDING.into_iter().chain(REAL_TIME) {
        let in_time = !is_heard(number)
            || (0..10).any(|_| {
                let _ = fs::remove_dir_all(&all);
                let status = interrupt(&folder, ALL, &number.to_string(), 0);
                check_end(status, number);
                assert_eq!(hidden(&folder), Vec::<PathBuf>::new(), "signal {number}");
                !all.exists()
            });
        assert!(in_time, "every signal {number} came too late");
        assert_eq!(folder.names("."), NOTHING_NEW, "signal {number}");
    }
}

/// The signal may come too late; the file is whole then.
#[test]
fn one_file_is_whole_or_not_there() {
    let folder = many();
    let picture = folder.get("large");
    let burst = folder.get("many.burst");
    let mut record = "record --key key --number 7 --camera 3 --out out".to_string();
    record += &format!(" --site-mark {}", crate::folder::SITE_MARK);
    record += &" --keep x large".repeat(KEPT);
    let fetch = "fetch --key key --place 3 --out out many.burst";
    let mut taken_back = 0;
    for (line, whole) in [(record.as_str(), &burst), (fetch, &picture)] {
        for (signal, number) in signals().repeat(3) {
            let status = interrupt(&folder, line, signal, 0);
            assert_eq!(hidden(&folder), Vec::<PathBuf>::new(), "{signal}");
            match folder.path().join("out").exists() {
                true => assert!(folder.get("out") == *whole, "{signal}"),
                false => {
                    assert_eq!(status.signal(), Some(number));
                    assert_eq!(folder.names("."), NOTHING_NEW);
                    taken_back += 1;
                }
            }
            let _ = fs::remove_file(folder.path().join("out"));
        }
    }
    assert!(taken_back > 0, "every signal came too late");
}

/// A run that fetches all, stopped with some pictures in its hidden folder.
pub fn stopped(folder: &Folder) -> Child {
    let mut command = folder.command(&ALL.split(' ').collect::<Vec<_>>());
    command.stdout(Stdio::piped()).stderr(Stdio::piped());
    let mut tool = command.spawn().unwrap();
    let mut sender = Shell::waiting(&format!("kill -STOP {}", tool.id()));
    let files = |path: &PathBuf| fs::read_dir(path).map_or(0, |entries| entries.count());
    while hidden(folder).first().map_or(0, files) == 0 {
        assert!(
            tool.try_wait().unwrap().is_none(),
            "nothing hidden was seen"
        );
    }
    sender.go();
    tool
}

#[test]
fn what_is_hidden_is_for_the_owner_alone() {
    let folder = many();
    let mut tool = stopped(&folder);
    let hidden = hidden(&folder);
    let mode = |path: &PathBuf| fs::metadata(path).unwrap().permissions().mode() & 0o777;
    assert_eq!(hidden.iter().map(mode).collect::<Vec<_>>(), [0o700]);
    let entries = fs::read_dir(&hidden[0]).unwrap();
    let modes: Vec<u32> = entries.map(|entry| mode(&entry.unwrap().path())).collect();
    assert!(!modes.is_empty() && modes.iter().all(|mode| *mode == 0o600));
    tool.kill().unwrap();
    tool.wait().unwrap();
}

/// As under nohup: the run goes on.
#[test]
fn an_ignored_signal_is_ignored() {
    let folder = many();
    let mut tool = start(&folder, "trap '' HUP", ALL);
    let mut sender = Shell::waiting(&format!("kill -HUP {}", tool.id()));
    wait_for_hidden(&folder, &mut tool);
    sender.go();
    assert_eq!(tool.wait().unwrap().code(), Some(0));
    check_all(&folder);
}

/// Kills a run in the middle; one that was done already is tried again.
fn kill(folder: &Folder, before: impl Fn()) {
    for _ in 0..10 {
        let _ = fs::remove_dir_all(folder.path().join("all"));
        before();
        if interrupt(folder, ALL, "KILL", 0).signal() == Some(9) {
            return;
        }
    }
    panic!("every KILL came too late");
}

/// What is left has the name that the help tells, and the next run says of it
/// what is to be done where it stands in the way.
#[test]
fn a_killed_run_does_not_stop_the_next_silently() {
    let folder = many();
    let all = folder.path().join("all");
    let help = folder.say("fetch --help").done();
    assert!(help.contains(".burst-NUMBER-NUMBER"), "{help}");
    kill(&folder, || ());
    let left = hidden(&folder);
    assert_eq!(left.len(), 1, "{left:?}");
    folder.say(ALL).done();
    assert_eq!(count_fetched(&folder), KEPT);

    fs::remove_dir_all(&left[0]).unwrap();
    kill(&folder, || fs::create_dir(&all).unwrap());
    let left = folder.names("all");
    assert_eq!(left.len(), 1, "{left:?}");
    let killed = format!("killed has left all/{}", left[0]);
    let parts = ["the folder all is not empty", &killed, "remove it"];
    folder.say(ALL).failed(73, &parts);
    fs::remove_dir_all(all.join(&left[0])).unwrap();
    folder.say(ALL).done();
    check_all(&folder);
}

#[test]
fn a_closed_standard_output_leaves_all_pictures() {
    let folder = many();
    let mut command = folder.command(&ALL.split(' ').collect::<Vec<_>>());
    let run = Run::of(command.stdout(unread()).output().unwrap());
    assert_eq!((run.status, run.err.as_str()), (74, ""));
    check_all(&folder);
    assert_eq!(hidden(&folder), Vec::<PathBuf>::new());
}

/// A run that waits for its input has nothing to take back, and ends at once.
#[test]
fn a_run_that_waits_for_input_ends_at_once() {
    let folder = Folder::new();
    for (signal, number) in signals() {
        for line in [
            "record --key key --number 7 --camera 3 --site-mark x --out out \
             --keep x fox --keep x -",
            "fetch --key key --all all -",
        ] {
            let mut command = folder.command(&line.split(' ').collect::<Vec<_>>());
            let mut tool = command.stdin(Stdio::piped()).spawn().unwrap();
            tool.stdin.as_ref().unwrap().write_all(b"part").unwrap();
            sleep(Duration::from_millis(20));
            Shell::waiting(&format!("kill -{signal} {}", tool.id())).go();
            let input = tool.stdin.take();
            let status = tool.wait().unwrap();
            drop(input);
            assert_eq!(status.signal(), Some(number));
            folder.check_nothing_new();
        }
    }
}
