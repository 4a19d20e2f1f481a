//! What the standard library lacks of the system, on x86-64 Linux: signals that
//! are held back, the umask, lists of rights, and a rename that replaces
//! nothing. All unsafe code of the tool is here.

use std::ffi::{c_char, c_int, c_uint, c_void, CStr, CString};
use std::fs::{self, File};
use std::io;
use std::ops::RangeInclusive;
use std::os::fd::AsRawFd;
use std::os::unix::ffi::OsStrExt;
use std::path::Path;
use std::ptr::null;
use std::sync::OnceLock;

/// The signals from outside that end a program: HUP, INT, QUIT, ABRT, USR1, USR2,
/// ALRM, TERM, STKFLT, XCPU, VTALRM, PROF, IO and PWR, and the real-time signals.
///
/// Not among them: KILL, which nothing holds; PIPE and XFSZ, which are ignored;
/// ILL, TRAP, BUS, FPE, SEGV and SYS, which tell of a fault, after which no more
/// code of the program is to run; 32 and 33, which the C library keeps for
/// itself. `abort` lets ABRT through by itself.
const ENDING: [c_int; 14] = [1, 2, 3, 6, 10, 12, 14, 15, 16, 24, 26, 27, 29, 30];
const REAL_TIME: RangeInclusive<c_int> = 34..=64;
/// A file has grown beyond the limit of the process.
const SIGXFSZ: c_int = 25;

/// Flags to open a folder, and no link.
pub const O_DIRECTORY: c_int = 0o200_000;
pub const O_NOFOLLOW: c_int = 0o400_000;

/// The disposition of a signal that is ignored.
const SIG_IGN: usize = 1;

const SIG_BLOCK: c_int = 0;
const SIG_SETMASK: c_int = 2;

/// `sigset_t`: signal n is bit n - 1, so that all 64 are in the first word.
#[repr(C)]
#[derive(Clone, Copy, Default)]
struct SignalSet([u64; 16]);

/// `struct sigaction`.
#[repr(C)]
#[derive(Default)]
struct Action {
    handler: usize,
    mask: SignalSet,
    flags: c_int,
    restorer: usize,
}

extern "C" {
    fn sigaction(signal: c_int, new: *const Action, old: *mut Action) -> c_int;
    fn signal(signal: c_int, handler: usize) -> usize;
    fn sigpending(set: *mut SignalSet) -> c_int;
    fn pthread_sigmask(how: c_int, set: *const SignalSet, old: *mut SignalSet) -> c_int;
    #[link_name = "umask"]
    fn set_umask(mask: u32) -> u32;
    fn lgetxattr(
        path: *const c_char,
        name: *const c_char,
        value: *mut c_void,
        size: usize,
    ) -> isize;
    fn fsetxattr(
        file: c_int,
        name: *const c_char,
        value: *const c_void,
        size: usize,
        flags: c_int,
    ) -> c_int;
    fn fremovexattr(file: c_int, name: *const c_char) -> c_int;
    fn renameat2(
        from_folder: c_int,
        from: *const c_char,
        to_folder: c_int,
        to: *const c_char,
        flags: c_uint,
    ) -> c_int;
}

/// At the start of the program: it makes everything for its owner alone, and a
/// write beyond the limit for a file's length fails, as on a full disk, and does
/// not end the program.
pub fn prepare() {
    umask();
    // SAFETY: it takes numbers only; to ignore a signal runs no code of ours.
    unsafe { signal(SIGXFSZ, SIG_IGN) };
}

fn is_ignored(signal: c_int) -> bool {
    let mut now = Action::default();
    // SAFETY: with no new action nothing is changed; `now` is a `struct
    // sigaction` that the call may write.
    unsafe { sigaction(signal, null(), &mut now) };
    now.handler == SIG_IGN
}

/// Changes which signals are blocked, and gives those that were.
fn change_blocked(how: c_int, signals: SignalSet) -> SignalSet {
    let mut before = SignalSet::default();
    // SAFETY: both are a `sigset_t` of this function.
    unsafe { pthread_sigmask(how, &signals, &mut before) };
    before
}

/// While this stands, the signals that end a program wait. Dropped, it lets
/// them through: one that has come then ends the program as it always does.
/// There is no handler, so that no code runs at an unexpected moment. Signals
/// that are ignored, as `nohup` has it, or were blocked before, are left alone.
pub struct Held {
    before: SignalSet,
    signals: u64,
}

impl Held {
    pub fn new() -> Self {
        let ending = ENDING.into_iter().chain(REAL_TIME);
        let heard = ending.filter(|signal| !is_ignored(*signal));
        let signals: u64 = heard.map(|signal| 1 << (signal - 1)).sum();
        let mut set = SignalSet::default();
        set.0[0] = signals;
        let before = change_blocked(SIG_BLOCK, set);
        Held {
            before,
            signals: signals & !before.0[0],
        }
    }

    /// A signal has come that ends the program.
    pub fn asked_to_end(&self) -> bool {
        let mut pending = SignalSet::default();
        // SAFETY: it is a `sigset_t` of this function.
        unsafe { sigpending(&mut pending) };
        pending.0[0] & self.signals != 0
    }
}

impl Drop for Held {
    fn drop(&mut self) {
        change_blocked(SIG_SETMASK, self.before);
    }
}

/// The umask that the program was started with. Asking for it sets the umask of
/// the program, which then makes everything for its owner alone.
pub fn umask() -> u32 {
    static STARTED_WITH: OnceLock<u32> = OnceLock::new();
    // SAFETY: it takes and gives a number.
    *STARTED_WITH.get_or_init(|| unsafe { set_umask(0o077) })
}

/// A path as the calls of the system take it.
fn c_path(path: &Path) -> io::Result<CString> {
    Ok(CString::new(path.as_os_str().as_bytes())?)
}

/// Renames a file or folder where nothing has the new name. A file system that
/// cannot promise this renames as always.
pub fn rename_new(from: &Path, to: &Path) -> io::Result<()> {
    const AT_FDCWD: c_int = -100;
    const RENAME_NOREPLACE: c_uint = 1;
    const EINVAL: i32 = 22;
    const ENOSYS: i32 = 38;
    let (c_from, c_to) = (c_path(from)?, c_path(to)?);
    // SAFETY: both paths end with a zero byte.
    let result = unsafe {
        let (from, to) = (c_from.as_ptr(), c_to.as_ptr());
        renameat2(AT_FDCWD, from, AT_FDCWD, to, RENAME_NOREPLACE)
    };
    if result == 0 {
        return Ok(());
    }
    let error = io::Error::last_os_error();
    match error.raw_os_error() {
        Some(EINVAL | ENOSYS) => fs::rename(from, to),
        _ => Err(error),
    }
}

/// The attribute that holds a file's list of rights (ACL), and the longest
/// value that an attribute has.
const ACCESS_LIST: &CStr = c"system.posix_acl_access";
const MAX_ATTRIBUTE_BYTES: usize = 65_536;

/// There is no such attribute, or no attributes at all in this file system.
fn is_without_list(error: &io::Error) -> bool {
    const ENODATA: i32 = 61;
    const EOPNOTSUPP: i32 = 95;
    matches!(error.raw_os_error(), Some(ENODATA | EOPNOTSUPP))
}

/// The list of rights of a file, if it has one beside its mode.
pub fn access_list(path: &Path) -> io::Result<Option<Vec<u8>>> {
    let path = c_path(path)?;
    let mut list = vec![0; MAX_ATTRIBUTE_BYTES];
    let (to, size) = (list.as_mut_ptr().cast(), list.len());
    // SAFETY: path and name end with a zero byte; the list may be written, and
    // goes with its length.
    let length = unsafe { lgetxattr(path.as_ptr(), ACCESS_LIST.as_ptr(), to, size) };
    match usize::try_from(length) {
        Ok(length) => {
            list.truncate(length);
            Ok(Some(list))
        }
        Err(_) => {
            let error = io::Error::last_os_error();
            is_without_list(&error).then_some(None).ok_or(error)
        }
    }
}

/// Gives a file this list of rights, or takes away the one that it has.
pub fn set_access_list(file: &File, list: Option<&[u8]>) -> io::Result<()> {
    let (number, name) = (file.as_raw_fd(), ACCESS_LIST.as_ptr());
    // SAFETY: the file is open, the name ends with a zero byte, and the list
    // goes with its length.
    let result = unsafe {
        match list {
            Some(list) => fsetxattr(number, name, list.as_ptr().cast(), list.len(), 0),
            None => fremovexattr(number, name),
        }
    };
    let error = io::Error::last_os_error();
    match result == 0 || (list.is_none() && is_without_list(&error)) {
        true => Ok(()),
        false => Err(error),
    }
}
