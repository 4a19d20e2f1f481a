//! The rights of output files: those of the file that is replaced, else as the
//! umask says.

use crate::folder::Folder;
use std::fs;

const FETCH: &str = "fetch --key key --place 0 --out out 7.burst";
const ALL: &str = "fetch --key key --all all 7.burst";
const RECORD: &str = "record --key key --number 7 --camera 3 --site-mark x --out out --keep x fox";

#[test]
fn force_keeps_the_rights_of_the_old_file() {
    let folder = Folder::new();
    fs::create_dir(folder.path().join("all")).unwrap();
    for mode in [0o600, 0o640, 0o400, 0o444, 0o666, 0o711] {
        for umask in ["umask 022", "umask 077", "umask 000"] {
            for (line, name) in [(FETCH, "out"), (RECORD, "out"), (ALL, "all/shot-002")] {
                folder.put(name, b"earlier");
                folder.set_mode(name, mode);
                let run = folder.say_after(umask, &format!("{line} --force"));
                run.done();
                assert_ne!(folder.get(name), b"earlier");
                assert_eq!(folder.mode(name), mode, "{mode:o}, {umask}: {line}");
                fs::remove_file(folder.path().join(name)).unwrap();
            }
        }
    }
}

/// The rights to run a file as its owner are not for another file.
#[test]
fn force_keeps_no_more_than_the_nine_rights() {
    let folder = Folder::new();
    folder.put("out", b"earlier");
    folder.set_mode("out", 0o6755);
    folder.say(&format!("{FETCH} --force")).done();
    assert_eq!(folder.mode("out"), 0o755);
}

#[test]
fn new_files_and_folders_follow_the_umask() {
    for (umask, file, all) in [
        ("umask 022", 0o644, 0o755),
        ("umask 027", 0o640, 0o750),
        ("umask 077", 0o600, 0o700),
        ("umask 000", 0o666, 0o777),
    ] {
        for force in ["", " --force"] {
            for line in [FETCH, RECORD] {
                let folder = Folder::new();
                folder.say_after(umask, &format!("{line}{force}")).done();
                assert_eq!(folder.mode("out"), file, "{umask}: {line}");
            }
            let folder = Folder::new();
            folder.say_after(umask, &format!("{ALL}{force}")).done();
            assert_eq!(
                (folder.mode("all"), folder.mode("all/shot-002")),
                (all, file)
            );
            let folder = Folder::new();
            fs::create_dir(folder.path().join("all")).unwrap();
            folder.set_mode("all", 0o711);
            folder.say_after(umask, &format!("{ALL}{force}")).done();
            assert_eq!(
                (folder.mode("all"), folder.mode("all/shot-002")),
                (0o711, file)
            );
        }
    }
}
