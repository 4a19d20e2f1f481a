//! The lister's text ("Afterwards: 128a, 256a, strips, a lister"). The lines of
//! the two editions differ only where the record offsets do.

mod help;

use help::{file_of, STARTS};
use reference::burst::lister::list;

#[test]
fn a_line_for_each_kept_picture() {
    for (edition, start) in STARTS {
        let file = file_of(edition, u64::MAX, &[5, 0, 1, 300]);
        let expected = format!(
            "burst 18446744073709551615\n\
             taken 4 kept 3 dropped 1\n\
             shot 1 at {} length 5\n\
             shot 3 at {} length 1\n\
             shot 4 at {} length 300\n",
            start,
            start + 37,
            start + 70
        );
        assert_eq!(list(&file), expected);
    }
}

#[test]
fn bursts_without_pictures() {
    for (edition, _) in STARTS {
        let empty = file_of(edition, 0, &[]);
        assert_eq!(list(&empty), "burst 0\ntaken 0 kept 0 dropped 0\n");
        let dropped = file_of(edition, 5, &[0; 60]);
        assert_eq!(list(&dropped), "burst 5\ntaken 60 kept 0 dropped 60\n");
    }
}

#[test]
fn sixty_pictures() {
    for (edition, start) in STARTS {
        let text = list(&file_of(edition, 6, &[2; 60]));
        let lines: Vec<&str> = text.lines().collect();
        assert_eq!(lines.len(), 62);
        for (place, line) in lines[2..].iter().enumerate() {
            let (shot, offset) = (place + 1, start + 34 * place);
            assert_eq!(*line, format!("shot {shot} at {offset} length 2"));
        }
        assert!(text.ends_with('\n'));
    }
}

/// Header, a picture and 76 bytes more. The longest listed has 65,536 bytes.
#[test]
fn longest_file_listed() {
    for (edition, start) in STARTS {
        let length = 65_536 - 76 - start;
        let longest = file_of(edition, 7, &[length]);
        assert_eq!(longest.len(), 65_536);
        let expected =
            format!("burst 7\ntaken 1 kept 1 dropped 0\nshot 1 at {start} length {length}\n");
        assert_eq!(list(&longest), expected);
        let longer = file_of(edition, 7, &[length + 1]);
        assert_eq!(longer.len(), 65_537);
        assert_eq!(list(&longer), "front too long\n");
    }
}

/// Too long comes before a wrong front.
#[test]
fn wrong_fronts() {
    assert_eq!(list(&[]), "front 12\n");
    assert_eq!(list(&[0; 65_536]), "front 12\n");
    assert_eq!(list(&[0; 65_537]), "front too long\n");
    for (edition, _) in STARTS {
        let file = file_of(edition, 7, &[0, 3, 0]);
        assert_eq!(list(&file[..file.len() - 1]), "front 12\n");
        assert_eq!(list(&[&file[..], &[0]].concat()), "front 12\n");
    }
}

/// Seals and their contents do not matter, the front does. Every camera number
/// but 0 has the same lines.
#[test]
fn only_the_front_is_tested() {
    for (edition, start) in STARTS {
        let file = file_of(edition, 7, &[0, 3, 0]);
        let text = list(&file);
        let (index, closing) = (start + 35, start + 47);
        for at in 0..file.len() {
            let mut changed = file.clone();
            changed[at] ^= 0x80;
            let is_camera = edition.has_camera && (32..36).contains(&at);
            let is_sealed = (start..index).contains(&at) || at >= closing;
            let expected = if is_camera || is_sealed {
                text.clone()
            } else if (8..16).contains(&at) {
                let other = 7u64 ^ (0x80 << (8 * (at - 8)));
                text.replace("burst 7", &format!("burst {other}"))
            } else {
                "front 12\n".into()
            };
            assert_eq!(list(&changed), expected, "byte {at}");
        }
    }
}
