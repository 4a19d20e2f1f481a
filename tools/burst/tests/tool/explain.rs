//! The layout of whole files, and what is said of broken fronts.

use crate::folder::{Folder, Run, Worked, EDITIONS, EDITION_2};
use std::collections::BTreeSet;

const DRAWING_1: &str = "\
front right, 111 bytes; the offset stands at each edge
         0 +--------------------------------------------------------------+
           | header                                              32 bytes |
           |   edition 1, burst 7                                         |
           |   taken 3 kept 1 dropped 2                                   |
           |   pictures from 32, index at 67                              |
           |   closing seal at 79, total length 111                       |
        32 +--------------------------------------------------------------+
           | record of shot 2, place 0                           35 bytes |
           |   sealed stamp 16, sealed picture 3, tag 16                  |
        67 +--------------------------------------------------------------+
           | index                                               12 bytes |
           |   place 0: shot 2 at 32 length 3                             |
        79 +--------------------------------------------------------------+
           | closing seal                                        32 bytes |
           |   sealed site mark 16, tag 16                                |
       111 +--------------------------------------------------------------+
Dropped shots: 1, 3.
Tags were not looked at: that takes the key and `burst check`.
";

const DRAWING_2: &str = "\
front right, 119 bytes; the offset stands at each edge
         0 +--------------------------------------------------------------+
           | header                                              40 bytes |
           |   edition 2, burst 7                                         |
           |   taken 3 kept 1 dropped 2                                   |
           |   pictures from 40, index at 75                              |
           |   closing seal at 87, total length 119                       |
           |   camera 3, four zeros                                       |
        40 +--------------------------------------------------------------+
           | record of shot 2, place 0                           35 bytes |
           |   sealed stamp 16, sealed picture 3, tag 16                  |
        75 +--------------------------------------------------------------+
           | index                                               12 bytes |
           |   place 0: shot 2 at 40 length 3                             |
        87 +--------------------------------------------------------------+
           | closing seal                                        32 bytes |
           |   sealed site mark 16, tag 16                                |
       119 +--------------------------------------------------------------+
Dropped shots: 1, 3.
Tags were not looked at: that takes the key and `burst check`.
";

#[test]
fn the_worked_files_are_drawn() {
    for (worked, drawing) in EDITIONS.iter().zip([DRAWING_1, DRAWING_2]) {
        assert_eq!(Folder::of(worked).say("explain 7.burst").done(), drawing);
    }
}

#[test]
fn a_burst_without_gaps_and_one_without_pictures_are_drawn() {
    let folder = Folder::new();
    folder
        .record(&["--keep", "a", "fox", "--keep", "b", "fox"])
        .done();
    let out = folder.say("explain out.burst").done();
    assert!(out.contains("\n        75 +-"), "{out}");
    assert!(out.contains("| record of shot 2, place 1 "), "{out}");
    assert!(out.contains("|   place 1: shot 2 at 75 length 3 "), "{out}");
    assert!(out.contains("No shot was dropped."), "{out}");
    folder.record(&["--force"]).done();
    let out = folder.say("explain out.burst").done();
    assert!(
        out.contains("| index                                                0 bytes |\n"),
        "{out}"
    );
}

/// An offset in the worked file of edition 1, another byte there, and a rule that
/// is broken then.
const BROKEN_1: &str = "\
 0   2  rule 3: picture offset is 32, and must be 40 in edition 2
 0   2  rule 4: the four bytes 36 to 39 are 3337966688, and must be 0
 0   3  rule 2: edition is 3, and must be 1 or 2
 1   1  rule 2: edition is 257, and must be 1 or 2
 2  61  rule 5: taken is 61, and is at most 60
 2  61  rule 5: taken is 61, and must be 3, kept and dropped together
 4   2  rule 5: taken is 3, and must be 4, kept and dropped together
 4   2  rule 6: closing offset is 79, and must be 91, the index's end
16  40  rule 3: picture offset is 40, and must be 32 in edition 1
24  80  rule 6: closing offset is 80, and must be 79, the index's end
24  80  rule 7: total length is 111, and must be 112, the closing seal's end
28 110  rule 7: total length is 110, and must be 111, the closing seal's end
28 110  rule 7: total length is 110, and must be 111, the file's length
67   4  rule 8: at place 0: shot 4 after shot 0, with 3 shots taken
67   0  rule 8: at place 0: shot 0 after shot 0, with 3 shots taken
69   1  rule 9: at place 0: the zero field is 1, and must be 0
75   0  rule 9: at place 0: the picture length is 0
71  33  rule 10: at place 0: the record offset is 33, and must be 32
75   2  rule 10: index offset is 67, and must be 66, the records' end
";

/// The same for edition 2.
const BROKEN_2: &str = "\
 0   1  rule 3: picture offset is 40, and must be 32 in edition 1
 0   3  rule 2: edition is 3, and must be 1 or 2
 1   1  rule 2: edition is 258, and must be 1 or 2
 2  61  rule 5: taken is 61, and is at most 60
 2  61  rule 5: taken is 61, and must be 3, kept and dropped together
 4   2  rule 5: taken is 3, and must be 4, kept and dropped together
 4   2  rule 6: closing offset is 87, and must be 99, the index's end
16  32  rule 3: picture offset is 32, and must be 40 in edition 2
24  88  rule 6: closing offset is 88, and must be 87, the index's end
24  88  rule 7: total length is 119, and must be 120, the closing seal's end
28 118  rule 7: total length is 118, and must be 119, the closing seal's end
28 118  rule 7: total length is 118, and must be 119, the file's length
32   0  rule 4: camera number is 0, and must be 1 or more
36   1  rule 4: the four bytes 36 to 39 are 1, and must be 0
39   1  rule 4: the four bytes 36 to 39 are 16777216, and must be 0
75   4  rule 8: at place 0: shot 4 after shot 0, with 3 shots taken
75   0  rule 8: at place 0: shot 0 after shot 0, with 3 shots taken
77   1  rule 9: at place 0: the zero field is 1, and must be 0
83   0  rule 9: at place 0: the picture length is 0
79  41  rule 10: at place 0: the record offset is 41, and must be 40
83   2  rule 10: index offset is 75, and must be 74, the records' end
";

/// A line of these tables: offset, byte and rule.
fn broken_line(line: &str) -> (usize, u8, &str) {
    let (numbers, rule) = line.split_at(line.find("rule ").unwrap());
    let mut numbers = numbers.split_whitespace();
    let mut next = || numbers.next().unwrap();
    (next().parse().unwrap(), next().parse().unwrap(), rule)
}

/// The broken rules that a run of explain names.
fn broken_rules(run: &Run) -> Vec<&str> {
    let lines = run.out.lines().map(str::trim_start);
    lines.filter(|line| line.starts_with("rule ")).collect()
}

#[test]
fn broken_rules_are_named() {
    for (worked, table) in EDITIONS.iter().zip([BROKEN_1, BROKEN_2]) {
        let folder = Folder::of(worked);
        for (at, byte, _) in table.lines().map(broken_line) {
            folder.put("7.burst", &worked.with(at, byte));
            let run = folder.say("explain 7.burst").refused(12, &["7.burst"]);
            assert!(run.out.starts_with("front 12: a front rule is broken\n"));
            let same = |line: &(usize, u8, &str)| (line.0, line.1) == (at, byte);
            let broken = table.lines().map(broken_line).filter(same);
            let broken: Vec<&str> = broken.map(|line| line.2).collect();
            assert_eq!(broken_rules(&run), broken, "byte {at}: {byte}");
        }
    }
}

/// Long enough for edition 1, as rule 1 wants it, and too short for edition 2.
#[test]
fn the_shortest_files_are_those_of_their_edition() {
    let folder = Folder::new();
    for worked in &EDITIONS {
        for length in 32..=72 {
            folder.put("7.burst", &worked.file[..length]);
            let run = folder.say("explain 7.burst").refused(12, &[]);
            let mut said = broken_rules(&run);
            said.retain(|line| line.contains(" has at least "));
            let mut expected = Vec::new();
            if length < 64 {
                expected.push("rule 1: a burst file has at least 64 bytes");
            }
            if length < 72 && worked.edition == 2 {
                expected.push("rule 2: a file of edition 2 has at least 72 bytes");
            }
            assert_eq!(said, expected, "{length}");
        }
    }
}

/// The front rules of docs/FORMAT.md by their numbers, from 1 on.
fn rules_of_the_page() -> Vec<String> {
    let path = concat!(env!("CARGO_MANIFEST_DIR"), "/../../docs/FORMAT.md");
    let page = std::fs::read_to_string(path).unwrap();
    let (_, section) = page.split_once("\n## Front rules\n").unwrap();
    let (section, _) = section.split_once("\n## ").unwrap();
    let mut rules: Vec<String> = Vec::new();
    for line in section.lines() {
        let next = format!("{}. ", rules.len() + 1);
        match (line.strip_prefix(&next), rules.last_mut()) {
            (Some(rule), _) => rules.push(rule.to_lowercase()),
            (None, Some(rule)) => *rule += &format!(" {}", line.trim().to_lowercase()),
            (None, None) => {}
        }
    }
    rules
}

/// What the tool calls broken stands on the page under the same number.
#[test]
fn rules_have_the_numbers_of_the_page() {
    let rules = rules_of_the_page();
    assert_eq!(rules.len(), 10);
    assert!(rules[0].contains("at least 64 bytes"));
    assert!(rules[1].contains("at least 72 bytes"));
    let mut named = BTreeSet::from([1]);
    for (_, _, line) in [BROKEN_1, BROKEN_2].concat().lines().map(broken_line) {
        let (rule, words) = line.split_once(": ").unwrap();
        let number: usize = rule.strip_prefix("rule ").unwrap().parse().unwrap();
        let words = words.strip_prefix("at place 0: ").unwrap_or(words);
        let words = words.strip_prefix("the ").unwrap_or(words);
        let ends = [" is ", " are ", " "].map(|end| words.find(end));
        let end = ends.into_iter().flatten().next().unwrap();
        let rule = &rules[number - 1];
        assert!(rule.contains(&words[..end]), "{number} {}", &words[..end]);
        named.insert(number);
    }
    assert!(named.into_iter().eq(1..=10));
}

/// It has shown already what the other commands send the reader to it for.
#[test]
fn explain_does_not_advise_to_run_explain() {
    let folder = Folder::new();
    folder.put("7.burst", &EDITION_2.file[..110]);
    let advice = [
        "Copy it from the card again",
        "docs/FORMAT.md has the rules",
    ];
    let run = folder.say("explain 7.burst").refused(12, &advice);
    assert!(!run.err.contains("explain"), "{}", run.err);
    let run = folder.say("list 7.burst");
    run.refused(12, &["`burst explain FILE` shows"]);
}

/// Explain says 12 exactly where list does, and then names a rule. This is how
/// many changes of one bit break a front.
fn count_broken(worked: &Worked) -> usize {
    let folder = Folder::of(worked);
    let mut broken = 0;
    for bit in (0..8 * worked.header).chain(8 * worked.index()..8 * worked.closing()) {
        let (at, bit) = (bit / 8, bit % 8);
        folder.put("7.burst", &worked.changed(at, 1 << bit));
        let (listed, run) = (folder.say("list 7.burst"), folder.say("explain 7.burst"));
        assert_eq!(run.status, listed.status, "byte {at} bit {bit}");
        let is_named = !broken_rules(&run).is_empty();
        assert_eq!(is_named, run.status == 12, "byte {at} bit {bit}");
        broken += usize::from(run.status == 12);
    }
    broken
}

/// Only the burst number's 64 bits, the camera number's 32, and the shot number's
/// change from 2 to 3 break no rule.
#[test]
fn every_changed_bit_of_the_front_is_judged_as_list_judges_it() {
    let counts = EDITIONS.each_ref().map(count_broken);
    assert_eq!(counts, [8 * 32 - 64 + 96 - 1, 8 * 40 - 64 - 32 + 96 - 1]);
}

#[test]
fn a_cut_header_is_told_as_far_as_it_goes() {
    let ends = [2, 4, 6, 8, 16, 20, 24, 28, 32, 36, 40];
    for worked in &EDITIONS {
        let folder = Folder::of(worked);
        for length in 0..=worked.header {
            folder.put("7.burst", &worked.file[..length]);
            let run = folder.say("explain 7.burst").refused(12, &[]);
            assert!(run.out.contains(&format!("The file has {length} bytes.")));
            assert!(run.out.contains("rule 1: "), "{}", run.out);
            let there = run.out.matches("not there, the file ends before").count();
            // Without its edition, a header is told as one of edition 1.
            let header = if length < 2 { 32 } else { worked.header };
            let cut = |end: &&usize| length < **end && **end <= header;
            assert_eq!(there, ends.iter().filter(cut).count(), "{}", run.out);
        }
    }
}

#[test]
fn the_fields_of_a_broken_header_are_told() {
    for worked in &EDITIONS {
        let folder = Folder::of(worked);
        let (header, total) = (worked.header, worked.file.len());
        folder.put("7.burst", &worked.file[..header]);
        let out = folder.say("explain 7.burst").refused(12, &[]).out;
        for line in [
            "         8       8  burst number    7\n",
            &format!("        16       4  picture offset  {header}\n"),
            &format!("        28       4  total length    {total}\n"),
        ] {
            assert!(out.contains(line), "{out}");
        }
        let camera =
            "        32       4  camera number   3\n        36       4  zeros           0\n";
        assert_eq!(out.contains(camera), worked.edition == 2, "{out}");
        assert_eq!(out.contains("camera"), worked.edition == 2, "{out}");
    }
}
