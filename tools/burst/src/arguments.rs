//! The command line.

use crate::files::{Input, Output};
use crate::help;
use crate::messages::Failure;
use crate::secrets::parse_mark;
use crate::show;
use crate::units::parse_bytes;
use std::ffi::{OsStr, OsString};
use std::fmt::Display;
use std::path::PathBuf;
use std::str::FromStr;

/// What the command line asks for.
pub enum Command {
    /// Help or version.
    Print(String),
    Record(Record),
    List {
        file: Input,
    },
    Check {
        key: Input,
        file: Input,
    },
    Fetch(Fetch),
    Explain {
        file: Input,
    },
    /// The lengths of planned pictures, 0 for a dropped shot.
    Size {
        lengths: Vec<u64>,
        measure: bool,
    },
    /// The bytes of a card, the shots of each burst, and the bytes of each
    /// picture.
    Card {
        bytes: u64,
        shots: u64,
        picture: u64,
    },
}

pub struct Record {
    pub key: Input,
    pub burst_number: u64,
    pub camera: u32,
    pub site_mark: Vec<u8>,
    pub out: Output,
    pub force: bool,
    pub shots: Vec<Shot>,
}

/// A shot, in the order of firing.
pub enum Shot {
    Keep { stamp: Vec<u8>, picture: Input },
    Drop,
}

pub struct Fetch {
    pub key: Input,
    pub file: Input,
    pub force: bool,
    pub pictures: Wanted,
}

pub enum Wanted {
    One { place: PlaceTyped, out: Output },
    All { folder: PathBuf },
}

/// A place as it was typed, and its number. One that is above every number the
/// library takes is handed over as the largest, which no burst has either.
pub struct PlaceTyped {
    pub typed: String,
    pub number: usize,
}

/// An option and how its values are called.
type Choice = (&'static str, &'static [&'static str]);

const KEY: Choice = ("--key", &["FILE"]);
const FORCE: Choice = ("--force", &[]);
const OUT: Choice = ("--out", &["FILE"]);

/// A command: its name, its help, its options, and how its words are read.
struct Reader {
    name: &'static str,
    help: &'static str,
    options: &'static [Choice],
    read: fn(Given) -> Result<Command, Failure>,
}

const READERS: [Reader; 7] = [
    Reader {
        name: "record",
        help: help::RECORD,
        options: &[
            KEY,
            ("--number", &["N"]),
            ("--camera", &["N"]),
            ("--site-mark", &["MARK"]),
            OUT,
            FORCE,
            ("--keep", &["STAMP", "PICTURE"]),
            ("--drop", &[]),
        ],
        read: read_record,
    },
    Reader {
        name: "list",
        help: help::LIST,
        options: &[],
        read: |given| {
            Ok(Command::List {
                file: given.file()?,
            })
        },
    },
    Reader {
        name: "check",
        help: help::CHECK,
        options: &[KEY],
        read: |given| {
            let (key, file) = (given.key()?, given.file()?);
            given.test_inputs([&key, &file])?;
            Ok(Command::Check { key, file })
        },
    },
    Reader {
        name: "fetch",
        help: help::FETCH,
        options: &[
            KEY,
            ("--place", &["N"]),
            OUT,
            ("--all", &["DIRECTORY"]),
            FORCE,
        ],
        read: read_fetch,
    },
    Reader {
        name: "explain",
        help: help::EXPLAIN,
        options: &[],
        read: |given| {
            Ok(Command::Explain {
                file: given.file()?,
            })
        },
    },
    Reader {
        name: "size",
        help: help::SIZE,
        options: &[("--measure", &[])],
        read: |given| {
            let lengths = given.others.iter().map(|word| given.length(word));
            Ok(Command::Size {
                lengths: lengths.collect::<Result<_, _>>()?,
                measure: given.flag("--measure"),
            })
        },
    },
    Reader {
        name: "card",
        help: help::CARD,
        options: &[
            ("--bytes", &["N"]),
            ("--shots", &["S"]),
            ("--picture", &["P"]),
        ],
        read: |given| {
            given.test_others(
                "--bytes N --shots S --picture P is wanted, with no space before a unit",
            )?;
            Ok(Command::Card {
                bytes: given.bytes("--bytes")?,
                shots: given.number("--shots", u64::MAX)?,
                picture: given.number("--picture", u64::MAX)?,
            })
        },
    },
];

/// The command that the words after the program's name ask for.
pub fn parse(words: Vec<OsString>) -> Result<Command, Failure> {
    let mut words = words.into_iter();
    let Some(first) = words.next() else {
        return Err(usage("", "no command is given".into()));
    };
    if first == "--help" || first == "-h" {
        return Ok(Command::Print(help::ALL.into()));
    }
    if first == "--version" || first == "-V" {
        let version = env!("CARGO_PKG_VERSION");
        return Ok(Command::Print(format!("burst {version}\n")));
    }
    let Some(reader) = READERS.iter().find(|reader| first == reader.name) else {
        return Err(usage(
            "",
            format!("there is no command `{}`", show::word(&first)),
        ));
    };
    match Given::split(reader, words)? {
        Some(given) => (reader.read)(given),
        None => Ok(Command::Print(reader.help.into())),
    }
}

fn usage(command: &'static str, problem: String) -> Failure {
    Failure::Usage { command, problem }
}

/// The words of a command, split into options with their values, in order, and
/// the other words.
struct Given {
    command: &'static str,
    options: Vec<(&'static str, Vec<OsString>)>,
    others: Vec<OsString>,
}

impl Given {
    /// There is nothing to split where help is asked for.
    fn split(
        reader: &Reader,
        mut words: impl Iterator<Item = OsString>,
    ) -> Result<Option<Self>, Failure> {
        let mut given = Given {
            command: reader.name,
            options: Vec::new(),
            others: Vec::new(),
        };
        while let Some(word) = words.next() {
            if word == "--help" || word == "-h" {
                return Ok(None);
            }
            if word == "--" {
                given.others.extend(words.by_ref());
            } else if let Some((name, values)) =
                reader.options.iter().find(|(name, _)| word == *name)
            {
                let values = given.values(name, values, &mut words)?;
                given.options.push((name, values));
            } else if is_option(&word) {
                return Err(given.wrong(format!("there is no option {}", show::word(&word))));
            } else {
                given.others.push(word);
            }
        }
        Ok(Some(given))
    }

    /// The values of an option. None of them begins with two dashes, so that a
    /// forgotten value is found.
    fn values(
        &self,
        option: &str,
        names: &[&str],
        words: &mut impl Iterator<Item = OsString>,
    ) -> Result<Vec<OsString>, Failure> {
        let mut values = Vec::new();
        for name in names {
            match words.next() {
                Some(word) if !word.as_encoded_bytes().starts_with(b"--") => values.push(word),
                Some(word) => {
                    let found = show::word(&word);
                    return Err(self.wrong(format!("{option} wants {name}, and finds {found}")));
                }
                None => return Err(self.wrong(format!("{option} wants {name} after it"))),
            }
        }
        Ok(values)
    }

    fn wrong(&self, problem: String) -> Failure {
        usage(self.command, problem)
    }

    /// The value of an option that is given at most once.
    fn at_most_one(&self, name: &str) -> Result<Option<&OsString>, Failure> {
        let mut found = self.options.iter().filter(|(option, _)| *option == name);
        let first = found.next().map(|(_, values)| &values[0]);
        match found.next() {
            Some(_) => Err(self.wrong(format!("{name} is given twice"))),
            None => Ok(first),
        }
    }

    fn one(&self, name: &str) -> Result<&OsString, Failure> {
        let found = self.at_most_one(name)?;
        found.ok_or_else(|| self.wrong(format!("{name} is missing")))
    }

    fn key(&self) -> Result<Input, Failure> {
        Ok(Input::of(self.one("--key")?))
    }

    /// Standard input is read once at most.
    fn test_inputs<'a>(&self, inputs: impl IntoIterator<Item = &'a Input>) -> Result<(), Failure> {
        let is_standard = |input: &&Input| matches!(input, Input::Standard);
        match inputs.into_iter().filter(is_standard).count() {
            0 | 1 => Ok(()),
            _ => {
                let problem = "- is standard input, which is read once, and - is given twice";
                Err(self.wrong(problem.into()))
            }
        }
    }

    /// No word stands beside the options and their values.
    fn test_others(&self, wanted: &str) -> Result<(), Failure> {
        match self.others.first() {
            None => Ok(()),
            Some(other) => {
                let other = show::word(other);
                Err(self.wrong(format!("{other} stands alone; {wanted}")))
            }
        }
    }

    fn flag(&self, name: &str) -> bool {
        self.options.iter().any(|(option, _)| *option == name)
    }

    /// The one burst file.
    fn file(&self) -> Result<Input, Failure> {
        match self.others.as_slice() {
            [file] => Ok(Input::of(file)),
            [] => Err(self.wrong("the burst file is missing".into())),
            [_, more, ..] => Err(self.wrong(format!(
                "one file is wanted; {} is one more",
                show::word(more)
            ))),
        }
    }

    /// Decimal digits, as text.
    fn digits(&self, name: &str, word: &OsStr) -> Result<String, Failure> {
        let text = show::word(word);
        match !text.is_empty() && text.bytes().all(|byte| byte.is_ascii_digit()) {
            true => Ok(text),
            false => Err(self.wrong(format!("{name} wants decimal digits, not `{text}`"))),
        }
    }

    /// The number of a word, at most the largest of its type.
    fn number_of<N: FromStr + Display>(
        &self,
        name: &str,
        word: &OsStr,
        largest: N,
    ) -> Result<N, Failure> {
        let digits = self.digits(name, word)?;
        let too_large = |_| self.wrong(format!("{name} {digits} is above {largest}"));
        digits.parse().map_err(too_large)
    }

    /// The number of an option that is given once.
    fn number<N: FromStr + Display>(&self, name: &str, largest: N) -> Result<N, Failure> {
        self.number_of(name, self.one(name)?, largest)
    }

    /// The bytes of an option that is given once, with or without a unit.
    fn bytes(&self, name: &str) -> Result<u64, Failure> {
        let typed = show::word(self.one(name)?);
        let bytes = parse_bytes(&typed);
        bytes.map_err(|problem| self.wrong(format!("{name} {problem}")))
    }

    /// The length of a planned picture; a dash is a dropped shot, as 0 is.
    fn length(&self, word: &OsStr) -> Result<u64, Failure> {
        match word == "-" {
            true => Ok(0),
            false => self.number_of("LENGTH", word, u64::MAX),
        }
    }

    /// A stamp or site mark.
    fn mark(&self, name: &str, word: &OsStr) -> Result<Vec<u8>, Failure> {
        let text = word
            .to_str()
            .ok_or("text that is not UTF-8; give it as hex:".into());
        let mark = text.and_then(parse_mark);
        mark.map_err(|problem| self.wrong(format!("{name}: {problem}")))
    }
}

/// A word with a dash in front; a dash alone is standard input or output.
fn is_option(word: &OsStr) -> bool {
    word.len() > 1 && word.as_encoded_bytes().starts_with(b"-")
}

fn read_record(given: Given) -> Result<Command, Failure> {
    given.test_others("a shot is --keep STAMP PICTURE or --drop")?;
    let mut shots = Vec::new();
    for (name, values) in &given.options {
        match (*name, values.as_slice()) {
            ("--keep", [stamp, picture]) => shots.push(Shot::Keep {
                stamp: given.mark("the stamp of --keep", stamp)?,
                picture: Input::of(picture),
            }),
            ("--drop", _) => shots.push(Shot::Drop),
            _ => {}
        }
    }
    let key = given.key()?;
    let pictures = shots.iter().filter_map(|shot| match shot {
        Shot::Keep { picture, .. } => Some(picture),
        Shot::Drop => None,
    });
    given.test_inputs(pictures.chain([&key]))?;
    Ok(Command::Record(Record {
        key,
        burst_number: given.number("--number", u64::MAX)?,
        camera: given.number("--camera", u32::MAX)?,
        site_mark: given.mark("--site-mark", given.one("--site-mark")?)?,
        out: Output::of(given.one("--out")?),
        force: given.flag("--force"),
        shots,
    }))
}

fn read_fetch(given: Given) -> Result<Command, Failure> {
    let place = given.at_most_one("--place")?;
    let out = given.at_most_one("--out")?;
    let all = given.at_most_one("--all")?;
    let pictures = match (place, out, all) {
        (Some(place), Some(out), None) => {
            let typed = given.digits("--place", place)?;
            let number = typed.parse().unwrap_or(usize::MAX);
            let place = PlaceTyped { typed, number };
            let out = Output::of(out);
            Wanted::One { place, out }
        }
        (None, None, Some(folder)) if folder == "-" => {
            let problem = "--all wants a folder, and - is none; a folder of that name is ./-";
            return Err(given.wrong(problem.into()));
        }
        (None, None, Some(folder)) => Wanted::All {
            folder: folder.into(),
        },
        _ => {
            let problem = "either --place N --out FILE is wanted, or --all DIRECTORY";
            return Err(given.wrong(problem.into()));
        }
    };
    let (key, file) = (given.key()?, given.file()?);
    given.test_inputs([&key, &file])?;
    Ok(Command::Fetch(Fetch {
        key,
        file,
        force: given.flag("--force"),
        pictures,
    }))
}
