//! One call of burst_replay, held against the reference's recorder and against
//! its plain burst.

use crate::lent::{check_same, Lent};
use crate::list::{CAMERA, KEY, SITE_MARK};
use crate::script::{answer_bytes, calls_of, ANSWER_BYTES};
use reference::burst::plain::{run, Outcome};
use reference::burst::{Answer, Call, Recorder, EDITION_2};

/// What is lent to burst_replay; buffer and answers as they are before it.
#[derive(Clone, PartialEq)]
pub struct Recording {
    pub key: Vec<u8>,
    pub burst_number: u64,
    pub camera: u32,
    pub site_mark: Vec<u8>,
    pub script: Vec<u8>,
    pub buffer: Vec<u8>,
    pub answers: Vec<u8>,
}

/// What burst_replay performed.
pub struct Performed {
    /// Begin and the calls that were performed. There are none without room
    /// for an answer.
    pub calls: Vec<Call>,
    pub answers: Vec<Answer>,
    /// Whether the whole script was performed.
    pub whole: bool,
    /// What the plain burst makes of these calls.
    pub plain: Option<Outcome>,
    /// The buffer after the call.
    pub buffer: Vec<u8>,
}

impl Performed {
    pub fn numbers(&self) -> Vec<u32> {
        self.answers.iter().map(|answer| answer.number).collect()
    }

    pub fn shots_and_totals(&self) -> Vec<u64> {
        let given = |answer: &Answer| answer.shot_or_total;
        self.answers.iter().map(given).collect()
    }

    /// The file in the buffer, if a close was accepted.
    pub fn file(&self) -> Option<&[u8]> {
        let length = self.plain.as_ref()?.file.as_ref()?.len();
        Some(&self.buffer[..length])
    }
}

/// The reference's recorder on a real buffer.
fn recorded(calls: &[Call], buffer: &mut [u8]) -> Vec<Answer> {
    let mut recorder = Recorder::REFUSED;
    let mut answers = Vec::new();
    for call in calls {
        answers.push(match call {
            Call::Begin {
                key,
                burst_number,
                camera,
                site_mark,
            } => {
                let (begun, answer) =
                    Recorder::begin(key, *burst_number, *camera, site_mark, buffer);
                recorder = begun;
                answer
            }
            Call::Keep { stamp, picture } => recorder.keep(stamp, picture, buffer),
            Call::Drop => recorder.drop_shot(),
            Call::Close => recorder.close(buffer),
        });
    }
    answers
}

impl Recording {
    /// With key, camera number and site mark of `list`, and buffers that are
    /// nowhere zero.
    pub fn new(burst_number: u64, script: Vec<u8>, buffer_len: usize, answers_len: usize) -> Self {
        let pattern = |length| (0..length).map(|i| (i % 251) as u8 + 1).collect();
        Recording {
            key: KEY.to_vec(),
            burst_number,
            camera: CAMERA,
            site_mark: SITE_MARK.to_vec(),
            script,
            buffer: pattern(buffer_len),
            answers: pattern(answers_len),
        }
    }

    pub fn describe(&self) -> String {
        format!(
            "key {}, burst {}, camera {}, site mark {}, script {}, buffer {}, answers {}",
            self.key.len(),
            self.burst_number,
            self.camera,
            self.site_mark.len(),
            self.script.len(),
            self.buffer.len(),
            self.answers.len()
        )
    }

    /// Begin and the calls whose answers have room, and whether these are the
    /// whole script.
    pub fn calls(&self) -> (Vec<Call>, bool) {
        let Some(most) = (self.answers.len() / ANSWER_BYTES).checked_sub(1) else {
            return (Vec::new(), false);
        };
        let begin = Call::Begin {
            key: self.key.clone(),
            burst_number: self.burst_number,
            camera: self.camera,
            site_mark: self.site_mark.clone(),
        };
        let (calls, rest) = calls_of(&self.script, most);
        ([vec![begin], calls].concat(), rest.is_empty())
    }

    /// The call does what recorder and plain burst do: answer by answer, and
    /// byte by byte in the whole buffer.
    pub fn check(&self, what: &dyn Fn() -> String) -> Performed {
        let (calls, whole) = self.calls();
        let mut expected = self.buffer.clone();
        let recorded = recorded(&calls, &mut expected);
        let what = |part: &str| format!("{part}, {}, {}", what(), self.describe());

        let lent = self.clone();
        let mut buffer = Lent::holding(&self.buffer);
        let mut answers = Lent::holding(&self.answers);
        let given = crate::replay(
            &lent.key,
            lent.burst_number,
            lent.camera,
            &lent.site_mark,
            &lent.script,
            buffer.slice(),
            answers.slice(),
        );
        assert!(lent == *self, "an input changed, {}", what("replay"));
        answers.check_written(&answer_bytes(&recorded), &|| what("answers"));
        let told = (recorded.len(), u32::from(whole));
        assert_eq!(given, told, "{}", what("count and whole"));
        buffer.check_written(&expected, &|| what("buffer"));

        let plain = (!calls.is_empty()).then(|| run(EDITION_2, &calls, self.buffer.len()));
        let buffer = buffer.slice().to_vec();
        if let Some(plain) = &plain {
            assert_eq!(recorded, plain.answers, "{}", what("plain answers"));
            if let Some(file) = &plain.file {
                check_same(&buffer[..file.len()], file, &|| what("plain file"));
            }
        }
        Performed {
            calls,
            answers: recorded,
            whole,
            plain,
            buffer,
        }
    }
}
