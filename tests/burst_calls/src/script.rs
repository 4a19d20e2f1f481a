//! Scripts and answers, as burst.h lays them out.

use reference::burst::{Answer, Call};

/// The bytes of one answer.
pub use proved_calls::burst::ANSWER_BYTES;

/// The bytes that are calls.
pub use proved_calls::burst::{CALL_CLOSE as CLOSE, CALL_DROP as DROP, CALL_KEEP as KEEP};

/// One call at the end of a script.
pub fn push_call(script: &mut Vec<u8>, call: &Call) {
    match call {
        Call::Begin { .. } => panic!("begin stands in no script"),
        Call::Drop => script.push(DROP),
        Call::Close => script.push(CLOSE),
        Call::Keep { stamp, picture } => {
            script.extend([KEEP, stamp.len().try_into().unwrap()]);
            script.extend(u32::try_from(picture.len()).unwrap().to_le_bytes());
            script.extend(stamp);
            script.extend(picture);
        }
    }
}

/// The script of a list of calls without its begin.
pub fn script_of(calls: &[Call]) -> Vec<u8> {
    let mut script = Vec::new();
    for call in calls {
        push_call(&mut script, call);
    }
    script
}

/// The first call of a script, and the script after it. There is none where
/// the script is at its end, cuts its keep, or goes on with a byte that is no
/// call.
fn first_call(script: &[u8]) -> Option<(Call, &[u8])> {
    let (first, rest) = script.split_first()?;
    match *first {
        DROP => Some((Call::Drop, rest)),
        CLOSE => Some((Call::Close, rest)),
        KEEP => {
            let (stamp_len, rest) = rest.split_first()?;
            let (picture_len, rest) = rest.split_first_chunk()?;
            let picture_len = u32::from_le_bytes(*picture_len) as usize;
            let (stamp, rest) = rest.split_at_checked(usize::from(*stamp_len))?;
            let (picture, rest) = rest.split_at_checked(picture_len)?;
            let (stamp, picture) = (stamp.to_vec(), picture.to_vec());
            Some((Call::Keep { stamp, picture }, rest))
        }
        _ => None,
    }
}

/// The calls of a script, but at most the first `most`, and what is left of
/// the script behind them.
pub fn calls_of(mut script: &[u8], most: usize) -> (Vec<Call>, &[u8]) {
    let mut calls = Vec::new();
    while calls.len() < most {
        let Some((call, rest)) = first_call(script) else {
            break;
        };
        calls.push(call);
        script = rest;
    }
    (calls, script)
}

/// Answers as they are written: refusal number, then shot number or total.
pub fn answer_bytes(answers: &[Answer]) -> Vec<u8> {
    let mut bytes = Vec::new();
    for answer in answers {
        assert_eq!(answer.mark, 0);
        bytes.extend(answer.number.to_le_bytes());
        bytes.extend(u32::try_from(answer.shot_or_total).unwrap().to_le_bytes());
    }
    bytes
}
