//! One input of sealing, and the checks that most tests make with it.

use crate::lent::Lent;
use crate::strips::Start;
use reference::random::SplitMix64;
use reference::sealing::Variant;

/// What is sealed, under what; the associated data is in two parts.
#[derive(Clone, PartialEq)]
pub struct Case {
    pub variant: Variant,
    pub key: Vec<u8>,
    pub nonce: Vec<u8>,
    pub secret: Vec<u8>,
    pub ad1: Vec<u8>,
    pub ad2: Vec<u8>,
    pub msg: Vec<u8>,
}

impl Case {
    /// A case with random bytes, the lengths of key, nonce and secret number right.
    pub fn random(
        generator: &mut SplitMix64,
        variant: Variant,
        ad1: usize,
        ad2: usize,
        msg: usize,
    ) -> Self {
        let sizes = variant.sizes();
        Case {
            variant,
            key: generator.next_bytes(sizes.key),
            nonce: generator.next_bytes(sizes.nonce),
            secret: generator.next_bytes(sizes.secret),
            ad1: generator.next_bytes(ad1),
            ad2: generator.next_bytes(ad2),
            msg: generator.next_bytes(msg),
        }
    }

    pub fn describe(&self) -> String {
        format!(
            "{:?}, key {}, nonce {}, secret {}, ad {} + {}, msg {}",
            self.variant,
            self.key.len(),
            self.nonce.len(),
            self.secret.len(),
            self.ad1.len(),
            self.ad2.len(),
            self.msg.len()
        )
    }

    /// The reference's sealing.
    pub fn reference_seal(&self, out_len: usize) -> Result<Vec<u8>, u32> {
        reference::sealing::seal(
            self.variant,
            &self.key,
            &self.nonce,
            &self.secret,
            &self.ad1,
            &self.ad2,
            &self.msg,
            out_len,
        )
    }

    /// The reference's opening, under this case's key, nonce and associated data.
    pub fn reference_open(
        &self,
        sealed: &[u8],
        out_len: usize,
        info_len: usize,
    ) -> Result<(Vec<u8>, Vec<u8>), u32> {
        reference::sealing::open(
            self.variant,
            &self.key,
            &self.nonce,
            &self.ad1,
            &self.ad2,
            sealed,
            out_len,
            info_len,
        )
    }

    /// The C sealing.
    pub fn seal(&self, out: &mut [u8]) -> u32 {
        crate::seal(
            self.variant,
            &self.key,
            &self.nonce,
            &self.secret,
            &self.ad1,
            &self.ad2,
            &self.msg,
            out,
        )
    }

    /// What a start of strips takes of it.
    pub fn start(&self) -> Start<'_> {
        Start {
            key: &self.key,
            nonce: &self.nonce,
            secret: &self.secret,
            ad1: &self.ad1,
            ad2: &self.ad2,
        }
    }

    /// The C opening, under this case's key, nonce and associated data.
    pub fn open(&self, sealed: &[u8], out: &mut [u8], info: &mut [u8]) -> u32 {
        crate::open(
            self.variant,
            &self.key,
            &self.nonce,
            &self.ad1,
            &self.ad2,
            sealed,
            out,
            info,
        )
    }

    /// The C sealing into an output of `out_len` bytes does what the
    /// reference's does, or is refused as that is. Gives the number.
    pub fn check_seal(&self, out_len: usize) -> u32 {
        let what = || format!("sealing, out {out_len}, {}", self.describe());
        let lent = self.clone();
        let mut out = Lent::new(out_len);
        let number = lent.seal(out.slice());
        assert!(lent == *self, "an input changed, {}", what());
        match self.reference_seal(out_len) {
            Ok(sealed) => {
                assert_eq!(number, 0, "{}", what());
                out.check_written(&sealed, &what);
            }
            Err(refusal) => {
                assert_eq!(number, refusal, "{}", what());
                out.check_untouched(&what);
            }
        }
        number
    }

    /// The C opening into buffers of these lengths does what the reference's
    /// does, or is refused as that is. Gives the number.
    pub fn check_open(&self, sealed: &[u8], out_len: usize, info_len: usize) -> u32 {
        let what = || {
            let (sealed, case) = (sealed.len(), self.describe());
            format!("opening, sealed {sealed}, out {out_len}, info {info_len}, {case}")
        };
        let lent = self.clone();
        let (mut out, mut info) = (Lent::new(out_len), Lent::new(info_len));
        let number = lent.open(sealed, out.slice(), info.slice());
        assert!(lent == *self, "an input changed, {}", what());
        match self.reference_open(sealed, out_len, info_len) {
            Ok((message, secret)) => {
                assert_eq!(number, 0, "{}", what());
                out.check_written(&message, &what);
                info.check_written(&info_written(message.len(), &secret), &what);
            }
            Err(refusal) => {
                assert_eq!(number, refusal, "{}", what());
                out.check_untouched(&what);
                info.check_untouched(&what);
            }
        }
        number
    }

    /// The case is sealed as `sealed` says, into an output that is longer by `spare`.
    pub fn check_seals_as(&self, sealed: &[u8], spare: usize) {
        let mut out = Lent::new(sealed.len() + spare);
        assert_eq!(self.seal(out.slice()), 0, "{}", self.describe());
        out.check_written(sealed, &|| format!("sealing {}", self.describe()));
    }

    /// `sealed` opens to this case's message and secret number, into buffers
    /// that are longer by `spare` and `spare_info`. It opens in place too.
    pub fn check_opens(&self, sealed: &[u8], spare: usize, spare_info: usize) {
        let mut out = Lent::new(self.msg.len() + spare);
        let mut info = Lent::new(self.variant.info_bytes() + spare_info);
        let number = self.open(sealed, out.slice(), info.slice());
        assert_eq!(number, 0, "{}", self.describe());
        out.check_written(&self.msg, &|| format!("message of {}", self.describe()));
        info.check_written(&info_written(self.msg.len(), &self.secret), &|| {
            format!("info of {}", self.describe())
        });
        self.check_opens_in_place(sealed, spare_info);
    }

    /// `sealed` is refused with the number, and nothing is written; in place too.
    pub fn check_refused(&self, sealed: &[u8], expected: u32, what: &str) {
        self.check_refused_in_place(sealed, expected, what);
        let mut out = Lent::new(sealed.len() + 5);
        let mut info = Lent::new(self.variant.info_bytes() + 3);
        let what = || format!("{what}, {}", self.describe());
        let number = self.open(sealed, out.slice(), info.slice());
        assert_eq!(number, expected, "{}", what());
        out.check_untouched(&what);
        info.check_untouched(&what);
    }

    /// Sealing and opening are as the reference has them.
    pub fn check_both(&self, spare: usize, spare_info: usize) {
        let sealed = self
            .reference_seal(self.msg.len() + self.variant.overhead() + spare)
            .unwrap();
        self.check_seals_as(&sealed, spare);
        self.check_opens(&sealed, spare, spare_info);
    }
}

/// What the C opening writes: the length, 8 bytes little-endian, and the
/// secret number.
pub fn info_written(msg_len: usize, secret: &[u8]) -> Vec<u8> {
    [&(msg_len as u64).to_le_bytes(), secret].concat()
}

/// The tests that are made for each variant, as one test each.
#[macro_export]
macro_rules! for_each_variant {
    ($($test:ident),+ $(,)?) => {
        mod icepole128 {
            $(#[test] fn $test() { super::$test(reference::sealing::Variant::Icepole128) })+
        }
        mod icepole128a {
            $(#[test] fn $test() { super::$test(reference::sealing::Variant::Icepole128a) })+
        }
        mod icepole256a {
            $(#[test] fn $test() { super::$test(reference::sealing::Variant::Icepole256a) })+
        }
    };
}
