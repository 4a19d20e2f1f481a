//! Opening in place, and the checks that tests make with it.

use crate::case::{info_written, Case};
use crate::lent::Lent;

impl Case {
    /// The reference's opening in place, under this case's key, nonce and
    /// associated data.
    pub fn reference_open_in_place(
        &self,
        buffer: &mut [u8],
        info_len: usize,
    ) -> Result<(usize, Vec<u8>), u32> {
        reference::sealing::open_in_place(
            self.variant,
            &self.key,
            &self.nonce,
            &self.ad1,
            &self.ad2,
            buffer,
            info_len,
        )
    }

    /// The C opening in place, under this case's key, nonce and associated data.
    pub fn open_in_place(&self, buffer: &mut [u8], info: &mut [u8]) -> u32 {
        crate::open_in_place(
            self.variant,
            &self.key,
            &self.nonce,
            &self.ad1,
            &self.ad2,
            buffer,
            info,
        )
    }

    /// The C opening in place of a buffer that holds `sealed`, with an info of
    /// this length, does what the reference's does, and what the C opening does
    /// into an output that is long enough. Gives the number and the buffer.
    pub fn check_open_in_place(&self, sealed: &[u8], info_len: usize) -> (u32, Vec<u8>) {
        let what = || {
            let (sealed, case) = (sealed.len(), self.describe());
            format!("opening in place, sealed {sealed}, info {info_len}, {case}")
        };
        let lent = self.clone();
        let (mut buffer, mut info) = (Lent::holding(sealed), Lent::new(info_len));
        let number = lent.open_in_place(buffer.slice(), info.slice());
        assert!(lent == *self, "an input changed, {}", what());
        let mut left = sealed.to_vec();
        match self.reference_open_in_place(&mut left, info_len) {
            Ok((length, secret)) => {
                assert_eq!(number, 0, "{}", what());
                buffer.check_written(&left, &what);
                info.check_written(&info_written(length, &secret), &what);
            }
            Err(refusal) => {
                assert_eq!(number, refusal, "{}", what());
                buffer.check_untouched(&what);
                info.check_untouched(&what);
            }
        }

        // The output of the other call holds the sealed message too, so that all
        // bytes are to be the same afterwards.
        let (mut out, mut out_info) = (Lent::holding(sealed), Lent::new(info_len));
        let other = self.open(sealed, out.slice(), out_info.slice());
        assert_eq!(number, other, "with two buffers, {}", what());
        assert!(buffer == out, "two buffers differ, {}", what());
        assert!(info == out_info, "info of two buffers differs, {}", what());
        (number, left)
    }

    /// A buffer that holds `sealed` opens to this case's message and secret
    /// number, with an info that is longer by `spare_info`.
    pub fn check_opens_in_place(&self, sealed: &[u8], spare_info: usize) {
        let mut buffer = Lent::holding(sealed);
        let mut info = Lent::new(self.variant.info_bytes() + spare_info);
        let what = || format!("opening in place, {}", self.describe());
        let number = self.open_in_place(buffer.slice(), info.slice());
        assert_eq!(number, 0, "{}", what());
        buffer.check_written(&self.msg, &what);
        info.check_written(&info_written(self.msg.len(), &self.secret), &what);
    }

    /// A buffer that holds `sealed` is refused with the number, and stays.
    pub fn check_refused_in_place(&self, sealed: &[u8], expected: u32, what: &str) {
        let mut buffer = Lent::holding(sealed);
        let mut info = Lent::new(self.variant.info_bytes() + 3);
        let what = || format!("in place, {what}, {}", self.describe());
        let number = self.open_in_place(buffer.slice(), info.slice());
        assert_eq!(number, expected, "{}", what());
        buffer.check_untouched(&what);
        info.check_untouched(&what);
    }
}
