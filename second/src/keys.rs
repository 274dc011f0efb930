//! Keys: an NMI, a suffix and a date, by which a day is known where no file is. Without a date they name a channel.

use crate::fields::{is_real_date, Rule};

/// Whether these are an NMI and a suffix, in letters of either case.
pub fn names_channel(nmi: &[u8], suffix: &[u8]) -> bool {
    Rule::Nmi.allows(nmi) && Rule::Suffix.allows(suffix)
}

/// A good key. Letters compare without case, so they are held as capitals.
#[derive(Clone, Debug, PartialEq, Eq, Hash)]
pub struct Key {
    nmi: Vec<u8>,
    suffix: Vec<u8>,
    date: u32,
}

impl Key {
    /// The key that these name, in letters of either case. None if it is no good one.
    pub fn named(nmi: &[u8], suffix: &[u8], date: u32) -> Option<Key> {
        let is_good = names_channel(nmi, suffix) && is_real_date(date);
        is_good.then(|| Key { nmi: nmi.to_ascii_uppercase(), suffix: suffix.to_ascii_uppercase(), date })
    }

    /// The key that is kept by these. With a small letter it is no good one.
    pub fn kept(nmi: &[u8], suffix: &[u8], date: u32) -> Option<Key> {
        Key::named(nmi, suffix, date).filter(|key| key.nmi == nmi && key.suffix == suffix)
    }

    pub fn nmi(&self) -> &[u8] {
        &self.nmi
    }

    pub fn suffix(&self) -> &[u8] {
        &self.suffix
    }

    pub fn date(&self) -> u32 {
        self.date
    }
}

#[cfg(test)]
mod tests {
    use super::*;

    const NMI: &[u8] = b"VABD000163";
    const DATE: u32 = 20030501;

    #[test]
    fn letters_compare_without_case() {
        let key = Key::named(NMI, b"E1", DATE);
        assert!(key.is_some());
        for (nmi, suffix) in [(b"vabd000163", b"e1"), (b"vAbD000163", b"E1"), (b"VABD000163", b"e1")] {
            assert_eq!(Key::named(nmi, suffix, DATE), key);
            assert_eq!(Key::kept(nmi, suffix, DATE), None);
        }
        assert_eq!(Key::kept(NMI, b"E1", DATE), key);
        for (nmi, suffix, date) in
            [(b"VABD000164", b"E1", DATE), (b"VABD000163", b"E2", DATE), (b"VABD000163", b"E1", 20030502)]
        {
            assert_ne!(Key::named(nmi, suffix, date), key);
        }
    }

    #[test]
    fn an_nmi_has_10_letters_or_digits_and_a_suffix_2() {
        for nmi in [&b""[..], b"VABD00016", b"VABD0001630", b"VABD 00163", b" VABD00163", b"VABD000163 "] {
            assert_eq!(Key::named(nmi, b"E1", DATE), None, "{nmi:?}");
        }
        for suffix in [&b""[..], b"E", b"E12", b"E ", b" 1"] {
            assert_eq!(Key::named(NMI, suffix, DATE), None, "{suffix:?}");
        }
        // As many bytes together as a key has.
        assert_eq!(Key::named(b"VABD00016", b"3E1", DATE), None);
        assert_eq!(Key::named(b"VABD000163E", b"1", DATE), None);
        // The neighbours of digits and letters, and bytes that no file holds.
        for byte in *b"/:@[`{-_, \0\x1f\x7f\x80\xc1\xe1\xff" {
            for place in [0, 5, 9] {
                let mut nmi = NMI.to_vec();
                nmi[place] = byte;
                assert_eq!(Key::named(&nmi, b"E1", DATE), None, "{byte}");
            }
            assert_eq!(Key::named(NMI, &[byte, b'1'], DATE), None, "{byte}");
            assert_eq!(Key::named(NMI, &[b'E', byte], DATE), None, "{byte}");
        }
    }

    #[test]
    fn a_date_is_a_real_one() {
        for date in [19000101, 20000229, 21991231] {
            assert!(Key::kept(NMI, b"E1", date).is_some(), "{date}");
        }
        for date in [0, 1, 18991231, 19000229, 20030431, 22000101, 200305010, u32::MAX] {
            assert_eq!(Key::named(NMI, b"E1", date), None, "{date}");
        }
    }
}
