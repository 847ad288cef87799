//! A lent output of bytes with guard bytes round it, and the first byte that is not as it must be.

/// Bytes before and behind the output that no call is lent.
const GUARD: usize = 64;

/// The bytes before each call; none of them stands in a text of UTF-8, and none is 0.
const RUBBISH: [u8; 7] = [0xf8, 0xf9, 0xfa, 0xfb, 0xfc, 0xfd, 0xfe];

/// The output that serves every call.
pub struct Output {
    /// All bytes before each call.
    pattern: Vec<u8>,
    held: Vec<u8>,
    /// How many bytes the last call was lent.
    lent: usize,
}

impl Output {
    /// An output of up to so many bytes.
    pub fn new(most: usize) -> Self {
        let whole = most + 2 * GUARD;
        let pattern: Vec<u8> = RUBBISH.into_iter().cycle().take(whole).collect();
        Output {
            held: pattern.clone(),
            pattern,
            lent: 0,
        }
    }

    /// Fills the output with rubbish, and lends so many bytes of it.
    pub fn lend(&mut self, lent: usize) -> &mut [u8] {
        let last = self.lent.max(lent) + 2 * GUARD;
        self.held[..last].copy_from_slice(&self.pattern[..last]);
        self.lent = lent;
        &mut self.held[GUARD..][..lent]
    }

    /// The first byte that is not as a call must leave it, counted from the output's first, and what it is and must be:
    /// `text` stands at the front, and all else is as it was.
    pub fn first_difference(&self, text: &[u8]) -> Option<(isize, u8, u8)> {
        let (end, last) = (GUARD + text.len(), self.lent + 2 * GUARD);
        let same = self.held[..GUARD] == self.pattern[..GUARD]
            && self.held[GUARD..end] == *text
            && self.held[end..last] == self.pattern[end..last];
        if same {
            return None;
        }
        let wanted = |index: usize| match index {
            index if (GUARD..end).contains(&index) => text[index - GUARD],
            index => self.pattern[index],
        };
        let index = (0..last).find(|&index| self.held[index] != wanted(index))?;
        let place = index as isize - GUARD as isize;
        Some((place, self.held[index], wanted(index)))
    }
}

#[cfg(test)]
mod tests {
    use super::*;

    #[test]
    fn a_changed_byte_is_found_wherever_it_stands() {
        let mut output = Output::new(100);
        output.lend(10)[..3].copy_from_slice(b"abc");
        assert_eq!(output.first_difference(b"abc"), None);
        for at in [
            0,
            GUARD - 1,
            GUARD,
            GUARD + 2,
            GUARD + 3,
            GUARD + 10,
            10 + 2 * GUARD - 1,
        ] {
            output.held[at] ^= 1;
            let found = output.first_difference(b"abc").map(|(place, ..)| place);
            assert_eq!(found, Some(at as isize - GUARD as isize));
            output.held[at] ^= 1;
        }
    }

    #[test]
    fn a_text_too_short_or_not_there_is_found() {
        let mut output = Output::new(100);
        output.lend(10)[..3].copy_from_slice(b"abc");
        assert_eq!(
            output.first_difference(b"abcd"),
            Some((3, output.pattern[GUARD + 3], b'd'))
        );
        assert_eq!(
            output.first_difference(b""),
            Some((0, b'a', output.pattern[GUARD]))
        );
        assert_eq!(output.lend(0).len(), 0);
        assert_eq!(output.first_difference(b""), None);
    }

    #[test]
    fn what_a_longer_call_left_is_gone() {
        let mut output = Output::new(100);
        output.lend(100).fill(b'x');
        output.lend(2);
        assert!(output.held.iter().all(|byte| RUBBISH.contains(byte)));
    }
}
