//! Making an input smaller while it still shows what was found.

/// The most inputs that are tried.
const TRIES: usize = 500;

/// A smaller input that still `shows` it: pieces are left out, large ones first.
pub fn shrink(input: &[u8], shows: impl Fn(&[u8]) -> bool) -> Vec<u8> {
    let mut best = input.to_vec();
    let mut tries = 0;
    let mut piece = best.len().div_ceil(2);
    while piece > 0 {
        let mut at = 0;
        while at < best.len() && tries < TRIES {
            let shorter = without(&best, at, piece);
            tries += 1;
            if shows(&shorter) {
                best = shorter;
            } else {
                at += piece;
            }
        }
        piece /= 2;
    }
    best
}

/// The bytes without `count` of them from `at` on.
fn without(bytes: &[u8], at: usize, count: usize) -> Vec<u8> {
    let end = bytes.len().min(at + count);
    [&bytes[..at], &bytes[end..]].concat()
}

#[cfg(test)]
mod tests {
    use super::shrink;

    #[test]
    fn what_does_not_matter_is_left_out() {
        let input = b"some long text with an x and later a y in it";
        let shows = |bytes: &[u8]| bytes.contains(&b'x') && bytes.contains(&b'y');
        assert_eq!(shrink(input, shows), b"xy");
    }

    #[test]
    fn an_input_that_matters_whole_stays() {
        assert_eq!(shrink(b"abc", |bytes| bytes == b"abc"), b"abc");
        assert_eq!(shrink(b"", |_| true), b"");
    }
}
