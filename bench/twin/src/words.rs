//! Words and numbers of scripts (docs/SCRIPT.md, "Bytes, lines and words").

/// A number is 1 to 20 digits and below 2^64.
pub fn number(word: &[u8]) -> Option<u64> {
    if !(1..=20).contains(&word.len()) {
        return None;
    }
    word.iter().try_fold(0u64, |sum, byte| {
        let digit = byte.checked_sub(b'0').filter(|&digit| digit <= 9)?;
        sum.checked_mul(10)?.checked_add(u64::from(digit))
    })
}
