//! Decimal numbers in text.

/// Appends `value` in decimal, without leading zeros.
pub(crate) fn push(out: &mut Vec<u8>, mut value: u64) {
    let mut digits = [0; 20];
    let mut first = digits.len();
    loop {
        first -= 1;
        digits[first] = b'0' + (value % 10) as u8;
        value /= 10;
        if value == 0 {
            break;
        }
    }
    out.extend_from_slice(&digits[first..]);
}

/// How many bytes at the front of `text` are digits.
pub(crate) fn digits(text: &[u8]) -> usize {
    text.iter().take_while(|byte| byte.is_ascii_digit()).count()
}

/// The value of digits, or the greatest `usize` if it is larger.
pub(crate) fn value(digits: &[u8]) -> usize {
    digits.iter().fold(0_usize, |value, digit| {
        value
            .saturating_mul(10)
            .saturating_add(usize::from(digit - b'0'))
    })
}

/// Whether digits begin with a zero that is not the whole number.
pub(crate) fn has_leading_zero(digits: &[u8]) -> bool {
    digits.len() > 1 && digits[0] == b'0'
}

#[cfg(test)]
mod tests {
    use super::*;

    fn written(value: u64) -> Vec<u8> {
        let mut out = Vec::new();
        push(&mut out, value);
        out
    }

    #[test]
    fn writes_without_leading_zeros() {
        assert_eq!(written(0), b"0");
        assert_eq!(written(10), b"10");
        assert_eq!(written(1_000_000), b"1000000");
        assert_eq!(written(u64::MAX), b"18446744073709551615");
    }

    #[test]
    fn reads_to_the_last_digit() {
        assert_eq!(digits(b"120)"), 3);
        assert_eq!(digits(b""), 0);
        assert_eq!(value(b"120"), 120);
        assert_eq!(value(&[b'9'; 300]), usize::MAX);
        assert!(has_leading_zero(b"00") && !has_leading_zero(b"0"));
    }
}
