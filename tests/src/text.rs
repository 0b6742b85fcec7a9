//! Bytes, lines, fields and numbers, as the chart file and the go line share them.

pub const TAB: u8 = b'\t';
pub const LINE_FEED: u8 = b'\n';

/// Stands for every magnitude that no rule allows, so that digits of any count
/// are judged without overflow.
const BEYOND: i64 = 1_000_000_000;

pub fn is_allowed(byte: u8) -> bool {
    matches!(byte, TAB | LINE_FEED | 0x21..=0x7E)
}

pub fn count_line_feeds(text: &[u8]) -> usize {
    text.iter().filter(|&&byte| byte == LINE_FEED).count()
}

/// The lines of a text whose last line is ended, without their line feeds.
pub fn lines(text: &[u8]) -> impl Iterator<Item = &[u8]> {
    text.split_inclusive(|&byte| byte == LINE_FEED)
        .map(|line| line.strip_suffix(&[LINE_FEED]).unwrap_or(line))
}

pub fn fields(line: &[u8]) -> impl Iterator<Item = &[u8]> {
    line.split(|&byte| byte == TAB)
}

/// The value of a well-formed number; magnitudes from `BEYOND` on all give `BEYOND`.
pub fn number(field: &[u8]) -> Option<i64> {
    let (is_negative, digits) = match field {
        [b'-', digits @ ..] => (true, digits),
        digits => (false, digits),
    };
    match digits {
        [b'0'] if !is_negative => Some(0),
        [b'1'..=b'9', ..] if digits.iter().all(u8::is_ascii_digit) => {
            let magnitude = digits.iter().fold(0, |magnitude: i64, digit| {
                (magnitude * 10 + i64::from(digit - b'0')).min(BEYOND)
            });
            Some(if is_negative { -magnitude } else { magnitude })
        }
        _ => None,
    }
}

#[cfg(test)]
mod tests {
    use super::*;

    #[test]
    fn numbers_have_one_spelling() {
        assert_eq!(number(b"0"), Some(0));
        assert_eq!(number(b"-32768"), Some(-32768));
        assert_eq!(number(b"10"), Some(10));
        for malformed in
            ["", "-", "-0", "00", "07", "-07", "+1", "--1", "1-", "0x1", "1a", "*", "$0"]
        {
            assert_eq!(number(malformed.as_bytes()), None, "{malformed}");
        }
    }

    #[test]
    fn digits_never_wrap_around() {
        for digits in ["1000000000", "4294967296", "18446744073709551616", &"9".repeat(30_000)] {
            assert_eq!(number(digits.as_bytes()), Some(BEYOND));
            assert_eq!(number(format!("-{digits}").as_bytes()), Some(-BEYOND));
        }
        assert_eq!(number(b"999999999"), Some(999_999_999));
    }

    #[test]
    fn lines_and_fields_keep_empty_ones() {
        let all: Vec<&[u8]> = lines(b"a\n\nb\n").collect();
        assert_eq!(all, [&b"a"[..], b"", b"b"]);
        assert_eq!(lines(b"").count(), 0);
        let all: Vec<&[u8]> = fields(b"a\t\tb\t").collect();
        assert_eq!(all, [&b"a"[..], b"", b"b", b""]);
    }
}
