//! Numbers as they are typed.

/// A number below 2^32, hexadecimal behind `0x`, else decimal; nothing else.
pub fn parse(text: &str) -> Option<u32> {
    let (digits, radix) = match text.strip_prefix("0x") {
        Some(digits) => (digits, 16),
        None => (text, 10),
    };
    // A sign is no digit, though the library function takes one.
    let is_number = digits.chars().all(|sign| sign.is_digit(radix));
    if !is_number {
        return None;
    }
    u32::from_str_radix(digits, radix).ok()
}

#[cfg(test)]
mod tests {
    use super::parse;

    #[test]
    fn numbers() {
        assert_eq!(parse("0"), Some(0));
        assert_eq!(parse("7000"), Some(7000));
        assert_eq!(parse("007"), Some(7));
        assert_eq!(parse("4294967295"), Some(u32::MAX));
        assert_eq!(parse("0xffffffff"), Some(u32::MAX));
        assert_eq!(parse("0x70A9add8"), Some(0x70a9_add8));
    }

    #[test]
    fn no_numbers() {
        for text in [
            "",
            "0x",
            "-1",
            "+1",
            "0x+1",
            "1.5",
            "7 ",
            "70a9add8",
            "4294967296",
            "0x100000000",
        ] {
            assert_eq!(parse(text), None, "{text}");
        }
    }
}
