//! What a line of input is made of: words and numbers, as the console's paper has them.

/// "A line longer than 4,096 bytes (without its LF) is bad whatever is on it".
pub const LONGEST: usize = 4096;

/// The words of a line that has been freed of its LF, or nothing for a bad line. `ended`
/// says whether there was an LF: only "one CR right before the LF is passed over".
pub fn words(line: &[u8], ended: bool) -> Option<Vec<&[u8]>> {
    if line.len() > LONGEST {
        return None;
    }
    let line = match line {
        [rest @ .., b'\r'] if ended => rest,
        _ => line,
    };
    // "`#` starts a comment that runs to the end of the line, wherever it stands."
    let comment = line.iter().position(|byte| *byte == b'#');
    let said = &line[..comment.unwrap_or(line.len())];
    // "any other byte that is not printable ASCII outside a comment, makes the line a bad one".
    if said.iter().any(|byte| !matches!(byte, b'\t' | b' '..=b'~')) {
        return None;
    }
    let parts = said.split(|byte| matches!(byte, b' ' | b'\t'));
    Some(parts.filter(|word| !word.is_empty()).collect())
}

/// "A number is decimal digits, or `0x` and hexadecimal digits of either case. Leading zeros
/// are fine. No sign, no `_`, no `0X`." One above 64 bits is above every range.
pub fn number(word: &[u8]) -> Option<u64> {
    let (digits, base) = match word {
        [b'0', b'x', rest @ ..] => (rest, 16),
        _ => (word, 10),
    };
    if digits.is_empty() {
        return None;
    }
    let mut value = 0u64;
    for digit in digits {
        let digit = (*digit as char).to_digit(base)?;
        value = value.checked_mul(u64::from(base))?.checked_add(u64::from(digit))?;
    }
    Some(value)
}

/// The bytes of a word of a trace: two hexadecimal digits of either case for each byte.
pub fn bytes(word: &[u8]) -> Option<Vec<u8>> {
    if word.len() % 2 != 0 {
        return None;
    }
    let digit = |digit: u8| (digit as char).to_digit(16);
    word.chunks(2).map(|pair| Some((16 * digit(pair[0])? + digit(pair[1])?) as u8)).collect()
}
