//! Words of the text form: tokens, numbers, strings and names.

/// One word of a line.
#[derive(Clone, PartialEq, Eq, Debug)]
pub enum Token {
    /// A letter or `_`, then letters, digits, `_`, `.` and `$`.
    Word(String),
    /// A decimal, `0x` or `0b` number, 64-bit limbs low first.
    Number(Vec<u64>),
    /// A constant with its width, such as `8'hfe`.
    Literal(u32, Vec<u64>),
    /// A record by its number, such as `@12`.
    Record(u32),
    /// Bytes in double quotes.
    Text(Vec<u8>),
    /// One of `= ( ) [ ] :`.
    Mark(char),
}

/// Splits a line into tokens; `#` begins a comment.
pub fn tokens(line: &str) -> Result<Vec<Token>, String> {
    let bytes = line.as_bytes();
    let mut tokens = Vec::new();
    let mut at = 0;
    while at < bytes.len() {
        match bytes[at] {
            b' ' | b'\t' | b'\r' => at += 1,
            b'#' => break,
            b'"' => {
                let (text, end) = string(bytes, at + 1)?;
                tokens.push(Token::Text(text));
                at = end;
            }
            mark @ (b'=' | b'(' | b')' | b'[' | b']' | b':') => {
                tokens.push(Token::Mark(mark as char));
                at += 1;
            }
            first if first.is_ascii_alphanumeric() || first == b'_' || first == b'@' => {
                let end = word_end(bytes, at + 1);
                tokens.push(word(&line[at..end])?);
                at = end;
            }
            _ => {
                return Err(format!(
                    "stray character '{}'",
                    line[at..].chars().next().unwrap_or(' ')
                ))
            }
        }
    }
    Ok(tokens)
}

fn word_end(bytes: &[u8], mut at: usize) -> usize {
    while at < bytes.len() && (is_name_byte(bytes[at]) || bytes[at] == b'\'') {
        at += 1;
    }
    at
}

fn is_name_byte(byte: u8) -> bool {
    byte.is_ascii_alphanumeric() || matches!(byte, b'_' | b'.' | b'$')
}

/// Whether these bytes can stand in the text as a name.
pub fn is_name(bytes: &[u8]) -> bool {
    bytes
        .first()
        .is_some_and(|first| first.is_ascii_alphabetic() || *first == b'_')
        && bytes.iter().all(|byte| is_name_byte(*byte))
}

fn word(text: &str) -> Result<Token, String> {
    if let Some(record) = text.strip_prefix('@') {
        return small(&number(record)?).map(Token::Record);
    }
    if let Some((width, value)) = text.split_once('\'') {
        return literal(width, value).ok_or(format!("'{text}' is not a constant"));
    }
    if text.as_bytes()[0].is_ascii_digit() {
        return number(text).map(Token::Number);
    }
    Ok(Token::Word(text.to_string()))
}

fn literal(width: &str, value: &str) -> Option<Token> {
    let width = width.parse().ok()?;
    let base = match value.as_bytes().first()? {
        b'h' => 16,
        b'd' => 10,
        b'b' => 2,
        _ => return None,
    };
    Some(Token::Literal(width, digits(&value[1..], base)?))
}

/// Reads a decimal, `0x` or `0b` number of any length.
pub fn number(text: &str) -> Result<Vec<u64>, String> {
    let (text_digits, base) = match text.get(..2) {
        Some("0x") => (&text[2..], 16),
        Some("0b") => (&text[2..], 2),
        _ => (text, 10),
    };
    digits(text_digits, base).ok_or(format!("'{text}' is not a number"))
}

fn digits(text: &str, base: u32) -> Option<Vec<u64>> {
    let mut limbs = vec![0u64];
    let mut any = false;
    for letter in text.chars().filter(|letter| *letter != '_') {
        let mut carry = u128::from(letter.to_digit(base)?);
        for limb in &mut limbs {
            let value = u128::from(*limb) * u128::from(base) + carry;
            *limb = value as u64;
            carry = value >> 64;
        }
        if carry != 0 {
            limbs.push(carry as u64);
        }
        any = true;
    }
    any.then_some(limbs)
}

/// A number that must fit a field.
pub fn small(limbs: &[u64]) -> Result<u32, String> {
    match limbs {
        [value] if *value <= u64::from(u32::MAX) => Ok(*value as u32),
        _ => Err("number above 4294967295".to_string()),
    }
}

fn string(bytes: &[u8], mut at: usize) -> Result<(Vec<u8>, usize), String> {
    let mut text = Vec::new();
    loop {
        match bytes.get(at) {
            None => return Err("text without closing quote".to_string()),
            Some(b'"') => return Ok((text, at + 1)),
            Some(b'\\') => {
                let (byte, end) = escape(bytes, at + 1).ok_or("unknown escape in text")?;
                text.push(byte);
                at = end;
            }
            Some(byte) if byte.is_ascii() => {
                text.push(*byte);
                at += 1;
            }
            Some(_) => return Err("byte above 126 in text, write it as \\xNN".to_string()),
        }
    }
}

fn escape(bytes: &[u8], at: usize) -> Option<(u8, usize)> {
    match bytes.get(at)? {
        byte @ (b'"' | b'\\') => Some((*byte, at + 1)),
        b'x' => {
            let hex = std::str::from_utf8(bytes.get(at + 1..at + 3)?).ok()?;
            Some((u8::from_str_radix(hex, 16).ok()?, at + 3))
        }
        _ => None,
    }
}

/// The bytes as a quoted text.
pub fn quote(bytes: &[u8]) -> String {
    let mut text = String::from("\"");
    for byte in bytes {
        match byte {
            b'"' | b'\\' => {
                text.push('\\');
                text.push(*byte as char);
            }
            32..=126 => text.push(*byte as char),
            _ => text.push_str(&format!("\\x{byte:02x}")),
        }
    }
    text.push('"');
    text
}
