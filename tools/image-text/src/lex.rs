//! The words, names, numbers and marks of a text.

/// Words that are written in quotes when they are names.
pub const RESERVED: [&str; 16] = [
    "this", "literal", "static", "noop", "delete", "obj", "intrinsic", "return", "let", "const", "if", "else", "while", "break",
    "continue", "plain",
];

#[derive(Clone, Debug, PartialEq)]
pub enum Token {
    Word(String),
    Quoted(Vec<u8>),
    Number(u64),
    Mark(char),
    End,
}

/// Letters, digits and underscores, no digit first, perhaps several joined by `::`.
pub fn is_identifier(bytes: &[u8]) -> bool {
    word_length(bytes) == bytes.len() && !bytes.is_empty()
}

fn begins_word(b: Option<&u8>) -> bool {
    b.is_some_and(|b| b.is_ascii_alphabetic() || *b == b'_')
}

// How many of the first bytes are one word.
fn word_length(bytes: &[u8]) -> usize {
    if !begins_word(bytes.first()) {
        return 0;
    }
    let mut n = 0;
    loop {
        n += bytes[n..].iter().take_while(|b| b.is_ascii_alphanumeric() || **b == b'_').count();
        if !bytes[n..].starts_with(b"::") || !begins_word(bytes.get(n + 2)) {
            return n;
        }
        n += 2;
    }
}

/// Where the next token begins.
pub fn skip_blanks(text: &[u8], mut at: usize) -> usize {
    loop {
        at += text[at..].iter().take_while(|b| b.is_ascii_whitespace()).count();
        if !text[at..].starts_with(b"//") {
            return at;
        }
        at += text[at..].iter().take_while(|b| **b != b'\n').count();
    }
}

/// The token that begins there and where it ends; or a place and what is wrong.
pub fn token(text: &[u8], at: usize) -> Result<(Token, usize), (usize, String)> {
    let rest = &text[at..];
    let Some(&first) = rest.first() else { return Ok((Token::End, at)) };
    let word = word_length(rest);
    if word > 0 {
        return Ok((Token::Word(String::from_utf8_lossy(&rest[..word]).into_owned()), at + word));
    }
    match first {
        b'0'..=b'9' => number(text, at),
        b'"' => quoted(text, at),
        _ if b"@:;,.()[]{}<>#=-!&*".contains(&first) => Ok((Token::Mark(first.into()), at + 1)),
        b'!'..=b'~' => Err((at, format!("`{}` has no meaning here", char::from(first)))),
        _ => Err((at, format!("byte {first} outside quotes"))),
    }
}

fn number(text: &[u8], at: usize) -> Result<(Token, usize), (usize, String)> {
    let digits = text[at..].iter().take_while(|b| b.is_ascii_digit()).count();
    let end = at + digits;
    let value = String::from_utf8_lossy(&text[at..end]).parse();
    if begins_word(text.get(end)) {
        return Err((at, "a name can't begin with a digit: quote it".into()));
    }
    value.map(|n| (Token::Number(n), end)).map_err(|_| (at, "a number that is too large".into()))
}

fn quoted(text: &[u8], start: usize) -> Result<(Token, usize), (usize, String)> {
    let (mut bytes, mut at) = (vec![], start + 1);
    loop {
        match text.get(at) {
            None | Some(b'\n') => return Err((start, "a quoted name without its end".into())),
            Some(b'"') => return Ok((Token::Quoted(bytes), at + 1)),
            Some(b'\\') => {
                let (byte, length) = escaped(&text[at..]).ok_or((at, "after `\\` comes `\\`, `\"` or `x` and two digits".to_string()))?;
                bytes.push(byte);
                at += length;
            }
            Some(&b) => {
                bytes.push(b);
                at += 1;
            }
        }
    }
}

fn escaped(rest: &[u8]) -> Option<(u8, usize)> {
    match rest.get(1)? {
        b'x' => {
            let digits = std::str::from_utf8(rest.get(2..4)?).ok()?;
            let hex = digits.bytes().all(|b| b.is_ascii_hexdigit());
            hex.then(|| u8::from_str_radix(digits, 16).ok().map(|b| (b, 4)))?
        }
        b @ (b'\\' | b'"') => Some((*b, 2)),
        _ => None,
    }
}
