//! The notation of the files of cases (`docs/SAMPLES.md`): lines of a word and a text, in which
//! `~65;` is a byte by its number and `~512([)` a word so many times.

/// A line: its first word, and the text behind the space.
pub fn words(line: &str) -> (&str, &str) {
    line.split_once(' ').unwrap_or((line, ""))
}

/// The bytes that a text stands for, or what is wrong with it.
pub fn bytes(text: &str) -> Result<Vec<u8>, String> {
    let mut pieces = text.split('~');
    let mut bytes = pieces.next().unwrap_or_default().as_bytes().to_vec();
    for piece in pieces {
        bytes.extend(marked(piece).ok_or_else(|| format!("`~{piece}` in `{text}`"))?);
    }
    Ok(bytes)
}

/// The bytes of what stands between a mark and the next one.
fn marked(piece: &str) -> Option<Vec<u8>> {
    let digits = piece.find(|c: char| !c.is_ascii_digit())?;
    let (number, rest) = piece.split_at(digits);
    if let Some(rest) = rest.strip_prefix(';') {
        return Some([&[number.parse().ok()?], rest.as_bytes()].concat());
    }
    let (word, rest) = rest.strip_prefix('(')?.split_once(')')?;
    Some([word.repeat(number.parse().ok()?).as_bytes(), rest.as_bytes()].concat())
}

/// Bytes as a text: a control, a mark and a space at either end by their numbers.
pub fn text(bytes: &str) -> String {
    let last = bytes.chars().count().saturating_sub(1);
    let piece = |(at, c): (usize, char)| match c {
        ' ' if at == 0 || at == last => "~32;".to_string(),
        '~' | '\0'..='\x1F' | '\x7F' => format!("~{};", c as u32),
        _ => c.to_string(),
    };
    bytes.chars().enumerate().map(piece).collect()
}

#[cfg(test)]
mod tests {
    use super::{bytes, text};

    #[test]
    fn pieces() {
        assert_eq!(bytes("a~3(.*)~0(x)~1()b~126;~239;"), Ok(b"a.*.*.*b~\xEF".to_vec()));
        for wrong in ["~", "~3", "~3(x", "~256;", "~;", "~(x)", "~x;", "a~-1;"] {
            assert!(bytes(wrong).is_err(), "{wrong}");
        }
    }

    #[test]
    fn there_and_back() {
        for all in ["", " ", " a b ", "\n\r\t\0\x7F~~1(", "\u{E9}\u{FEFF}\u{1F600}"] {
            assert_eq!(bytes(&text(all)), Ok(all.as_bytes().to_vec()));
        }
    }
}
