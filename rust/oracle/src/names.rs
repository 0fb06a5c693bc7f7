//! The code points of names, in queries and in records.

/// The code points that these bytes between quotes stand for. Escapes mean the same in RFC 8259,
/// section 7, and in RFC 9535, section 2.3.1.1: `\u` gives a UTF-16 code unit, and two of them that
/// are a surrogate pair are one code point; a half that stands alone stays as its number.
///
/// # Panics
///
/// If the bytes are no UTF-8 or an escape is broken: no name that is read is so.
pub fn code_points(written: &[u8]) -> Vec<u32> {
    let text = std::str::from_utf8(written).expect("a name is UTF-8");
    let mut units: Vec<u16> = Vec::new();
    let mut rest = text.chars();
    while let Some(character) = rest.next() {
        if character != '\\' {
            units.extend(character.encode_utf16(&mut [0; 2]).iter());
            continue;
        }
        units.push(match rest.next().expect("an escape is whole") {
            'u' => {
                let digits: String = rest.by_ref().take(4).collect();
                u16::from_str_radix(&digits, 16).expect("four hexadecimal digits")
            }
            'b' => 0x08,
            't' => 0x09,
            'n' => 0x0A,
            'f' => 0x0C,
            'r' => 0x0D,
            itself => u16::try_from(u32::from(itself)).expect("a quote, a slash or a backslash"),
        });
    }
    let points = char::decode_utf16(units);
    points
        .map(|point| point.map_or_else(|half| u32::from(half.unpaired_surrogate()), u32::from))
        .collect()
}
