//! The five records that measurements are made on, each of about as many bytes as asked.

use crate::Random;

/// The bytes of a record for measurements: below the limit of 16,777,216.
pub const LARGE: usize = 15_000_000;

/// A generator of a record of about this many bytes.
pub type Generator = fn(usize) -> Vec<u8>;

/// The five records by name.
pub const ALL: [(&str, Generator); 5] =
    [("feed", feed), ("escaped", escaped), ("numbers", numbers), ("deep", deep), ("tiny", tiny)];

/// Writes an array of items, without blanks, up to about `size` bytes.
fn array(size: usize, mut item: impl FnMut(&mut String)) -> Vec<u8> {
    let mut out = String::with_capacity(size + 65_536);
    out.push('[');
    while out.len() < size {
        if out.len() > 1 {
            out.push(',');
        }
        item(&mut out);
    }
    out.push(']');
    out.into_bytes()
}

/// Parts of running text: plain, with code points of two to four bytes, with escapes.
const TEXT: [&str; 24] = [
    "olives ",
    "from the upper grove ",
    "pressed at dawn ",
    "batch ",
    "quality ",
    "today ",
    "RT ",
    "über ",
    "prés ",
    "año ",
    "č ",
    "日本の",
    "オリーブ",
    "油を",
    "絞る",
    "今朝",
    "🫒",
    "😀 ",
    "𝄞",
    r"\n",
    r#"\"cold\" "#,
    r"http:\/\/example.org\/",
    r"\u3042\u3044",
    r"C:\\press\\ ",
];

fn text(random: &mut Random, longest: usize) -> String {
    (0..random.between(1, longest)).map(|_| *random.one_of(&TEXT)).collect()
}

const PEOPLE: [&str; 8] =
    ["maría", "Yannis", "小林", "Aïcha", "Luca", "Ó Briain", "Zeynep", "petra_k"];
const TAGS: [&str; 6] = ["harvest", "収穫", "aceite", "mill", "blend", "lot"];
const LANGUAGES: [&str; 5] = ["en", "ja", "es", "el", "it"];

/// The hashtags of a message, each on a line of its own.
fn hashtags(random: &mut Random) -> String {
    let tag = |random: &mut Random| {
        let (tag, from) = (*random.one_of(&TAGS), random.below(100));
        let to = from + tag.chars().count();
        format!("\n          {{ \"text\": \"{tag}\", \"indices\": [{from}, {to}] }}")
    };
    let tags: Vec<String> = (0..random.below(3)).map(|_| tag(random)).collect();
    tags.join(",")
}

/// One message of the feed, written over many lines.
fn message(random: &mut Random, id: u64, out: &mut String) {
    let (language, author) = (random.one_of(&LANGUAGES), random.one_of(&PEOPLE));
    let (text, description) = (text(random, 20), text(random, 12));
    let (user, followers) = (random.below(100_000), random.below(5_000));
    let (verified, favorited) = (random.once_in(9), random.once_in(2));
    let (hashtags, retweets) = (hashtags(random), random.below(1_000));
    out.push_str(&format!(
        r#"    {{
      "metadata": {{
        "result_type": "recent",
        "language": "{language}"
      }},
      "id": {id},
      "text": "{text}",
      "user": {{
        "id": {user},
        "name": "{author}",
        "description": "{description}",
        "followers_count": {followers},
        "verified": {verified}
      }},
      "entities": {{
        "hashtags": [{hashtags}
        ],
        "urls": []
      }},
      "retweet_count": {retweets},
      "coordinates": null,
      "favorited": {favorited}
    }}"#
    ));
}

/// A feed of messages, written over many lines, with code points of several bytes and escapes.
pub fn feed(size: usize) -> Vec<u8> {
    let mut random = Random::new(0xFEED);
    let mut out = String::with_capacity(size + 65_536);
    out.push_str("{\n  \"statuses\": [\n");
    let mut id = 505_874_924_095_815_681;
    message(&mut random, id, &mut out);
    while out.len() < size {
        id += random.between(1, 5_000) as u64;
        out.push_str(",\n");
        message(&mut random, id, &mut out);
    }
    out.push_str("\n  ],\n  \"search_metadata\": { \"count\": 100, \"query\": \"オリーブ\" }\n}\n");
    out.into_bytes()
}

/// The feed with the first letter of each name written as an escape.
pub fn escaped(size: usize) -> Vec<u8> {
    let feed = String::from_utf8(feed(size / 10 * 9)).expect("a feed is text");
    let mut out = String::with_capacity(size + 65_536);
    let mut rest = feed.as_str();
    while let Some(at) = rest.find("\":") {
        let start = rest[..at].rfind('"').expect("a name begins with a quote") + 1;
        let letter = u32::from(rest.as_bytes()[start]);
        out.push_str(&format!("{}\\u{letter:04x}{}\":", &rest[..start], &rest[start + 1..at]));
        rest = &rest[at + 2..];
    }
    out.push_str(rest);
    out.into_bytes()
}

/// Outlines as arrays of points: nearly every value is a number with a fraction.
pub fn numbers(size: usize) -> Vec<u8> {
    let mut random = Random::new(0x0123);
    array(size, |out| {
        out.push_str(r#"{"type":"Feature","area":"#);
        out.push_str(&format!("{}e{}", random.below(900) + 1, random.below(9)));
        out.push_str(r#","coordinates":["#);
        for point in 0..random.between(20, 400) {
            let comma = if point > 0 { "," } else { "" };
            let (degrees, east) = (random.below(180) as i64 - 90, random.below(1_000_000_000));
            let (minutes, north) = (random.below(360) as i64 - 180, random.below(1_000_000_000));
            out.push_str(&format!("{comma}[{degrees}.{east:09},{minutes}.{north:09}]"));
        }
        out.push_str("]}");
    })
}

/// Blends inside blends: many chains of containers, the deepest of 512 levels with the root.
pub fn deep(size: usize) -> Vec<u8> {
    let mut random = Random::new(0xDEE9);
    array(size, |out| {
        let mut closing = String::new();
        for level in 0..random.between(1, 511) {
            if random.once_in(3) {
                out.push_str(&format!("[{level},"));
                closing.push(']');
            } else {
                let name = random.one_of(&["blend", "lot", "tank", "press"]);
                out.push_str(&format!("{{\"t\":{level},\"{name}\":"));
                closing.push('}');
            }
        }
        out.push_str(&random.below(1_000).to_string());
        out.extend(closing.chars().rev());
    })
}

/// Many small objects whose members are mostly empty or tiny containers.
pub fn tiny(size: usize) -> Vec<u8> {
    let mut random = Random::new(0x7147);
    let shapes = ["{}", "[]", "[1]", "[[],[]]", r#"{"k":0}"#, r#"{"k":[],"m":{}}"#, r#"["]}"]"#];
    array(size, |out| {
        out.push('{');
        for number in 0..random.between(3, 12) {
            out.push_str(&format!("\"n{number}\":{},", random.one_of(&shapes)));
        }
        let name = if random.once_in(50) { "lot" } else { "lots" };
        out.push_str(&format!("\"{name}\":{{\"w\":{}}}}}", random.below(5_000)));
    })
}
