//! Normalized paths (RFC 9535, section 2.7).

use crate::json::{Node, Tree};

/// The nodes on the way from the root down to and with a node, without the root.
fn way<'a>(tree: &'a Tree, node: &'a Node) -> Vec<&'a Node> {
    let mut way = Vec::new();
    let mut here = node;
    while let Some(parent) = here.parent {
        way.push(here);
        here = &tree.nodes[parent as usize];
    }
    way.reverse();
    way
}

/// `normal-single-quoted`: a character between single quotes.
fn normal_single_quoted(character: char) -> String {
    match character {
        '\u{08}' => r"\b".to_string(),
        '\u{09}' => r"\t".to_string(),
        '\u{0A}' => r"\n".to_string(),
        '\u{0C}' => r"\f".to_string(),
        '\u{0D}' => r"\r".to_string(),
        '\'' => r"\'".to_string(),
        '\\' => r"\\".to_string(),
        '\u{00}'..='\u{1F}' => format!("\\u{:04x}", u32::from(character)),
        _ => character.to_string(),
    }
}

/// `normal-name-selector` for a name of these code points. Half of a surrogate pair is no character,
/// and there is none for a name that has one.
fn normal_name_selector(points: &[u32]) -> Option<String> {
    let characters = points.iter().map(|&point| char::from_u32(point).map(normal_single_quoted));
    let quoted: String = characters.collect::<Option<_>>()?;
    Some(format!("'{quoted}'"))
}

/// The normalized path of a node; or, where a name on the way to it, or its own, has half of a surrogate
/// pair, the place of the opening quote of the first such name.
pub fn normalized_path(record: &[u8], tree: &Tree, node: &Node) -> Result<String, usize> {
    let mut path = String::from("$");
    for node in way(tree, node) {
        let selector = match (node.name, node.position) {
            (Some((start, _)), _) => {
                let points = node.name_points(record).expect("a member has a name");
                normal_name_selector(&points).ok_or(start as usize - 1)?
            }
            (None, position) => position.expect("an element has a position").to_string(),
        };
        path += &format!("[{selector}]");
    }
    Ok(path)
}
