//! How much of a record the jumping walk leaves unseen.

use oracle::{marks, read_steps, Tree};

/// The share of the record's bytes that lie in dead containers, which have no marks.
pub fn share(query: &[u8], record: &[u8]) -> Result<f64, String> {
    let steps = read_steps(query).map_err(|place| format!("no query, at {place}"))?;
    let tree = Tree::of(record).map_err(|place| format!("no JSON text, at {place}"))?;
    let marks = marks(&steps, record, &tree);
    let is_dead = |index: usize| {
        tree.nodes[index].kind.is_container() && !marks.iter().any(|marked| marked[index])
    };
    let mut bytes = 0;
    for (index, node) in tree.nodes.iter().enumerate() {
        // What lies in a dead container is counted with it.
        let in_another = node.parent.is_some_and(|parent| is_dead(parent as usize));
        if is_dead(index) && !in_another {
            bytes += node.end - node.start;
        }
    }
    Ok(f64::from(bytes) / record.len() as f64)
}

#[cfg(test)]
mod tests {
    use super::share;

    #[test]
    fn shares() {
        let record = br#"{"a":[1,[2]],"b":{}}"#;
        assert_eq!(share(b"$", record), Ok(1.0));
        assert_eq!(share(b"$..*", record), Ok(0.0));
        assert_eq!(share(b"$.b.c", record), Ok(7.0 / 20.0));
        assert_eq!(share(b"$.a.*", record), Ok(5.0 / 20.0));
    }
}
