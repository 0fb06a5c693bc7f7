//! What is asked of each record.

/// A query on a record: its steps, and a program of jq that gives the same nodes.
pub struct Job {
    pub record: &'static str,
    /// What the query is an example of.
    pub kind: &'static str,
    pub steps: &'static [&'static str],
    pub jq: &'static str,
}

impl Job {
    pub fn query(&self) -> String {
        format!("${}", self.steps.concat())
    }
}

/// The kinds of queries.
const CHECK: &str = "check";
pub const PLAIN: &str = "plain";
const DEEP: &str = "deep";
const STAR: &str = "everything";
const DEAD: &str = "dead parts";
const PLACED: &str = "position";
const ALL_PLACED: &str = "deep position";

const ALL_BELOW: &str = ".. | .[]?";

const fn job(
    record: &'static str,
    kind: &'static str,
    steps: &'static [&'static str],
    jq: &'static str,
) -> Job {
    Job { record, kind, steps, jq }
}

/// The nodes `t` below some `blend`: below the outermost ones, since those hold the others.
const T_BELOW_BLEND: &str = r#"
    def below: .. | objects | select(has("t")) | .t;
    def outermost:
        if type == "object" then to_entries[] | .key as $key | .value
            | if $key == "blend" then below else outermost end
        elif type == "array" then .[] | outermost
        else empty end;
    outermost"#;

/// The third element of every array.
const THIRDS: &str = ".. | arrays | select(length > 2) | .[2]";

/// Five queries on each record but the one with escapes, which has two, and queries with positions on
/// those with long arrays.
pub const JOBS: [Job; 25] = [
    job("feed", CHECK, &[], "."),
    job("feed", PLAIN, &[".statuses", ".*", ".user", ".name"], ".statuses[].user.name"),
    job("feed", DEEP, &["..id"], r#".. | objects | select(has("id")) | .id"#),
    job("feed", STAR, &["..*"], ALL_BELOW),
    job("feed", DEAD, &[".search_metadata", ".count"], ".search_metadata.count"),
    job("feed", PLACED, &[".statuses", "[100]", ".user", ".name"], ".statuses[100].user.name"),
    job("feed", ALL_PLACED, &["..[2]"], THIRDS),
    job("escaped", PLAIN, &[".statuses", ".*", ".user", ".name"], ".statuses[].user.name"),
    job("escaped", DEEP, &["..id"], r#".. | objects | select(has("id")) | .id"#),
    job("numbers", CHECK, &[], "."),
    job("numbers", PLAIN, &[".*", ".coordinates", ".*", ".*"], ".[].coordinates[][]"),
    job("numbers", DEEP, &["..area"], r#".. | objects | select(has("area")) | .area"#),
    job("numbers", STAR, &["..*"], ALL_BELOW),
    job("numbers", DEAD, &[".*", ".area"], ".[].area"),
    job("numbers", ALL_PLACED, &["..[2]"], THIRDS),
    job("deep", CHECK, &[], "."),
    job("deep", PLAIN, &[".*", ".blend", ".t"], ".[] | objects | .blend | objects | .t | numbers"),
    job("deep", DEEP, &["..blend", "..t"], T_BELOW_BLEND),
    job("deep", STAR, &["..*"], ALL_BELOW),
    job("deep", DEAD, &[".*", ".t"], ".[] | objects | .t"),
    job("tiny", CHECK, &[], "."),
    job("tiny", PLAIN, &[".*", ".n0"], ".[].n0"),
    job("tiny", DEEP, &["..k"], r#".. | objects | select(has("k")) | .k"#),
    job("tiny", STAR, &["..*"], ALL_BELOW),
    job("tiny", DEAD, &[".*", ".lot"], r#".[] | select(has("lot")) | .lot"#),
];

/// The queries that are asked of the record of 1 KB, a feed.
pub const SHORT_JOBS: [Job; 2] = [
    job("short", PLAIN, &[".statuses", ".*", ".user", ".name"], ""),
    job("short", DEEP, &["..id"], ""),
];

#[cfg(test)]
mod tests {
    use super::*;
    use records::large::ALL;

    /// Every job names a record that is made, and its query is taken and finds something.
    #[test]
    fn every_job() {
        for (name, generator) in ALL {
            let record = generator(300_000);
            let jobs: Vec<&Job> = JOBS.iter().filter(|job| job.record == name).collect();
            let kinds = match name {
                "feed" => &[CHECK, PLAIN, DEEP, STAR, DEAD, PLACED, ALL_PLACED][..],
                "escaped" => &[PLAIN, DEEP],
                "numbers" => &[CHECK, PLAIN, DEEP, STAR, DEAD, ALL_PLACED],
                _ => &[CHECK, PLAIN, DEEP, STAR, DEAD],
            };
            assert!(jobs.iter().map(|job| job.kind).eq(kinds.iter().copied()));
            for job in jobs {
                let nodes = woodcrock::list(job.query().as_bytes(), &record).map(|list| list.len());
                assert!(nodes.is_ok_and(|nodes| nodes > 0), "{}", job.query());
            }
        }
    }
}
