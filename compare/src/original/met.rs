//! Which of document 01's numbers some replies have, by kind of frame and by walk.

use std::collections::BTreeMap;

/// How often each has been met.
#[derive(Default)]
pub struct Met {
    replies: BTreeMap<[u8; 4], u64>,
    walks: BTreeMap<(usize, [u8; 2]), u64>,
}

/// The numbers that each kind of reply can have.
const NUMBERS: [(&str, &str, &[&str]); 10] = [
    ("00", "fresh", &["00", "02"]),
    ("01", "report", &["00", "03", "04", "05", "06", "09"]),
    ("02", "withdraw", &["00", "03", "08"]),
    ("03", "own ship", &["00", "04", "05", "06"]),
    ("04", "track", &["00", "04", "05", "07"]),
    ("05", "solve", &["00", "03", "08", "0a", "0b"]),
    ("06", "mean", &["00", "10", "11"]),
    ("07", "pick", &["00", "13"]),
    ("08", "total", &["00"]),
    ("ff", "no frame", &["01"]),
];
/// The numbers of a line's outcomes.
const WALKS: [(&str, &[&str]); 3] = [
    ("closest approach", &["00", "0c", "0d", "0e", "0f"]),
    ("meeting", &["00", "0d", "0e", "0f"]),
    ("longest time", &["00", "0d", "0e", "0f"]),
];
/// Where a line's first number stands in its reply, and the digits of an outcome.
const FIRST_NUMBER: usize = 54;
const OUTCOME: usize = 20;

impl Met {
    pub fn add(&mut self, replies: &[u8]) {
        for reply in replies.split(|byte| *byte == b'\n') {
            let Some(head) = reply.first_chunk() else { continue };
            *self.replies.entry(*head).or_default() += 1;
            if head == b"0500" {
                for walk in 0..WALKS.len() {
                    let number = *reply[FIRST_NUMBER + walk * OUTCOME..].first_chunk().unwrap();
                    *self.walks.entry((walk, number)).or_default() += 1;
                }
            }
        }
    }

    /// Every kind of reply and every walk, with how often each of its numbers was met.
    fn rows(&self) -> Vec<(String, Vec<(&'static str, u64)>)> {
        let replies = NUMBERS.iter().map(|(kind, name, numbers)| {
            let head = |number: &str| -> [u8; 4] {
                [kind.as_bytes(), number.as_bytes()].concat().try_into().expect("four digits")
            };
            let count = |number: &str| self.replies.get(&head(number));
            (format!("{kind} {name}"), counts(numbers, count))
        });
        let walks = WALKS.iter().enumerate().map(|(walk, (name, numbers))| {
            let key = |number: &str| (walk, number.as_bytes().try_into().expect("two digits"));
            (format!("   {name}"), counts(numbers, |number| self.walks.get(&key(number))))
        });
        replies.chain(walks).collect()
    }

    /// The numbers that were not met.
    pub fn missing(&self) -> Vec<String> {
        let mut missing = Vec::new();
        for (name, counts) in self.rows() {
            let none = counts.iter().filter(|(_, count)| *count == 0);
            missing.extend(none.map(|(number, _)| format!("{} {number}", name.trim_start())));
        }
        missing
    }

    /// How often each number was met.
    pub fn print(&self) {
        for (name, counts) in self.rows() {
            let counts = counts.iter().map(|(number, count)| format!("{number} {count}"));
            println!("  {name:<22}{}", counts.collect::<Vec<_>>().join(", "));
        }
        let missing = self.missing();
        let names = if missing.is_empty() { "none".into() } else { missing.join(", ") };
        println!("  not met: {names}");
    }
}

fn counts<'a>(
    numbers: &[&'static str],
    count: impl Fn(&str) -> Option<&'a u64>,
) -> Vec<(&'static str, u64)> {
    numbers.iter().map(|number| (*number, count(number).copied().unwrap_or_default())).collect()
}
