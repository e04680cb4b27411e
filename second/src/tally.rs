//! How often each of a list of named branches was taken.

use std::collections::BTreeMap;

pub struct Tally {
    /// In the order in which they are shown.
    names: Vec<String>,
    taken: BTreeMap<String, u64>,
}

impl Tally {
    pub fn new(names: Vec<String>) -> Tally {
        let taken = names.iter().map(|name| (name.clone(), 0)).collect();
        Tally { names, taken }
    }

    /// A name that is not listed would be counted and never asked for.
    pub fn add(&mut self, name: &str) {
        *self.taken.get_mut(name).unwrap_or_else(|| panic!("branch {:?} is not listed", name)) += 1;
    }

    /// Name and count in the order of the list.
    pub fn table(&self) -> Vec<(String, u64)> {
        self.names.iter().map(|name| (name.clone(), self.taken[name])).collect()
    }
}

/// Each name that has the mark once for each of the words, in its place.
pub fn expanded(names: Vec<String>, mark: char, words: &[&str]) -> Vec<String> {
    let each = |name: String| match name.contains(mark) {
        true => words.iter().map(|word| name.replace(mark, word)).collect(),
        false => vec![name],
    };
    names.into_iter().flat_map(each).collect()
}
