//! Printing and counting: bytes in hexadecimal, and how often each answer came.

use std::collections::BTreeMap;
use std::fmt::Debug;
use std::fs;
use std::path::PathBuf;

pub fn hex(bytes: &[u8]) -> String {
    bytes.iter().map(|b| format!("{b:02X}")).collect()
}

/// The bytes of a hexadecimal text; spaces are passed over.
pub fn bytes_of(text: &str) -> Vec<u8> {
    let digits: Vec<u32> = text.chars().filter_map(|c| c.to_digit(16)).collect();
    digits
        .chunks(2)
        .map(|pair| (16 * pair[0] + pair[1]) as u8)
        .collect()
}

/// Saves a case under target/failed as `roster.bin` and `events.bin`, which the program can be run on, and names the folder.
pub fn save(test: &str, seed: u64, roster: &[u8], events: &[u8]) -> String {
    let folder =
        PathBuf::from(env!("CARGO_MANIFEST_DIR")).join(format!("../target/failed/{test}-{seed}"));
    let written = fs::create_dir_all(&folder)
        .and_then(|()| fs::write(folder.join("roster.bin"), roster))
        .and_then(|()| fs::write(folder.join("events.bin"), events));
    match written {
        Ok(()) => format!("saved in target/failed/{test}-{seed}"),
        Err(error) => format!("not saved: {error}"),
    }
}

/// Those that are so.
pub fn seen<K, const N: usize>(all: [(K, bool); N]) -> Vec<K> {
    let seen = all.into_iter().filter(|(_, seen)| *seen);
    seen.map(|(what, _)| what).collect()
}

/// How often each answer, or whatever else is counted, came.
pub struct Histogram<K = u8> {
    counts: BTreeMap<K, usize>,
}

impl<K: Copy + Ord + Debug> Histogram<K> {
    pub fn new() -> Histogram<K> {
        Histogram {
            counts: BTreeMap::new(),
        }
    }

    pub fn count(&mut self, key: K) {
        *self.counts.entry(key).or_insert(0) += 1;
    }

    pub fn of(&self, key: K) -> usize {
        self.counts.get(&key).copied().unwrap_or(0)
    }

    /// How often the one of these came that came the least.
    pub fn least(&self, keys: &[K]) -> usize {
        let times = keys.iter().map(|key| self.of(*key));
        times.min().unwrap_or(0)
    }

    pub fn print(&self, title: &str) {
        println!("{title}");
        for (key, times) in &self.counts {
            println!("  {key:3?} {times}");
        }
    }

    /// Fails where one of these came fewer than `least` times.
    pub fn require(&self, keys: &[K], least: usize) {
        for key in keys {
            let times = self.of(*key);
            assert!(times >= least, "{key:?} came {times} times");
        }
    }

    /// Fails where anything but these came.
    pub fn require_no_other(&self, keys: &[K]) {
        for (key, times) in &self.counts {
            assert!(keys.contains(key), "{key:?} came {times} times");
        }
    }
}

impl<K: Copy + Ord + Debug> Default for Histogram<K> {
    fn default() -> Histogram<K> {
        Histogram::new()
    }
}
