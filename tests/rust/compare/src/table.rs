//! How many inputs met each outcome.

use std::collections::BTreeMap;

#[derive(Clone, Default)]
pub struct Table {
    rows: BTreeMap<String, u64>,
}

impl Table {
    pub fn add(&mut self, row: &str, n: u64) {
        if n == 0 {
            return;
        }
        if let Some(v) = self.rows.get_mut(row) {
            *v += n;
        } else {
            self.rows.insert(row.to_string(), n);
        }
    }

    /// An answer of a call.
    pub fn answer(&mut self, number: u32) {
        const NAMES: [&str; 23] = [
            "answer  0",
            "answer  1",
            "answer  2",
            "answer  3",
            "answer  4",
            "answer  5",
            "answer  6",
            "answer  7",
            "answer  8",
            "answer  9",
            "answer 10",
            "answer 11",
            "answer 12",
            "answer 13",
            "answer 14",
            "answer 15",
            "answer 16",
            "answer 17",
            "answer 18",
            "answer 19",
            "answer 20",
            "answer 21",
            "answer 22",
        ];
        self.add(NAMES.get(number as usize).copied().unwrap_or("answer of no meaning"), 1);
    }

    pub fn join(&mut self, other: &Table) {
        for (row, n) in &other.rows {
            self.add(row, *n);
        }
    }

    pub fn get(&self, row: &str) -> u64 {
        self.rows.get(row).copied().unwrap_or(0)
    }

    pub fn answers(&self, number: u32) -> u64 {
        self.get(&format!("answer {number:2}"))
    }

    pub fn print(&self) {
        for (row, n) in &self.rows {
            println!("    {row:<32} {:>15}", spaced(*n));
        }
    }
}

/// 1234567 as 1,234,567.
pub fn spaced(n: u64) -> String {
    let digits = n.to_string();
    let mut out = String::new();
    for (k, d) in digits.chars().enumerate() {
        if k > 0 && (digits.len() - k) % 3 == 0 {
            out.push(',');
        }
        out.push(d);
    }
    out
}
