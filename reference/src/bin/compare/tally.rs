//! How many texts of each class were compared, and how many agreed.

use std::collections::BTreeMap;
use std::fmt;

#[derive(Default)]
pub struct Tally {
    rows: BTreeMap<(&'static str, String), (usize, usize)>,
    pub differences: usize,
}

impl Tally {
    pub fn note(&mut self, table: &'static str, row: &str, agreed: bool) {
        let (compared, agreeing) = self.rows.entry((table, row.to_string())).or_default();
        *compared += 1;
        *agreeing += usize::from(agreed);
    }
}

impl fmt::Display for Tally {
    fn fmt(&self, out: &mut fmt::Formatter) -> fmt::Result {
        let mut last = "";
        for ((table, row), (compared, agreed)) in &self.rows {
            if *table != last {
                writeln!(out, "{table}")?;
                last = table;
            }
            let sign = if compared == agreed { "" } else { "  DIFFER" };
            writeln!(out, "  {row:<28} compared {compared:>7}  agreed {agreed:>7}{sign}")?;
        }
        writeln!(out, "differences: {}", self.differences)
    }
}
