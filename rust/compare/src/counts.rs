//! What was met, by name.

use std::fmt;

/// What is counted, and how often each of it was met.
pub type Counts = (&'static str, Vec<(&'static str, u64)>);

/// What was never met.
pub fn unmet(counts: &[Counts]) -> Vec<String> {
    let each = counts.iter().flat_map(|(of, counts)| counts.iter().map(move |(name, count)| (of, name, *count)));
    each.filter(|(_, _, count)| *count == 0).map(|(of, name, _)| format!("{of}: {name} not met")).collect()
}

/// A line for each.
pub fn write_lines(f: &mut fmt::Formatter, counts: &[Counts]) -> fmt::Result {
    for (of, counts) in counts {
        let counts: Vec<String> = counts.iter().map(|(name, count)| format!("{name} {count}")).collect();
        writeln!(f, "{of}: {}", counts.join(", "))?;
    }
    Ok(())
}
