//! Where the Rust as it comes differs from the Rust led to the library: in last bits, mostly.

use crate::floats;
use crate::record::{Numbers, Record};
use std::collections::BTreeMap;
use std::fmt;

#[derive(Default)]
pub struct Differences {
    runs: u64,
    /// Runs whose layers, counts or hops differ: there a row or a slot is another one.
    other_rows: u64,
    /// Of the other runs, those with a float that differs.
    other_bits: u64,
    fields: BTreeMap<&'static str, Differing>,
}

/// The differing numbers of one field, those of them that are one step off, and the greatest
/// difference.
#[derive(Default)]
struct Differing {
    count: u64,
    by_one_step: u64,
    greatest: f32,
}

impl Differences {
    pub fn add(&mut self, led: &impl Record, as_it_comes: &impl Record) {
        self.runs += 1;
        let mut pairs = Vec::new();
        for ((name, a), (_, b)) in led.fields().into_iter().zip(as_it_comes.fields()) {
            match (a, b) {
                (Numbers::Floats(a), Numbers::Floats(b)) => pairs.push((name, a, b)),
                _ if !a.are(b, floats::same) => {
                    self.other_rows += 1;
                    return;
                }
                _ => {}
            }
        }
        let before: u64 = self.fields.values().map(|field| field.count).sum();
        for (name, a, b) in pairs {
            for (a, b) in a.iter().zip(b).filter(|(a, b)| !floats::same(**a, **b)) {
                let field = self.fields.entry(name).or_default();
                field.count += 1;
                field.by_one_step += u64::from(floats::steps_between(*a, *b) == 1);
                field.greatest = field.greatest.max((a - b).abs());
            }
        }
        let after: u64 = self.fields.values().map(|field| field.count).sum();
        self.other_bits += u64::from(after > before);
    }

    pub fn merge(&mut self, other: Self) {
        self.runs += other.runs;
        self.other_rows += other.other_rows;
        self.other_bits += other.other_bits;
        for (name, found) in other.fields {
            let field = self.fields.entry(name).or_default();
            field.count += found.count;
            field.by_one_step += found.by_one_step;
            field.greatest = field.greatest.max(found.greatest);
        }
    }
}

impl fmt::Display for Differences {
    fn fmt(&self, f: &mut fmt::Formatter) -> fmt::Result {
        let Differences { runs, other_rows, other_bits, .. } = self;
        write!(
            f,
            "the Rust as it comes, {runs} runs: {other_rows} with other rows, layers or hops, "
        )?;
        write!(f, "{other_bits} with other bits")?;
        for (name, Differing { count, by_one_step, greatest }) in &self.fields {
            write!(f, "\n  {name}: {count} numbers, {by_one_step} of them by one step, ")?;
            write!(f, "at most {greatest:e}")?;
        }
        Ok(())
    }
}
