//! What checked jobs came to: a test that asks for enough of each kind cannot go blind.

#[cfg(oracle)]
use crate::differences::Differences;
use crate::ensure::{ensure, Checked};

/// What a tried pair can give.
pub const GIVEN: [&str; 5] = ["nothing", "first row", "equal lengths", "second row", "spot"];

pub struct Tally {
    /// How many jobs were refused by each number; accepted ones at 0.
    pub refusals: [u64; 15],

    // Of walks.
    pub walks: u64,
    /// How many wrote rows of each layer, and how many had a dead F2.
    pub layers: [u64; 3],
    pub dead: u64,
    /// How many have a row whose length is NaN.
    pub nan: u64,
    /// How many rows there were of each kind, from 1.
    pub kinds: [u64; 4],
    pub most_rows: usize,
    /// The most rows and looks beyond nang.
    pub rows_beyond: i64,
    pub looks_beyond: i64,

    // Of searches.
    pub searches: u64,
    /// How many found 0 to 6 rays.
    pub rays: [u64; 7],
    /// How many tried 0 to 44 pairs.
    pub pairs: [u64; 45],

    // Of jobs, from their answers.
    /// How many pairs gave what, of those tried.
    pub given: [u64; 5],
    /// How many jobs jumped a pair that others were tried after, and how many of them passed a row
    /// whose height is not above 0 by that.
    pub jumped: u64,
    pub passed: u64,
    /// How many jobs had rows on the two sides of d, how many of them pairs whose ray had to
    /// stand in the answer, and how many such pairs there were.
    pub straddling: u64,
    pub standing: u64,
    pub stood: u64,

    // Of sporadic E.
    /// How many left both slots empty, filled slot 4 alone, slot 5 alone, and both.
    pub slots: [u64; 4],
    /// How many were governed by each point.
    pub points: [u64; 5],

    #[cfg(oracle)]
    pub differences: Differences,
}

impl Default for Tally {
    fn default() -> Self {
        Tally {
            refusals: [0; 15],
            walks: 0,
            layers: [0; 3],
            dead: 0,
            nan: 0,
            kinds: [0; 4],
            most_rows: 0,
            rows_beyond: i64::MIN,
            looks_beyond: i64::MIN,
            searches: 0,
            rays: [0; 7],
            pairs: [0; 45],
            given: [0; 5],
            jumped: 0,
            passed: 0,
            straddling: 0,
            standing: 0,
            stood: 0,
            slots: [0; 4],
            points: [0; 5],
            #[cfg(oracle)]
            differences: Differences::default(),
        }
    }
}

impl Tally {
    /// An accepted walk: its rows' layers and lengths, and the penetration angle of F2.
    pub fn add_walk(&mut self, nang: usize, looks: u32, layers: &[u32], lengths: &[f32], f2: f32) {
        self.walks += 1;
        for (layer, count) in (1..).zip(&mut self.layers) {
            *count += u64::from(layers.contains(&layer));
        }
        self.dead += u64::from(f2 == 0.0);
        self.nan += u64::from(lengths.iter().any(|length| length.is_nan()));
        self.most_rows = self.most_rows.max(layers.len());
        self.rows_beyond = self.rows_beyond.max(layers.len() as i64 - nang as i64);
        self.looks_beyond = self.looks_beyond.max(i64::from(looks) - nang as i64);
    }

    /// The kinds that an accepted walk left: "Rows not written in this call have 0."
    pub fn add_kinds(&mut self, kinds: &[u32; 45], rows: usize) -> Checked {
        let (written, others) = kinds.split_at(rows);
        ensure(others.iter().all(|kind| *kind == 0), || format!("{rows} rows, kinds {kinds:?}"))?;
        for kind in written {
            let of_kind = self.kinds.get_mut((*kind as usize).wrapping_sub(1));
            *of_kind.ok_or_else(|| format!("a row of kind {kind}"))? += 1;
        }
        Ok(())
    }

    /// An accepted search.
    pub fn add_search(&mut self, pairs: u32, rays: u32) {
        self.searches += 1;
        self.pairs[pairs as usize] += 1;
        self.rays[rays as usize] += 1;
    }

    /// An accepted job of esmod: the hops of slots 4 and 5, 0 where empty, and the point.
    pub fn add_hops(&mut self, [slot4, slot5]: [u32; 2], point: usize) {
        self.slots[usize::from(slot4 > 0) + 2 * usize::from(slot5 > 0)] += 1;
        self.points[point] += 1;
    }

    pub fn merge(&mut self, other: Self) {
        let add = |ours: &mut [u64], theirs: &[u64]| {
            ours.iter_mut().zip(theirs).for_each(|(ours, theirs)| *ours += theirs);
        };
        add(&mut self.refusals, &other.refusals);
        add(&mut self.layers, &other.layers);
        add(&mut self.kinds, &other.kinds);
        add(&mut self.rays, &other.rays);
        add(&mut self.pairs, &other.pairs);
        add(&mut self.given, &other.given);
        add(&mut self.slots, &other.slots);
        add(&mut self.points, &other.points);
        self.walks += other.walks;
        self.dead += other.dead;
        self.nan += other.nan;
        self.most_rows = self.most_rows.max(other.most_rows);
        self.rows_beyond = self.rows_beyond.max(other.rows_beyond);
        self.looks_beyond = self.looks_beyond.max(other.looks_beyond);
        self.searches += other.searches;
        self.jumped += other.jumped;
        self.passed += other.passed;
        self.straddling += other.straddling;
        self.standing += other.standing;
        self.stood += other.stood;
        #[cfg(oracle)]
        self.differences.merge(other.differences);
    }

    pub fn print(&self, name: &str) {
        println!("{name}: {} accepted, refused {:?}", self.refusals[0], &self.refusals[1..]);
        if self.walks > 0 {
            let Tally { layers: [e, f1, f2], dead, nan, most_rows, .. } = self;
            println!(
                "  with rows of E {e}, F1 {f1}, F2 {f2}; {dead} with a dead F2, {nan} with NaN"
            );
            let [exact, between, cusp, after] = self.kinds;
            println!(
                "  rows: {exact} exact, {between} between two, {cusp} cusps, {after} after one"
            );
            let Tally { rows_beyond, looks_beyond, .. } = self;
            println!(
                "  most rows {most_rows}; beyond nang {rows_beyond} rows, {looks_beyond} looks"
            );
        }
        if self.searches > 0 {
            println!("  with 0 to 6 rays {:?}", self.rays);
            println!("  with 0 to 44 pairs {:?}", self.pairs);
        }
        if self.walks > 0 && self.searches > 0 {
            let Tally { jumped, passed, straddling, standing, stood, .. } = self;
            let given: Vec<_> = GIVEN.iter().zip(self.given).collect();
            println!("  pairs gave {given:?}");
            println!("  {jumped} jumped a pair, {passed} passed a row of no height so");
            println!(
                "  {straddling} had straddling rows; in {standing} a ray had to stand, {stood} in all"
            );
        }
        if self.slots != [0; 4] {
            let [none, slot4, slot5, both] = self.slots;
            println!("  no hop {none}, slot 4 alone {slot4}, slot 5 alone {slot5}, both {both}");
            println!("  governed by point 0 to 4 {:?}", self.points);
        }
        #[cfg(oracle)]
        println!("  {}", self.differences);
    }
}
