//! Demand 3 of an answer, from its words and the job's numbers alone (document 01, "The words of
//! demand 3"). Rows and pairs count from 0 here: pair i is rows i and i + 1.

use crate::con::{D2R, PIO2, R2D, RZ};
use crate::ensure::{ensure, Checked};
use crate::entries;
use crate::floats::same;
use crate::job::{Answer, Job};
use crate::tally::Tally;

/// "A ray is angle, virtual height, true height, vertical frequency, absorption factor and layer"
#[derive(Clone, Copy, Debug)]
struct Ray {
    del: f32,
    hp: f32,
    ht: f32,
    fv: f32,
    af: f32,
    layer: u32,
}

impl Ray {
    /// All NaNs count as equal.
    fn is(self, other: Self) -> bool {
        let floats = |r: Ray| [r.del, r.hp, r.ht, r.fv, r.af];
        floats(self).into_iter().zip(floats(other)).all(|(a, b)| same(a, b))
            && self.layer == other.layer
    }
}

/// What two hop lengths and d give, in the order of `tally::GIVEN`.
#[derive(Clone, Copy, PartialEq)]
enum Given {
    Nothing,
    First,
    Equal,
    Second,
    Spot,
}

/// The source's rule. Where a length is NaN its comparisons are those of a fall.
fn given(g1: f32, g2: f32, d: f32) -> Given {
    if g1 == g2 {
        let near = (d - g1).abs() <= 0.001;
        return if near { Given::Nothing } else { Given::Equal };
    }
    let rising = g1 < g2;
    let before_the_first = if rising { d < g1 } else { g1 < d };
    let after_the_second = if rising { g2 < d } else { d < g2 };
    if g1 == d {
        Given::First
    } else if before_the_first || after_the_second {
        Given::Nothing
    } else if d == g2 {
        Given::Second
    } else {
        Given::Spot
    }
}

/// "strictly on either side of the asked one"
fn straddles(g1: f32, g2: f32, d: f32) -> bool {
    g1 < d && d < g2 || g2 < d && d < g1
}

/// A job's numbers and an answer's rows.
struct Rows<'a> {
    answer: &'a Answer,
    d: f32,
    freq: f32,
}

impl Rows<'_> {
    fn lengths(&self, pair: usize) -> (f32, f32) {
        (self.answer.gdflx[pair], self.answer.gdflx[pair + 1])
    }

    fn row(&self, i: usize) -> Ray {
        let Answer { delfx, hpflx, htflx, fvflx, afflx, imode, .. } = self.answer;
        let (del, hp, ht) = (delfx[i], hpflx[i], htflx[i]);
        Ray { del, hp, ht, fv: fvflx[i], af: afflx[i], layer: imode[i] }
    }

    /// "The ray of rows r and r + 1 .. is the row or spot that those two and d give"
    fn ray(&self, pair: usize) -> (Given, Option<Ray>) {
        let (g1, g2) = self.lengths(pair);
        let given = given(g1, g2, self.d);
        let ray = match given {
            Given::Nothing => None,
            Given::First | Given::Equal => Some(self.row(pair)),
            Given::Second => Some(self.row(pair + 1)),
            Given::Spot => Some(self.spot(pair)),
        };
        (given, ray)
    }

    fn spot(&self, pair: usize) -> Ray {
        let ((g1, g2), d) = (self.lengths(pair), self.d);
        let (one, two) = (self.row(pair), self.row(pair + 1));
        let (dth, dth2) = (d - g1, g2 - g1);
        if dth2.abs() <= 0.001 {
            return one;
        }
        let between = |one: f32, two: f32| one + (two - one) * dth / dth2;
        let (hp, ht) = (between(one.hp, two.hp), between(one.ht, two.ht));
        let thet = 0.5 * d / RZ;
        let tanp = entries::sin(thet) / (1.0 - entries::cos(thet) + hp / RZ);
        let del = (PIO2 - entries::atan(tanp) - thet) * R2D;
        let sphi = RZ * entries::cos(del * D2R) / (RZ + ht);
        let sphi = (1.0 - sphi * sphi).max(0.000001);
        Ray { del, hp, ht, fv: self.freq * sphi.sqrt(), af: between(one.af, two.af), ..one }
    }

    fn slot(&self, i: usize) -> Ray {
        let Answer { delmod, hpmod, htmod, fvmod, itmod, afmod, .. } = self.answer;
        let (del, hp, ht) = (delmod[i], hpmod[i], htmod[i]);
        Ray { del, hp, ht, fv: fvmod[i], af: afmod[i], layer: itmod[i] }
    }
}

/// Two neighbouring rows, by the words of demand 3.
#[derive(Clone, Copy)]
struct Pair {
    straddles: bool,
    /// "all rows up to and including both have positive heights"
    heights: bool,
    given: Given,
    ray: Option<Ray>,
    /// "It reaches the minimum angle where its angle is ≥ amind; NaN never is."
    reaches: bool,
    /// "A pair is jumped if the pair just before it is not jumped and gives its second row as it
    /// is."
    jumped: bool,
    /// "The rays that came before are those of lower pairs, jumped ones apart, that reach the
    /// minimum angle."
    before: usize,
}

impl Rows<'_> {
    fn pairs(&self, amind: f32) -> [Pair; 44] {
        let (mut before, mut jumped) = (0, false);
        let mut heights = self.answer.hpflx[0] > 0.0;
        std::array::from_fn(|i| {
            let ((g1, g2), (given, ray)) = (self.lengths(i), self.ray(i));
            let straddles = straddles(g1, g2, self.d);
            let reaches = ray.is_some_and(|ray| ray.del >= amind);
            heights &= self.answer.hpflx[i + 1] > 0.0;
            let pair = Pair { straddles, heights, given, ray, reaches, jumped, before };
            before += usize::from(!jumped && reaches);
            jumped = !jumped && given == Given::Second;
            pair
        })
    }
}

/// Checks each clause of demand 3 on the answer of an accepted job, and tells the rays that the
/// tried pairs gave.
pub fn check(job: &Job, answer: &Answer, tally: &mut Tally) -> Checked<u32> {
    let (nang, amind) = (job.walk.nang as u32, job.walk.amind);
    let &Answer { rows, looks, pairs, .. } = answer;
    // "at most nang + 28 looks .. at most nang + 4 rows .. at most 44 row pairs"
    ensure(looks <= nang + 28, || format!("{looks} looks with {nang} angles"))?;
    ensure(rows <= nang + 4, || format!("{rows} rows with {nang} angles"))?;
    ensure(pairs <= 44, || format!("{pairs} pairs"))?;
    let of = Rows { answer, d: job.ghop * RZ, freq: job.walk.freq };
    // "Every slot of positive height has an angle at or above the minimum."
    for slot in (0..6).map(|i| of.slot(i)).filter(|slot| slot.hp > 0.0) {
        ensure(slot.del >= amind, || format!("{slot:?} is below {amind}"))?;
    }
    let pairs = of.pairs(amind);
    check_straddling(&of, &pairs, tally)?;
    let rays = count_tried(&of, &pairs, tally);
    ensure(rays <= 6, || format!("{rays} rays"))?;
    Ok(rays)
}

/// "Take any two neighbouring rows whose hop lengths lie strictly on either side of the asked one."
fn check_straddling(of: &Rows, pairs: &[Pair; 44], tally: &mut Tally) -> Checked {
    let (mut straddling, mut stood) = (false, 0);
    for (i, pair) in pairs.iter().enumerate().filter(|(_, pair)| pair.straddles) {
        straddling = true;
        // "Hop lengths strictly on either side of d always give one, and demand 3 holds that too."
        let Some(ray) = pair.ray else { return Err(format!("pair {i} straddles without a ray")) };
        let Pair { heights, reaches, jumped, before, .. } = *pair;
        // "If the asked one is below the farthest hop, .. then their ray stands in the answer, in
        // the slot next after those that came before."
        if of.d < of.answer.dmaxkm && heights && reaches && before < 6 && !jumped {
            let slot = of.slot(before);
            ensure(slot.is(ray), || format!("pair {i}: slot {slot:?}, not {ray:?}"))?;
            stood += 1;
        }
    }
    tally.straddling += u64::from(straddling);
    tally.standing += u64::from(stood > 0);
    tally.stood += stood;
    Ok(())
}

/// Counts what the tried pairs gave, which are those not jumped, as many as the answer says; tells
/// how many of them gave a ray that reaches the minimum angle.
fn count_tried(of: &Rows, pairs: &[Pair; 44], tally: &mut Tally) -> u32 {
    let not_jumped = (0..44).filter(|i| !pairs[*i].jumped);
    let tried: Vec<usize> = not_jumped.take(of.answer.pairs as usize).collect();
    tried.iter().for_each(|i| tally.given[pairs[*i].given as usize] += 1);
    let after_a_jump = || tried.iter().filter(|i| **i > 0 && pairs[**i - 1].jumped);
    tally.jumped += u64::from(after_a_jump().next().is_some());
    tally.passed += u64::from(after_a_jump().any(|i| of.answer.hpflx[*i] <= 0.0));
    tried.iter().filter(|i| pairs[**i].reaches).count() as u32
}
