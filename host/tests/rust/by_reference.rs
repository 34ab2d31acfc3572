//! What the program `by_reference_runs` must print is what the led Rust leaves in the structs that
//! it is lent, and after a refusal what was there.

use host::entries::{FdistJob, FindfJob, HopModes, Reflectrix, Searched, Walked};
use host::record::{Numbers, Record};
use host::{fdist, findf, limits};
use std::fmt::Write;
use std::fs;

fn used_reflectrix() -> Reflectrix {
    let mut delfx = [10.0; 45];
    delfx[2] = 12.0;
    let mut gdflx = [2500.0; 45];
    gdflx[..3].copy_from_slice(&[1000.0, 3185.0, 4000.0]);
    Reflectrix {
        delfx,
        hpflx: [300.0; 45],
        htflx: [150.0; 45],
        gdflx,
        fvflx: [4.5; 45],
        afflx: [0.25; 45],
        imode: [7; 45],
        kind: [10; 45],
        dskpkm: 1.0,
        delskp: 2.0,
        hpskp: 3.0,
        htskp: 4.0,
        dmaxkm: 5000.0,
        fvskp: 6.0,
        iskp: 8,
        delpen: [11.0, 12.0, 13.0],
        iaftxr: 9,
        rows_this_call: 14,
    }
}

fn walk(nang: usize) -> Walked {
    let mut fvert = [7.0; 30];
    fvert[9] = 3.0;
    let job = FindfJob {
        k: 2,
        nang,
        freq: 5.0,
        amind: 3.0,
        fi: [[4.0, 0.0, 7.0]; 5],
        fvert,
        hprim: [300.0; 30],
        htrue: [190.0; 30],
        afac: [0.5; 30],
        ifob: [6000; 1200],
    };
    match limits::findf(&job) {
        0 => findf::led(used_reflectrix(), &job),
        refusal => Walked { refusal, looks: 0, rfx: used_reflectrix() },
    }
}

fn search(ghop: f32) -> Searched {
    let used = HopModes {
        delmod: [1.0; 6],
        hpmod: [2.0; 6],
        htmod: [3.0; 6],
        fvmod: [4.0; 6],
        itmod: [6; 6],
        afmod: [7.0; 6],
    };
    let job = FdistJob { rfx: used_reflectrix(), ghop, amind: 3.0, freq: 5.0 };
    match limits::fdist(&job) {
        0 => fdist::led(used, &job),
        refusal => Searched { refusal, pairs: 0, rays: 0, m: used },
    }
}

/// A title, the counts, then the fields of the record, a line each.
fn printed(title: &str, counts: &[(&str, u32)], record: &impl Record) -> String {
    let mut text = format!("{title}\n");
    let counts =
        counts.iter().map(|(name, count)| (*name, Numbers::Words(std::slice::from_ref(count))));
    for (name, numbers) in counts.chain(record.fields()) {
        write!(text, "  {name}").unwrap();
        match numbers {
            Numbers::Floats(xs) => {
                xs.iter().for_each(|x| write!(text, " {:08x}", x.to_bits()).unwrap())
            }
            Numbers::Words(ns) => ns.iter().for_each(|n| write!(text, " {n}").unwrap()),
            Numbers::Count(n) => write!(text, " {n}").unwrap(),
        }
        text.push('\n');
    }
    text
}

fn walked(title: &str, w: Walked) -> String {
    printed(title, &[("refusal", w.refusal), ("looks", w.looks)], &w.rfx)
}

fn searched(title: &str, s: Searched) -> String {
    printed(title, &[("refusal", s.refusal), ("pairs", s.pairs), ("rays", s.rays)], &s.m)
}

#[test]
fn the_stored_output_is_the_oracles() {
    let path = concat!(env!("CARGO_MANIFEST_DIR"), "/../crates/by_reference_runs/stdout");
    let stored = fs::read_to_string(path).unwrap();
    let expected = [
        walked("findf, nang 30", walk(30)),
        walked("findf, nang 41", walk(41)),
        searched("fdist, ghop 0.5", search(0.5)),
        searched("fdist, ghop 5", search(5.0)),
    ];
    assert_eq!(stored, expected.concat());
}
