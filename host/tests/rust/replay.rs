//! The stored records are those that the command writes.

use host::job::{Answer, Job};
use host::replay;
use sha256::sha256;
use std::collections::BTreeSet;
use std::fs;
use std::path::{Path, PathBuf};

#[path = "../../oracle/sha256.rs"]
mod sha256;

fn crate_folder() -> PathBuf {
    Path::new(env!("CARGO_MANIFEST_DIR")).join("../crates/replay")
}

fn read(path: &Path) -> Vec<u8> {
    fs::read(path).unwrap_or_else(|e| panic!("{}: {e}", path.display()))
}

#[test]
fn the_stored_records_are_the_oracles() {
    let crate_folder = crate_folder();
    let data = crate_folder.join("data");
    let files = replay::files();
    for file in &files {
        // Not assert_eq, which would print them.
        assert!(
            read(&data.join(file.name)) == file.bytes(),
            "{} is stale: see docs/REPLAY.md",
            file.name
        );
    }
    let stdout = String::from_utf8(read(&crate_folder.join("stdout"))).unwrap();
    assert_eq!(stdout, replay::stdout(&files));
    let stored = fs::read_dir(&data).unwrap().map(|entry| entry.unwrap().file_name());
    let names = files.iter().map(|file| file.name.into());
    assert_eq!(stored.collect::<BTreeSet<_>>(), names.collect::<BTreeSet<_>>());
}

// Words: a column, and where kinds stand in a reflectrix and in an answer.
const ROWS: usize = 45;
const OF_REFLECTRIX: usize = 7 * ROWS;
const OF_ANSWER: usize = 14 + 7 * ROWS;
const REFLECTRIX: usize = 8 * ROWS + 14;

/// A record of a job: the job, the number, the answer.
const JOB: (usize, &[usize]) =
    (Job::BYTES / 4 + 1 + Answer::BYTES / 4, &[Job::BYTES / 4 + 1 + OF_ANSWER]);
/// One of findf: its arguments are a reflectrix and others, its answer two counts and a reflectrix.
const FINDF_ARGUMENTS: usize = REFLECTRIX + 2 + 2 + 2 + 15 + 4 * 30 + 1200;
const FINDF: (usize, &[usize]) =
    (FINDF_ARGUMENTS + 2 + REFLECTRIX, &[OF_REFLECTRIX, FINDF_ARGUMENTS + 2 + OF_REFLECTRIX]);
/// One of fdist: slots, a reflectrix, three numbers; three counts and slots.
const FDIST: (usize, &[usize]) = (36 + REFLECTRIX + 3 + 3 + 36, &[36 + OF_REFLECTRIX]);
/// A case by name: the number and the answer.
const NAMED: (usize, &[usize]) = (1 + Answer::BYTES / 4, &[1 + OF_ANSWER]);

/// The files that have kinds: how many words a record has and where kinds stand in it, and the
/// SHA-256 of the file as it was stored before order 2.
type Before = (&'static str, (usize, &'static [usize]), &'static str);

const BEFORE_KINDS: [Before; 6] = [
    ("jobs_realistic", JOB, "1462db1eebc297042af48224e44c4a6960f5c13dee95e012c33370af8d29f5ab"),
    ("jobs_adversarial", JOB, "3bfb6edc90e0bc3cfee9b58da32d010cbc3beee7a9920c6627a3bc073299fa3d"),
    ("jobs_limits", JOB, "b1e6ddf9b639889359c0adf61f6729edc716d246ba98cf41ee037485b7e329a2"),
    ("findf", FINDF, "9eb0ec6e713ebeb8a07c56e00265fcab26a1887fb588f243253569c62fd91417"),
    ("fdist", FDIST, "c39e45a6043be5be2ad0ba6cfc7f1b2794f23700508927f518b72ec23b0b0dc5"),
    ("named", NAMED, "97e972592692841e66c6b108bca90ac207ea000766df97428c9b9445981ec03d"),
];

/// Order 2 changed nothing but the kinds: without them each file is the one that was stored before.
/// Where other jobs are stored on purpose, their files leave this list.
#[test]
fn the_stored_records_without_kinds_are_those_of_before() {
    for (name, (words, kinds), digest) in BEFORE_KINDS {
        let bytes = read(&crate_folder().join("data").join(name));
        assert_eq!(bytes.len() % (4 * words), 0, "{name}");
        let is_kind = |place: usize| kinds.iter().any(|at| (*at..at + ROWS).contains(&place));
        let others = bytes.chunks_exact(4).enumerate().filter(|(i, _)| !is_kind(i % words));
        let others: Vec<u8> = others.flat_map(|(_, word)| word).copied().collect();
        assert_eq!(sha256(&others), digest, "{name}");
    }
}

#[test]
fn the_records_of_esmod_have_every_case() {
    let bytes = read(&crate_folder().join("data/esmod"));
    let words: Vec<u32> =
        bytes.chunks_exact(4).map(|b| u32::from_le_bytes(b.try_into().unwrap())).collect();
    let records: Vec<&[u32]> = words.chunks_exact(26 + 9).collect();
    // Where a slot is empty, hn is -1.
    let filled = |word: u32| f32::from_bits(word) > 0.0;
    let kms: BTreeSet<u32> = records.iter().map(|r| r[0]).collect();
    let refusals: BTreeSet<u32> = records.iter().map(|r| r[26]).collect();
    let accepted = records.iter().filter(|r| r[26] == 0);
    let slots: BTreeSet<[bool; 2]> = accepted.map(|r| [filled(r[28]), filled(r[32])]).collect();
    assert_eq!(kms, (0..=7).collect());
    assert_eq!(refusals, [0, 5, 6, 14].into());
    assert_eq!(slots.len(), 4);
}
