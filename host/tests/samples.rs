//! The stored samples are those that the command writes, and are answered as their page says.

use host::entries;
use host::job::{Answer, Job};
use host::samples::{es_samples, readme, samples, Expected, Origin};
use std::collections::BTreeSet;
use std::fs;
use std::path::PathBuf;

#[path = "../oracle/sha256.rs"]
mod sha256;

fn stored(file: &str) -> PathBuf {
    PathBuf::from(env!("CARGO_MANIFEST_DIR")).join("../jobs").join(file)
}

fn read(file: &str) -> Vec<u8> {
    let path = stored(file);
    fs::read(&path).unwrap_or_else(|e| panic!("{}: {e}", path.display()))
}

#[test]
fn the_stored_samples_are_the_commands() {
    for sample in samples() {
        let bytes = read(&sample.file());
        match sample.origin {
            Origin::Made(job) => assert!(bytes == job.bytes(), "{} is stale", sample.name),
            Origin::Kept(sum) => assert_eq!(sha256::sha256(&bytes), sum, "{}", sample.name),
        }
    }
    for sample in es_samples() {
        assert!(read(&sample.file()) == sample.words.bytes(), "{} is stale", sample.name);
    }
    assert_eq!(String::from_utf8(read("README.md")).unwrap(), readme());
    let files = fs::read_dir(stored(".")).unwrap().map(|entry| entry.unwrap().file_name());
    let mut names: BTreeSet<_> = samples().iter().map(|sample| sample.file().into()).collect();
    names.extend(es_samples().iter().map(|sample| sample.file().into()));
    names.insert("README.md".into());
    assert_eq!(files.collect::<BTreeSet<_>>(), names);
}

#[test]
fn the_samples_are_answered_as_their_page_says() {
    for sample in samples() {
        let bytes = read(&sample.file());
        let mut answer = [0xee; Answer::BYTES];
        let number = entries::job(&bytes, &mut answer);
        let found = if number > 0 {
            Expected::Refused(number)
        } else {
            let (amind, answer) = (Job::read(&bytes).walk.amind, Answer::from_bytes(&answer));
            // Layer 5 alone tells an empty slot: its angle, 0, reaches a minimum of 0.
            let slots = answer.delmod.iter().zip(answer.itmod);
            let rays = slots.filter(|(angle, layer)| *layer != 5 && **angle >= amind).count();
            Expected::Accepted { rows: answer.rows as usize, rays }
        };
        assert_eq!(found, sample.expected, "{}", sample.name);
    }
}
