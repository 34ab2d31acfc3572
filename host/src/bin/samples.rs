//! Writes the samples and their page, jobs/.

use host::samples::{es_samples, readme, samples, Origin};
use std::fs;
use std::path::Path;

fn main() -> std::io::Result<()> {
    let jobs = Path::new(env!("CARGO_MANIFEST_DIR")).join("../jobs");
    fs::create_dir_all(&jobs)?;
    for sample in samples() {
        if let Origin::Made(job) = &sample.origin {
            fs::write(jobs.join(sample.file()), job.bytes())?;
            println!("{}", sample.file());
        }
    }
    for sample in es_samples() {
        fs::write(jobs.join(sample.file()), sample.words.bytes())?;
        println!("{}", sample.file());
    }
    fs::write(jobs.join("README.md"), readme())
}
