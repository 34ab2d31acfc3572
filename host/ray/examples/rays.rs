//! Prints the rays of a job:  rays JOB
//!
//! Exit status: as examples/rays.c has it.

use ray::Job;
use std::io::Write;
use std::process::ExitCode;
use std::{env, fs, io};

/// What went wrong, and the exit status for it.
type Failure = (String, u8);

fn printed(name: &str) -> Result<String, Failure> {
    let bytes = fs::read(name).map_err(|e| (format!("{name}: {e}"), 66))?;
    let refused = |refusal: ray::Refusal| (format!("{name}: {refusal}"), refusal.number() as u8);
    let job = Job::from_bytes(&bytes).map_err(refused)?;
    let answer = job.solve().map_err(refused)?;
    let mut text = format!(
        "{name}: {:.3} MHz, asked hop {:.1} km, minimum angle {:.3} deg\n",
        job.freq(),
        job.hop_km(),
        job.amind()
    );
    text += &format!(
        "rays {}, rows {}, looks {}, pairs {}\n",
        answer.rays().len(),
        answer.rows().len(),
        answer.looks(),
        answer.pairs()
    );
    for ray in answer.rays() {
        text += &format!(
            "slot {}: {:.3} deg, layer {}, virtual height {:.1} km, true height {:.1} km\n",
            ray.slot, ray.angle, ray.layer, ray.virtual_height, ray.true_height
        );
    }
    Ok(text)
}

fn main() -> ExitCode {
    let names: Vec<String> = env::args().skip(1).collect();
    let result = match names.as_slice() {
        [name] => printed(name),
        _ => Err(("rays takes JOB".to_string(), 64)),
    };
    let written = result.and_then(|text| {
        io::stdout().write_all(text.as_bytes()).map_err(|e| (format!("standard output: {e}"), 74))
    });
    match written {
        Ok(()) => ExitCode::SUCCESS,
        Err((message, status)) => {
            eprintln!("{message}");
            ExitCode::from(status)
        }
    }
}
