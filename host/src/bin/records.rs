//! Writes the records of crates/replay/data/, and crates/replay/stdout, from the oracle.

#[cfg(oracle)]
fn main() -> std::io::Result<()> {
    use host::replay;
    use std::fs;
    use std::path::Path;
    let replay = Path::new(env!("CARGO_MANIFEST_DIR")).join("../crates/replay");
    let data = replay.join("data");
    if data.is_dir() {
        fs::remove_dir_all(&data)?;
    }
    fs::create_dir_all(&data)?;
    let files = replay::files();
    for file in &files {
        let bytes = file.bytes();
        println!("{}: {} records, {} bytes", file.name, file.records(), bytes.len());
        fs::write(data.join(file.name), bytes)?;
    }
    fs::write(replay.join("stdout"), replay::stdout(&files))
}

#[cfg(not(oracle))]
fn main() {
    eprintln!("the Rust source is not at hand: set HFCAST_SRC");
    std::process::exit(1);
}
