//! The tool `ray` as a person runs it: what it prints, where, its status, and what it writes.
//!
//! `./ray help` at the top of the repository builds it; `RAY_TOOL` names another one.

use host::entries;
use host::job::Answer;
use host::prng::Prng;
use host::samples::{es_samples, summer, EsFile};
use std::collections::HashMap;
use std::ffi::{OsStr, OsString};
use std::fs::{self, File};
use std::io::{self, Write};
use std::os::unix::ffi::OsStrExt;
use std::os::unix::fs::{symlink, PermissionsExt};
use std::path::{Path, PathBuf};
use std::process::{Command, Output, Stdio};
use std::thread::sleep;
use std::time::Duration;

fn top() -> PathBuf {
    Path::new(env!("CARGO_MANIFEST_DIR")).join("..").canonicalize().unwrap()
}

fn tool() -> PathBuf {
    let named = std::env::var_os("RAY_TOOL").map(PathBuf::from);
    let path = named.unwrap_or_else(|| top().join("target/tool/ray"));
    assert!(path.is_file(), "{} is missing: build it with `./ray help`", path.display());
    path.canonicalize().unwrap()
}

fn sample(name: &str) -> PathBuf {
    top().join("jobs").join(format!("{name}.job"))
}

/// A folder of the test's own, with the noon sample in it, gone when the test is over.
struct Folder(PathBuf);

impl Folder {
    fn new(name: &str) -> Self {
        let path = std::env::temp_dir().join(format!("ray-tool-{name}-{}", std::process::id()));
        let _ = fs::remove_dir_all(&path);
        fs::create_dir(&path).unwrap();
        fs::copy(sample("noon"), path.join("noon.job")).unwrap();
        Folder(path)
    }

    fn file(&self, name: &str) -> PathBuf {
        self.0.join(name)
    }

    fn put(&self, name: &str, bytes: &[u8]) {
        fs::write(self.file(name), bytes).unwrap();
    }

    fn read(&self, name: &str) -> Vec<u8> {
        fs::read(self.file(name)).unwrap()
    }

    fn names(&self) -> Vec<OsString> {
        let entries = fs::read_dir(&self.0).unwrap().map(|entry| entry.unwrap().file_name());
        let mut names: Vec<_> = entries.collect();
        names.sort();
        names
    }

    /// The tool on these words, with an empty standard input.
    fn ray<W: AsRef<OsStr>>(&self, words: &[W]) -> Ran {
        self.ray_on(words, Stdio::null())
    }

    fn ray_on<W: AsRef<OsStr>>(&self, words: &[W], input: Stdio) -> Ran {
        let mut command = Command::new(tool());
        Ran::of(command.args(words).current_dir(&self.0).stdin(input).output().unwrap())
    }

    /// A line for the shell, in which $RAY is the tool.
    fn shell(&self, line: &str) -> Ran {
        let mut command = Command::new("sh");
        command.args(["-c", line]).env("RAY", tool()).current_dir(&self.0).stdin(Stdio::null());
        Ran::of(command.output().unwrap())
    }
}

impl Drop for Folder {
    fn drop(&mut self) {
        let _ = fs::remove_dir_all(&self.0);
    }
}

#[derive(Debug, PartialEq)]
struct Ran {
    status: i32,
    out: Vec<u8>,
    err: String,
}

impl Ran {
    fn of(output: Output) -> Self {
        let status = output.status.code().expect("ended by a signal");
        Ran { status, out: output.stdout, err: String::from_utf8(output.stderr).unwrap() }
    }

    fn text(&self) -> &str {
        std::str::from_utf8(&self.out).unwrap()
    }

    /// An error: its lines on standard error, nothing on standard output.
    #[track_caller]
    fn fails(&self, status: i32, err: &str) {
        assert_eq!((self.status, self.err.as_str(), self.out.len()), (status, err, 0));
    }

    /// Done, and nothing said.
    #[track_caller]
    fn does(&self) -> &[u8] {
        assert_eq!((self.status, self.err.as_str()), (0, ""));
        &self.out
    }
}

/// The noon job with other words, by their numbers.
fn noon_with(words: &[(usize, u32)]) -> Vec<u8> {
    let mut bytes = fs::read(sample("noon")).unwrap();
    for (at, word) in words {
        bytes[4 * at..4 * at + 4].copy_from_slice(&word.to_le_bytes());
    }
    bytes
}

fn word(bytes: &[u8], at: usize) -> u32 {
    u32::from_le_bytes(bytes[4 * at..4 * at + 4].try_into().unwrap())
}

const FREQ: usize = 2;
const AMIND: usize = 3;
const GHOP: usize = 4;
const FI: usize = 5;
const FVERT: usize = 20;
const IFOB: usize = 140;

const ASK: &str =
    "ray: ask takes JOB, FILE and one or more of freq MHZ, hop KM, min DEG; 'ray help' says more\n";

#[test]
fn wrong_use_is_told() {
    let folder = Folder::new("use");
    let takes = |what: &str| format!("ray: {what}; 'ray help' says more\n");
    let cases: &[(&[&str], String)] = &[
        (&[], "ray: no command; 'ray help' lists them\n".into()),
        (&["sho"], "ray: no command 'sho'; 'ray help' lists them\n".into()),
        (&[""], "ray: no command ''; 'ray help' lists them\n".into()),
        (&["s\u{1}\u{e9}o"], "ray: no command 's???o'; 'ray help' lists them\n".into()),
        (&["show"], takes("show takes JOB")),
        (&["show", "noon.job", "x"], takes("show takes JOB")),
        (&["draw"], takes("draw takes JOB and perhaps FILE")),
        (&["draw", "noon.job", "x", "y"], takes("draw takes JOB and perhaps FILE")),
        (&["job"], takes("job takes JOB and perhaps FILE")),
        (&["job", "noon.job", "x", "y"], takes("job takes JOB and perhaps FILE")),
        (&["check"], takes("check takes JOB")),
        (&["words"], takes("words takes JOB")),
        (&["es"], takes("es takes FILE")),
        (&["es", "summer.es", "x"], takes("es takes FILE")),
        (&["help", "x"], takes("help takes nothing")),
        (&["ask", "noon.job", "x"], ASK.into()),
        (&["ask", "noon.job", "x", "hop"], ASK.into()),
        (&["ask", "noon.job", "x", "hop", "9", "min"], ASK.into()),
        (&["ask", "noon.job", "x", "hop", "9", "hop", "9"], takes("ask has 'hop' twice")),
        (
            &["ask", "noon.job", "x", "hop", "9", "min", "1", "min", "2"],
            takes("ask has 'min' twice"),
        ),
        (&["ask", "noon.job", "x", "km", "9"], takes("ask takes freq, hop or min, and not 'km'")),
        (
            &["ask", "noon.job", "x", "hop", "9.0001"],
            "ray: '9.0001' is not a number such as 14, 14.2 or 14.235, below a million\n".into(),
        ),
    ];
    for (words, err) in cases {
        folder.ray(words).fails(64, err);
    }
    // Any number of words more than a command takes.
    folder.ray(&vec!["show"; 40]).fails(64, &takes("show takes JOB"));
    assert_eq!(folder.names(), ["noon.job"]);
}

#[test]
fn help_is_printed() {
    let folder = Folder::new("help");
    let help = folder.ray(&["help"]);
    let text = String::from_utf8(help.does().to_vec()).unwrap();
    assert!(text.starts_with("ray: the angles at which a shortwave antenna"), "{text}");
    for name in ["show", "draw", "job", "check", "words", "ask", "es", "help"] {
        assert!(text.contains(&format!("\n  ray {name} ")), "{name}: {text}");
    }
    // The form of the file of `es`, in the order of its words.
    let form = text.split("\n\n").find(|part| part.starts_with("The FILE of es is ")).unwrap();
    let names = "26 words|least|byte first|km|f32|fs|hs|gcd|gcdkm|amind|freq|fsdead";
    names.split('|').fold(form, |rest, name| match rest.split_once(name) {
        Some((_, rest)) => rest,
        None => panic!("{name}: {form}"),
    });
    assert_eq!(folder.ray(&["--help"]), help);
    assert_eq!(folder.ray(&["-h"]), help);
}

#[test]
fn a_word_has_4095_bytes_at_most() {
    let folder = Folder::new("long");
    let long = "a".repeat(4_096);
    let told = "ray: a word on the command line is too long\n";
    folder.ray(&["show", &long]).fails(64, told);
    folder.ray(&[&long]).fails(64, told);
    folder.ray(&["draw", "noon.job", &long]).fails(64, told);
    let name = &long[1..];
    folder.ray(&["show", name]).fails(66, &format!("ray: {name}: File name too long\n"));
}

#[test]
fn a_job_that_cannot_be_read_is_told() {
    let folder = Folder::new("unread");
    fs::create_dir(folder.file("folder")).unwrap();
    for command in ["show", "draw", "job", "check", "words", "es"] {
        let missing = folder.ray(&[command, "no\tsuch.job"]);
        missing.fails(66, "ray: no?such.job: No such file or directory\n");
        folder.ray(&[command, "folder"]).fails(66, "ray: folder: Is a directory\n");
        folder.ray(&[command, ""]).fails(66, "ray: : No such file or directory\n");
    }
    let missing = folder.ray(&["ask", "nix", "x", "hop", "900"]);
    missing.fails(66, "ray: nix: No such file or directory\n");
    let closed = folder.shell("\"$RAY\" show - <&-");
    closed.fails(66, "ray: standard input: Bad file descriptor\n");
    assert_eq!(folder.names(), ["folder", "noon.job"]);
}

/// Document 01's limits, each with the sentence and what is found.
fn refused() -> Vec<(u32, Vec<u8>, String)> {
    let noon = fs::read(sample("noon")).unwrap();
    let length = "the job is not 5360 bytes long";
    let fi = "a critical frequency of the point is not within its range";
    let table = "a value of the tables is not within its range";
    let ifob = "an entry of the oblique table, ifob, is not within 0 to 99999 kHz";
    let freq = "the frequency, freq, is not within 2 to 30 MHz";
    let point = "F2 at point 0: 0.050 (3D4CCCCD), which has to be 0.1 to 100 MHz";
    let far = "afac, row 2: <-9999999999 (F2177617), which has to be -1000000 to 1000000";
    let cases: Vec<(u32, Vec<u8>, &str, &str)> = vec![
        (1, noon[..77].to_vec(), length, "77 bytes"),
        (1, vec![], length, "0 bytes"),
        (1, [&noon[..], &[0]].concat(), length, "more than 5360 bytes"),
        (3, noon_with(&[(0, 5)]), "the point k is not within 0 to 4", "k 5"),
        (
            4,
            noon_with(&[(1, 41)]),
            "the number of table angles, nang, is not within 0 to 40",
            "nang 41",
        ),
        (5, noon_with(&[(FREQ, 0x41fc_0000)]), freq, "freq 31.500 (41FC0000)"),
        (5, noon_with(&[(FREQ, 0x41f0_0001)]), freq, "freq 30.000 (41F00001)"),
        (
            6,
            noon_with(&[(AMIND, 0xbf80_0000)]),
            "the minimum angle, amind, is not within 0 to 90 deg",
            "amind -1.000 (BF800000)",
        ),
        (
            7,
            noon_with(&[(GHOP, 0x7f80_0000)]),
            "the asked hop, ghop, is not within 0 to 4 radians",
            "ghop inf (7F800000)",
        ),
        (
            8,
            noon_with(&[(FI + 1, 0xbf00_0000), (FI + 2, 0)]),
            fi,
            "F1 at point 0: -0.500 (BF000000), which has to be 0 to 100 MHz",
        ),
        (8, noon_with(&[(FI + 2, 0x3d4c_cccd)]), fi, point),
        (
            9,
            noon_with(&[(FVERT + 29, 0x42c8_0001), (FVERT + 30, 0x7fc0_0000)]),
            table,
            "fvert, row 30: 100.000 (42C80001), which has to be 0 to 100 MHz",
        ),
        (
            9,
            noon_with(&[(FVERT + 60, 0x44fa_0001)]),
            table,
            "htrue, row 1: 2000.000 (44FA0001), which has to be 0 to 2000 km",
        ),
        (9, noon_with(&[(FVERT + 91, 0xf217_7617)]), table, far),
        (10, noon_with(&[(IFOB + 31, u32::MAX - 2)]), ifob, "ifob, angle 2, row 2: -3"),
        (10, noon_with(&[(IFOB + 1199, 100_000)]), ifob, "ifob, angle 40, row 30: 100000"),
        (10, noon_with(&[(IFOB, 0x8000_0000)]), ifob, "ifob, angle 1, row 1: -2147483648"),
    ];
    let lines = |(number, bytes, sentence, found)| {
        (number, bytes, format!(": refused, limit {number}: {sentence}\n  found: {found}\n"))
    };
    cases.into_iter().map(lines).collect()
}

#[test]
fn a_refusal_has_its_number_and_two_lines() {
    let folder = Folder::new("refused");
    folder.put("kept", b"as it was");
    for (number, bytes, lines) in refused() {
        folder.put("it.job", &bytes);
        let error = format!("ray: it.job{lines}");
        for words in [
            &["show", "it.job"][..],
            &["draw", "it.job"],
            &["draw", "it.job", "kept"],
            &["job", "it.job"],
            &["job", "it.job", "new"],
            &["words", "it.job"],
        ] {
            folder.ray(words).fails(number as i32, &error);
        }
        let checked = folder.ray(&["check", "it.job"]);
        let found = (checked.status, checked.text(), checked.err.as_str());
        assert_eq!(found, (number as i32, format!("it.job{lines}").as_str(), ""));
        let input = File::open(folder.file("it.job")).unwrap();
        let checked = folder.ray_on(&["check", "-"], input.into());
        assert_eq!(checked.text(), format!("standard input{lines}"));
    }
    assert_eq!(folder.names(), ["it.job", "kept", "noon.job"]);
    assert_eq!(folder.read("kept"), b"as it was");
}

#[test]
fn an_endless_input_ends() {
    let folder = Folder::new("endless");
    let lines =
        ": refused, limit 1: the job is not 5360 bytes long\n  found: more than 5360 bytes\n";
    folder.ray(&["show", "/dev/zero"]).fails(1, &format!("ray: /dev/zero{lines}"));
    let zero = File::open("/dev/zero").unwrap();
    folder.ray_on(&["show", "-"], zero.into()).fails(1, &format!("ray: standard input{lines}"));
    // One byte more than a job has is enough: the input stays open.
    let mut command = Command::new(tool());
    command.args(["show", "-"]).stdin(Stdio::piped()).stdout(Stdio::piped()).stderr(Stdio::piped());
    let mut child = command.spawn().unwrap();
    let mut input = child.stdin.take().unwrap();
    input.write_all(&[0; 5_361]).unwrap();
    let ran = Ran::of(child.wait_with_output().unwrap());
    drop(input);
    ran.fails(1, &format!("ray: standard input{lines}"));
}

#[test]
fn a_slow_input_is_read_whole() {
    let mut command = Command::new(tool());
    command
        .args(["check", "-"])
        .stdin(Stdio::piped())
        .stdout(Stdio::piped())
        .stderr(Stdio::piped());
    let mut child = command.spawn().unwrap();
    let mut input = child.stdin.take().unwrap();
    for part in fs::read(sample("noon")).unwrap().chunks(1_000) {
        input.write_all(part).unwrap();
        input.flush().unwrap();
        sleep(Duration::from_millis(20));
    }
    drop(input);
    let ran = Ran::of(child.wait_with_output().unwrap());
    assert_eq!(ran.does(), b"standard input: accepted\n");
}

#[test]
fn an_answer_is_the_librarys() {
    let folder = Folder::new("answer");
    for entry in fs::read_dir(top().join("jobs")).unwrap() {
        let path = entry.unwrap().path();
        if path.extension() != Some(OsStr::new("job")) {
            continue;
        }
        let bytes = fs::read(&path).unwrap();
        let mut answer = [0; Answer::BYTES];
        let number = entries::job(&bytes, &mut answer);
        let ran = folder.ray(&[OsStr::new("job"), path.as_os_str()]);
        assert_eq!(ran.status, number as i32, "{}", path.display());
        assert_eq!(ran.out, if number == 0 { &answer[..] } else { &[] }, "{}", path.display());
        // All words, a line each, with the bits.
        let listed = folder.ray(&[OsStr::new("words"), path.as_os_str()]);
        let bits =
            listed.text().lines().skip(1).map(|line| line.split_whitespace().last().unwrap());
        let bits: Vec<_> = bits.map(|bits| u32::from_str_radix(bits, 16).unwrap()).collect();
        let words: Vec<_> = (0..ran.out.len() / 4).map(|at| word(&ran.out, at)).collect();
        assert_eq!(bits, words, "{}", path.display());
        assert!(listed.text().lines().all(|line| line.len() <= 78 && !line.ends_with(' ')));
    }
}

#[test]
fn words_have_their_names_and_values() {
    let folder = Folder::new("words");
    let listed = folder.ray(&["words", "noon.job"]);
    let lines: Vec<_> = listed.text().lines().collect();
    assert_eq!(lines.len(), 411);
    for line in [
        "   0  rows                25         00000019",
        "   3  delpen  1        8.942 deg     410F139D",
        "   6  dskpkm          1126.3 km      448CCAC1",
        "  25  delfx 12        10.000 deg     41200000",
    ] {
        assert_eq!(lines.iter().filter(|l| **l == line).count(), 1, "{line}");
    }
    // Each part's words, in the order of the layout.
    let names: Vec<_> =
        lines[1..].iter().map(|line| line.split_whitespace().nth(1).unwrap()).collect();
    let mut parts = names.clone();
    parts.dedup();
    let expected =
        "rows looks pairs delpen dskpkm delskp hpskp htskp dmaxkm fvskp iskp iaftxr delfx \
                    hpflx htflx gdflx fvflx afflx imode kind delmod hpmod htmod fvmod itmod afmod";
    assert_eq!(parts, expected.split_whitespace().collect::<Vec<_>>());
    for (name, count) in [("delpen", 3), ("delfx", 45), ("imode", 45), ("kind", 45), ("afmod", 6)] {
        assert_eq!(names.iter().filter(|n| **n == name).count(), count, "{name}");
    }
}

/// An answer's words by name, as `words` lists them.
fn listed(ran: &Ran) -> HashMap<String, Vec<u32>> {
    let mut parts: HashMap<String, Vec<u32>> = HashMap::new();
    for line in ran.text().lines().skip(1) {
        let words: Vec<_> = line.split_whitespace().collect();
        let bits = u32::from_str_radix(words.last().unwrap(), 16).unwrap();
        parts.entry(words[1].to_string()).or_default().push(bits);
    }
    parts
}

/// The accepted samples: name, path, the answer's words.
fn accepted(folder: &Folder) -> Vec<(String, PathBuf, HashMap<String, Vec<u32>>)> {
    let entries = fs::read_dir(top().join("jobs")).unwrap().map(|entry| entry.unwrap().path());
    let jobs = entries.filter(|path| path.extension() == Some(OsStr::new("job")));
    let ran = jobs.map(|path| (folder.ray(&[OsStr::new("words"), path.as_os_str()]), path));
    ran.filter(|(ran, _)| ran.status == 0)
        .map(|(ran, path)| {
            (path.file_stem().unwrap().to_str().unwrap().to_string(), path, listed(&ran))
        })
        .collect()
}

/// Behind each row's layer stands the letter of its kind, and nothing else moved.
#[test]
fn rows_have_the_letters_of_their_kinds() {
    let folder = Folder::new("kinds");
    let mut seen = [0; 5];
    for (name, path, words) in accepted(&folder) {
        let shown = folder.ray(&[OsStr::new("show"), path.as_os_str()]);
        let rows = words["rows"][0] as usize;
        let table = shown.text().split("\nREFLECTRIX").nth(1).unwrap();
        let lines: Vec<_> = table.lines().skip(4).take(rows).collect();
        assert_eq!(lines.len(), rows, "{name}");
        for (line, kind) in lines.iter().zip(&words["kind"]) {
            let letter = [b'?', b't', b'b', b'c', b'a'][*kind as usize];
            assert_eq!(&line.as_bytes()[8..13], [b' ', letter, b' ', b' ', b' '], "{name}: {line}");
            seen[*kind as usize] += 1;
        }
        assert!(words["kind"][rows..].iter().all(|kind| *kind == 0), "{name}");
        let legend =
            "\n      row: t from the table, b between two entries, c cusp, a after a cusp\n";
        assert_eq!(table.matches(legend).count(), usize::from(rows > 0), "{name}");
    }
    assert!(seen[0] == 0 && seen[1..].iter().all(|n| *n > 0), "{seen:?}");
}

/// The slots of a sheet that are marked `across a cusp`, held to the answer: a ray whose virtual
/// height and layer, by their bits, are those of a spot between a cusp row and the row after it.
fn across(folder: &Folder, path: &Path, words: &HashMap<String, Vec<u32>>) -> Vec<usize> {
    let float = |part: &str, at: usize| f32::from_bits(words[part][at]);
    let job = fs::read(path).unwrap();
    let asked = f32::from_bits(word(&job, GHOP)) * 6370.0;
    let amind = f32::from_bits(word(&job, AMIND));
    let between = |i: usize| {
        let (g1, g2) = (float("gdflx", i), float("gdflx", i + 1));
        let straddled = (g1 < asked && asked < g2) || (g2 < asked && asked < g1);
        let (h1, h2) = (float("hpflx", i), float("hpflx", i + 1));
        let height = h1 + (h2 - h1) * (asked - g1) / (g2 - g1);
        straddled.then_some((height.to_bits(), words["imode"][i]))
    };
    let kinds = &words["kind"];
    let cusps = (0..44).filter(|i| kinds[*i] == 3 && kinds[i + 1] == 4);
    let cusps: Vec<_> = cusps.filter_map(between).collect();
    let shown = folder.ray(&[OsStr::new("show"), path.as_os_str()]);
    assert!(shown.text().lines().all(|line| line.len() <= 78 && !line.ends_with(' ')));
    assert!(shown.text().is_ascii());
    let slots = shown.text().split("\nRAYS for ").nth(1).unwrap();
    let marked = slots.lines().skip(4).take(6).enumerate().filter(|(slot, line)| {
        assert!(line.starts_with(&format!("  {} ", slot + 1)), "{line}");
        let ray = words["itmod"][*slot] != 5 && float("delmod", *slot) >= amind;
        let made = (words["hpmod"][*slot], words["itmod"][*slot]);
        let found = line.contains(" across a cusp ");
        assert_eq!(found, ray && cusps.contains(&made), "{}: {line}", path.display());
        found
    });
    marked.map(|(slot, _)| slot + 1).collect()
}

#[test]
fn rays_across_a_cusp_are_marked() {
    let folder = Folder::new("cusps");
    let mut seen = HashMap::new();
    for (name, path, words) in accepted(&folder) {
        seen.insert(name, across(&folder, &path, &words));
    }
    assert_eq!((&seen["noon"][..], &seen["six-rays"][..]), (&[2][..], &[2, 4][..]));
    // Other lengths over the same tables.
    let mut marked = 0;
    for name in ["noon", "six-rays", "overhead", "x-near-rays", "x-zigzag-44"] {
        let path = sample(name);
        for hop in (50..3_000).step_by(59) {
            let hop = hop.to_string();
            let words = ["ask", path.to_str().unwrap(), "moved.job", "hop", &hop];
            folder.ray(&words).does();
            let words = listed(&folder.ray(&["words", "moved.job"]));
            marked += across(&folder, &folder.file("moved.job"), &words).len();
        }
    }
    assert!(marked > 20, "{marked}");
}

/// Rows of kinds 3 and 4 and rows below 0 km are hollow, and three marks of the legend.
#[test]
fn rows_at_a_cusp_are_hollow() {
    let folder = Folder::new("hollow");
    for (name, path, words) in accepted(&folder) {
        let drawn = folder.ray(&[OsStr::new("draw"), path.as_os_str()]);
        let drawn = drawn.text();
        let rows = words["rows"][0] as usize;
        let hollow = |row: &usize| {
            let length = f32::from_bits(words["gdflx"][*row]);
            length.is_finite() && (words["kind"][*row] >= 3 || length < -0.05)
        };
        let expected = 3 + (0..rows).filter(hollow).count();
        let marks = drawn.lines().flat_map(|line| line.split("/>"));
        let found = marks.filter(|mark| {
            mark.contains("fill=\"#fff\" stroke=\"#")
                && ["#c04a00", "#00805a", "#0060a8"].iter().any(|colour| mark.contains(colour))
        });
        assert_eq!(found.count(), expected, "{name}");
        assert_eq!(drawn.matches(">made at a cusp<").count(), 1, "{name}");
    }
}

#[test]
fn a_file_is_made_or_overwritten() {
    let folder = Folder::new("files");
    folder.put("old", &[7; 100_000]);
    for (command, file) in
        [("draw", "old"), ("draw", "new.svg"), ("job", "old"), ("job", "new.ans")]
    {
        let printed = folder.ray(&[command, "noon.job"]);
        assert!(printed.does().len() > 1_000);
        assert_eq!(folder.ray(&[command, "noon.job", file]).does(), b"");
        assert_eq!(folder.read(file), printed.out);
        assert_eq!(folder.ray(&[command, "noon.job", "-"]), printed);
    }
    // The job's own file: all work is done before it is opened.
    assert_eq!(folder.ray(&["ask", "noon.job", "noon.job", "hop", "900"]).does(), b"");
    assert_eq!(folder.ray(&["check", "noon.job"]).does(), b"noon.job: accepted\n");
}

#[test]
fn a_file_that_cannot_be_written_is_told() {
    let folder = Folder::new("unwritten");
    fs::create_dir(folder.file("folder")).unwrap();
    for words in [&["draw", "noon.job"][..], &["job", "noon.job"]] {
        let to = |file| folder.ray(&[words, &[file]].concat());
        to("no/such").fails(73, "ray: no/such: No such file or directory\n");
        to("folder").fails(73, "ray: folder: Is a directory\n");
        to("").fails(73, "ray: : No such file or directory\n");
        to("/dev/full").fails(74, "ray: /dev/full: not all could be written\n");
    }
    let asked = folder.ray(&["ask", "noon.job", "folder", "hop", "900"]);
    asked.fails(73, "ray: folder: Is a directory\n");
    for command in ["show noon.job", "draw noon.job", "job noon.job", "check noon.job", "help"] {
        let full = folder.shell(&format!("\"$RAY\" {command} >/dev/full"));
        full.fails(74, "ray: standard output: not all could be written\n");
    }
    folder.put("summer.es", &summer().bytes());
    let full = folder.shell("\"$RAY\" es summer.es >/dev/full");
    full.fails(74, "ray: standard output: not all could be written\n");
    folder.put("bad.job", b"");
    let full = folder.shell("\"$RAY\" check bad.job >/dev/full");
    full.fails(74, "ray: standard output: not all could be written\n");
    // Before the file is opened.
    folder.ray(&["draw", "nix", "folder"]).fails(66, "ray: nix: No such file or directory\n");
    assert_eq!(folder.names(), ["bad.job", "folder", "noon.job", "summer.es"]);
}

/// A reader that has left, as `head` does: an output that fails, and no signal ends the tool.
#[test]
fn a_closed_pipe_is_told() {
    let folder = Folder::new("pipe");
    for command in ["show", "draw", "job", "words", "check"] {
        let (reader, writer) = io::pipe().unwrap();
        drop(reader);
        let mut ray = Command::new(tool());
        ray.args([command, "noon.job"]).current_dir(&folder.0).stdin(Stdio::null()).stdout(writer);
        let ran = Ran::of(ray.output().unwrap());
        ran.fails(74, "ray: standard output: not all could be written\n");
    }
}

#[test]
fn closed_descriptors_do_no_harm() {
    let folder = Folder::new("closed");
    let noon = folder.read("noon.job");
    let closed = folder.shell("\"$RAY\" show noon.job >&-");
    closed.fails(74, "ray: standard output: not all could be written\n");
    assert_eq!(folder.shell("\"$RAY\" job noon.job a <&- >&- 2>&-").does(), b"");
    assert_eq!(folder.read("a"), folder.ray(&["job", "noon.job"]).out);
    assert_eq!(folder.shell("\"$RAY\" show noon.job 2>&- <&-"), folder.ray(&["show", "noon.job"]));
    // What is said where there is no standard error goes nowhere, and into no file.
    folder.put("bad.job", b"");
    folder.shell("\"$RAY\" draw bad.job b 2>&-").fails(1, "");
    folder.shell("\"$RAY\" draw noon.job no/such 2>&- <&- >&-").fails(73, "");
    assert_eq!(folder.names(), ["a", "bad.job", "noon.job"]);
    assert_eq!(folder.read("noon.job"), noon);
}

#[test]
fn names_are_shown_plain() {
    let folder = Folder::new("names");
    fs::create_dir(folder.file("deep")).unwrap();
    let name = OsStr::new("deep/n\u{e9}o\non.job");
    fs::copy(sample("noon"), folder.file("deep").join("n\u{e9}o\non.job")).unwrap();
    let checked = folder.ray(&[OsStr::new("check"), name]);
    assert_eq!(checked.text(), "deep/n??o?on.job: accepted\n");
    // A path is text: a name that is not UTF-8 is refused, whether the file is there or not.
    let other = OsStr::from_bytes(b"deep/n\xffo\non.job");
    fs::copy(sample("noon"), folder.file("deep").join(OsStr::from_bytes(b"n\xffo\non.job")))
        .unwrap();
    let refused = "ray: deep/n?o?on.job: invalid filename\n";
    folder.ray(&[OsStr::new("check"), other]).fails(66, refused);
    folder.ray(&[OsStr::new("job"), name, other]).fails(73, refused);
    let first = |ran: Ran| ran.text().lines().next().unwrap().to_string();
    // The sheet has the last part alone, at the right.
    let shown = first(folder.ray(&[OsStr::new("show"), name]));
    assert_eq!((shown.len(), shown.ends_with(" n??o?on.job")), (78, true), "{shown}");
    let input = File::open(folder.file("noon.job")).unwrap();
    let shown = first(folder.ray_on(&["show", "-"], input.into()));
    assert!(shown.ends_with(" standard input"), "{shown}");
    let input = File::open(folder.file("noon.job")).unwrap();
    let drawn = folder.ray_on(&["draw", "-"], input.into());
    assert!(drawn.text().contains("standard input"));
}

/// Whether w is the f32 nearest to n / d, ties to even: twice the fraction against the sums with
/// both neighbours, over whole numbers.
fn is_nearest(w: u32, n: u128, d: u128) -> bool {
    if n == 0 {
        return w == 0;
    }
    // Values times 2^60.
    let value = |w: u32| u128::from(w & 0x7f_ffff | 0x80_0000) << ((w >> 23) - 90);
    let [below, above] = [w - 1, w + 1].map(|other| (value(w) + value(other)) * d);
    let twice = 2 * (n << 60);
    let even = w % 2 == 0;
    (below < twice && twice < above) || (even && (below == twice || twice == above))
}

#[test]
fn asked_numbers_are_rounded_once() {
    let folder = Folder::new("rounded");
    let mut prng = Prng::new(13);
    let noon = folder.read("noon.job");
    let ask = |pairs: &[(&str, String)]| {
        let mut words = vec!["ask".to_string(), "noon.job".into(), "-".into()];
        pairs.iter().for_each(|(name, number)| words.extend([name.to_string(), number.clone()]));
        let ran = folder.ray(&words);
        let bytes = ran.does().to_vec();
        assert_eq!(bytes.len(), noon.len());
        let others = |b: &[u8]| (b[..4 * FREQ].to_vec(), b[4 * FI..].to_vec());
        assert!(others(&bytes) == others(&noon), "{words:?}");
        bytes
    };
    // n thousandths, as short as it goes or with all decimals.
    let text = |n: u64, prng: &mut Prng| {
        let long = format!("{}.{:03}", n / 1_000, n % 1_000);
        match prng.below(2) {
            0 => long,
            _ => long.trim_end_matches('0').trim_end_matches('.').to_string(),
        }
    };
    for turn in 0..400 {
        let freq = 2_000 + prng.below(28_001) as u64;
        let min = prng.below(90_001) as u64;
        let hop = match turn {
            0 => 0,
            1 => 1,
            2 => 25_480_000,
            _ => prng.below(25_480_001) as u64,
        };
        let pairs = [
            ("freq", text(freq, &mut prng)),
            ("hop", text(hop, &mut prng)),
            ("min", text(min, &mut prng)),
        ];
        let bytes = ask(&pairs);
        assert!(is_nearest(word(&bytes, FREQ), freq.into(), 1_000), "{pairs:?}");
        assert!(is_nearest(word(&bytes, AMIND), min.into(), 1_000), "{pairs:?}");
        assert!(is_nearest(word(&bytes, GHOP), hop.into(), 6_370_000), "{pairs:?}");
        // Rust's own reading of the text.
        assert_eq!(word(&bytes, FREQ), pairs[0].1.parse::<f32>().unwrap().to_bits());
        assert_eq!(word(&bytes, AMIND), pairs[2].1.parse::<f32>().unwrap().to_bits());
    }
    // One pair alone leaves the other words as they were, and in any order they do the same.
    let one = ask(&[("hop", "900".into())]);
    assert_eq!((word(&one, FREQ), word(&one, AMIND)), (word(&noon, FREQ), word(&noon, AMIND)));
    let all =
        [("hop", "900"), ("min", "4.5"), ("freq", "7")].map(|(name, n)| (name, n.to_string()));
    let mut turned = all.clone();
    turned.reverse();
    assert_eq!(ask(&all), ask(&turned));
}

#[test]
fn an_asked_length_prints_as_it_was_given() {
    let folder = Folder::new("length");
    for km in ["900", "250.5", "1600", "3333.3", "25480"] {
        folder.ray(&["ask", "noon.job", "moved.job", "hop", km]).does();
        let shown = folder.ray(&["show", "moved.job"]);
        let line =
            shown.text().lines().find(|l| l.starts_with("  Asked hop ")).unwrap().to_string();
        let given: f64 = km.parse().unwrap();
        assert!(line.contains(&format!(" {given:.1} km")), "{km}: {line}");
    }
}

#[test]
fn what_ask_would_break_is_refused() {
    let folder = Folder::new("asked");
    folder.put("kept", b"as it was");
    for (pair, number) in
        [(["freq", "30.001"], 5), (["min", "90.001"], 6), (["hop", "25480.01"], 7)]
    {
        let words = ["ask", "noon.job", "kept", pair[0], pair[1]];
        let ran = folder.ray(&words);
        assert_eq!((ran.status, ran.out.len()), (number, 0));
        assert!(ran.err.starts_with(&format!("ray: noon.job: refused, limit {number}: ")));
        assert!(ran.err.contains("\n  found: "), "{}", ran.err);
    }
    // What is changed may mend the job.
    folder.put("bad.job", &noon_with(&[(FREQ, 0x41fc_0000)]));
    assert_eq!(folder.ray(&["ask", "bad.job", "good.job", "freq", "14.2"]).does(), b"");
    assert_eq!(folder.ray(&["check", "good.job"]).does(), b"good.job: accepted\n");
    assert_eq!(folder.read("kept"), b"as it was");
    assert_eq!(folder.names(), ["bad.job", "good.job", "kept", "noon.job"]);
}

/// The file of `es`, changed.
fn es_with(change: impl Fn(&mut EsFile)) -> Vec<u8> {
    let mut file = summer();
    change(&mut file);
    file.bytes()
}

/// What esmod refuses, with the sentence and what is found: the first in the order of its limits.
fn es_refused() -> Vec<(i32, Vec<u8>, &'static str, &'static str)> {
    let length = "the file is not 104 bytes long";
    let freq = "the frequency, freq, is not within 2 to 30 MHz";
    let amind = "the minimum angle, amind, is not within 0 to 90 deg";
    let es = "km, fs, hs, gcd, gcdkm or fsdead is not within its range";
    let whole = summer().bytes();
    // All that limit 14 looks at.
    let all = |file: &mut EsFile| {
        (file.fs, file.hs) = ([[-1.0; 3]; 5], [f32::NAN; 5]);
        (file.gcd, file.gcdkm, file.fsdead) = (0.0, -1.0, 100.5);
    };
    vec![
        (1, whole[..77].to_vec(), length, "77 bytes"),
        (1, vec![], length, "0 bytes"),
        (1, whole[..103].to_vec(), length, "103 bytes"),
        (1, [&whole[..], &[0]].concat(), length, "more than 104 bytes"),
        (
            5,
            es_with(|file| {
                all(file);
                (file.km, file.amind, file.freq) = (0, 91.0, 31.5);
            }),
            freq,
            "freq 31.500 (41FC0000)",
        ),
        (
            6,
            es_with(|file| {
                all(file);
                (file.km, file.amind) = (9, -1.0);
            }),
            amind,
            "amind -1.000 (BF800000)",
        ),
        (
            14,
            es_with(|file| {
                all(file);
                file.km = 0;
            }),
            es,
            "km 0, which has to be 1 to 5",
        ),
        (14, es_with(|file| file.km = 6), es, "km 6, which has to be 1 to 5"),
        (14, es_with(|file| file.km = u32::MAX), es, "km 4294967295, which has to be 1 to 5"),
        (14, es_with(all), es, "hs, point 0: NaN (7FC00000), which has to be 80 to 200 km"),
        (
            14,
            es_with(|file| {
                (file.fs[0], file.fs[1][0]) = ([1.0, 2.0, 100.5], -1.0);
                file.hs[1] = 250.0;
            }),
            es,
            "fs 3, point 0: 100.500 (42C90000), which has to be 0 to 100 MHz",
        ),
        (
            14,
            es_with(|file| (file.hs[2], file.fsdead) = (75.0, -1.0)),
            es,
            "hs, point 2: 75.000 (42960000), which has to be 80 to 200 km",
        ),
        (
            14,
            es_with(|file| {
                (file.km, file.hs[3], file.hs[4], file.fs[4][1]) = (5, 80.0, 200.0, -0.5)
            }),
            es,
            "fs 2, point 4: -0.500 (BF000000), which has to be 0 to 100 MHz",
        ),
        (
            14,
            es_with(|file| (file.gcd, file.gcdkm) = (3.3, -1.0)),
            es,
            "gcd 3.300 (40533333), which has to be 0.001 to 3.2 radians",
        ),
        (
            14,
            es_with(|file| (file.gcdkm, file.fsdead) = (20200.0, -1.0)),
            es,
            "gcdkm 20200.000 (469DD000), which has to be 0 to 20100 km",
        ),
        (
            14,
            es_with(|file| file.fsdead = f32::INFINITY),
            es,
            "fsdead inf (7F800000), which has to be 0 to 100 MHz",
        ),
    ]
}

#[test]
fn a_refused_file_of_es_has_its_number_and_two_lines() {
    let folder = Folder::new("es-refused");
    for (number, bytes, sentence, found) in es_refused() {
        folder.put("it.es", &bytes);
        let lines = format!(": refused, limit {number}: {sentence}\n  found: {found}\n");
        folder.ray(&["es", "it.es"]).fails(number, &format!("ray: it.es{lines}"));
        let input = File::open(folder.file("it.es")).unwrap();
        let ran = folder.ray_on(&["es", "-"], input.into());
        ran.fails(number, &format!("ray: standard input{lines}"));
    }
    let lines =
        ": refused, limit 1: the file is not 104 bytes long\n  found: more than 104 bytes\n";
    folder.ray(&["es", "/dev/zero"]).fails(1, &format!("ray: /dev/zero{lines}"));
}

/// The lines of slots 4 and 5: hops, angle, height and delay, or None where it is empty.
fn es_slots(page: &str) -> [Option<[f64; 4]>; 2] {
    ["  4   ", "  5   "].map(|slot| {
        let line = page.lines().find_map(|line| line.strip_prefix(slot)).unwrap();
        let numbers: Vec<_> = line.split_whitespace().map(|word| word.parse().ok()).collect();
        match numbers[..] {
            [None] if line == "empty" => None,
            [Some(hops), Some(angle), Some(height), Some(delay)] => {
                Some([hops, angle, height, delay])
            }
            _ => panic!("{page}"),
        }
    })
}

#[test]
fn the_samples_of_es_are_answered_as_their_page_says() {
    let folder = Folder::new("es");
    for sample in es_samples() {
        let path = top().join("jobs").join(sample.file());
        let ran = folder.ray(&[OsStr::new("es"), path.as_os_str()]);
        match sample.expected {
            Ok(slots) => {
                ran.does();
                let found = es_slots(ran.text()).map(|slot| slot.is_some());
                assert_eq!(found, slots, "{}", sample.name);
                let told = ran.text().lines().any(|line| line.starts_with("No ray: "));
                assert_eq!(told, slots == [false; 2], "{}", sample.name);
            }
            Err(number) => assert_eq!(ran.status, number as i32, "{}", sample.name),
        }
    }
    folder.put("summer.es", &summer().bytes());
    let input = File::open(folder.file("summer.es")).unwrap();
    let named = folder.ray(&["es", "summer.es"]);
    let lines: Vec<_> = named.text().lines().collect();
    assert_eq!(lines[0], "SPORADIC E of summer.es: slots 4 and 5");
    assert_eq!(lines[2], "  Point 1 of the 3, counted from 0, governs: the smallest middle fs.");
    let asked = [
        "  Frequency        28.200 MHz          Middle fs         5.900 MHz",
        "  Path, gcdkm      1450.0 km           Height, hs        110.0 km",
        "  Path, gcd         0.228 rad          Cutoff, fsdead    2.700 MHz",
        "  Minimum angle     3.000 deg",
    ];
    assert_eq!(lines[4..8], asked);
    let read = folder.ray_on(&["es", "-"], input.into());
    assert_eq!(read.text(), named.text().replace("summer.es", "standard input"));
}

/// The program of docs/JOB.md writes a file of `es`, and its page has the rays that stand there too.
#[test]
fn a_file_of_es_is_written_as_its_page_says() {
    let page = fs::read_to_string(top().join("docs/JOB.md")).unwrap();
    let program = page.lines().skip_while(|line| *line != "    import struct");
    let program: Vec<_> = program.map_while(|line| line.strip_prefix("    ")).collect();
    let folder = Folder::new("es-written");
    folder.put("write.py", program.join("\n").as_bytes());
    folder.shell("python3 write.py").does();
    let ran = folder.ray(&["es", "path.es"]);
    ran.does();
    let slots = es_slots(ran.text());
    assert_eq!(slots, [Some([1.0, 3.809, 105.0, 5.423]), Some([2.0, 12.79, 105.0, 5.559])]);
    let above =
        "slot4: b 3.809, hn 1, hp 105, timed 5.423; slot5: b 12.790, hn 2, hp 105, timed 5.559";
    assert!(page.contains(above));
}

/// What is printed of random files, beside the geometry in f64.
#[test]
fn the_page_of_es_has_the_geometry() {
    let folder = Folder::new("es-random");
    let mut prng = Prng::new(14);
    let mut shown = [0; 4];
    for _ in 0..400 {
        let gcdkm = prng.within(50.0, 5500.0);
        let file = EsFile {
            km: 1 + prng.below(5) as u32,
            fs: [(); 5].map(|_| [(); 3].map(|_| prng.within(0.5, 12.0))),
            hs: [(); 5].map(|_| prng.within(80.0, 200.0)),
            gcd: gcdkm / 6370.0,
            gcdkm,
            amind: prng.within(0.0, 20.0),
            freq: prng.within(2.0, 30.0),
            fsdead: prng.within(0.0, 4.0),
        };
        folder.put("it.es", &file.bytes());
        let ran = folder.ray(&["es", "it.es"]);
        ran.does();
        let page = ran.text();
        assert!(page.lines().all(|line| line.len() <= 78 && !line.ends_with(' ')), "{page}");
        assert!(page.is_ascii() && page.ends_with('\n'), "{page}");
        let middle = |point: &usize| file.fs[*point][1];
        let counted = 0..file.km as usize;
        let point = counted.min_by(|a, b| middle(a).total_cmp(&middle(b))).unwrap();
        let governs = format!("  Point {point} of the {}, counted from 0, governs: ", file.km);
        assert!(page.contains(&governs), "{page}");
        let slots = es_slots(page);
        let dead = file.freq <= file.fsdead;
        assert_eq!(
            page.contains("\nNo ray: the frequency is not above the cutoff"),
            dead,
            "{page}"
        );
        if dead {
            assert_eq!(slots, [None; 2], "{page}");
            continue;
        }
        let height = f64::from(file.hs[point]);
        let farthest = 2.0 * 6370.0 * (1.0 / (1.0 + height / 6370.0)).acos();
        let hops = f64::from(gcdkm) / farthest + 1.0;
        let mut near = (hops - hops.round()).abs() < 1e-4;
        let expected = [hops.floor(), hops.floor() + 1.0].map(|hop| {
            let half = 0.5 * f64::from(file.gcd) / hop;
            let down = (half.sin() / (1.0 - half.cos() + height / 6370.0)).atan();
            let rise = std::f64::consts::FRAC_PI_2 - half - down;
            let path = hop * 2.0 * half.sin() * (6370.0 + height) / rise.cos();
            let angle = rise.to_degrees();
            near |= (angle - f64::from(file.amind)).abs() < 0.001;
            let given = hop <= 2.0 && angle >= f64::from(file.amind);
            given.then_some([hop, angle, height, path / 299.79246])
        });
        // Where a last bit may decide, either is right.
        if near {
            continue;
        }
        for (slot, expected) in slots.iter().zip(&expected) {
            let same = match (slot, expected) {
                (Some(slot), Some(expected)) => {
                    let off = |i: usize| (slot[i] - expected[i]).abs();
                    off(0) == 0.0 && off(1) < 0.002 && off(2) < 0.051 && off(3) < 0.002
                }
                (slot, expected) => slot.is_none() && expected.is_none(),
            };
            assert!(same, "{expected:?}\n{page}");
        }
        let none = page.contains("\nNo ray: by one or two hops the path is too long");
        assert_eq!(none, slots == [None; 2], "{page}");
        shown[slots.iter().fold(0, |n, slot| 2 * n + usize::from(slot.is_some()))] += 1;
    }
    assert!(shown.iter().all(|n| *n > 10), "{shown:?}");
}

/// The stored runs of the gate are the tool's: each line of crates/tool_runs/stdin, in a copy of
/// its data.
#[test]
fn the_stored_runs_are_the_tools() {
    let folder = Folder::new("stored");
    let runs = top().join("crates/tool_runs");
    for entry in fs::read_dir(runs.join("data")).unwrap() {
        let path = entry.unwrap().path();
        fs::copy(&path, folder.file(path.file_name().unwrap().to_str().unwrap())).unwrap();
    }
    let mut text = Vec::new();
    for line in
        fs::read(runs.join("stdin")).unwrap().strip_suffix(b"\n").unwrap().split(|b| *b == b'\n')
    {
        let words = line.split(|b| *b == b' ').map(OsStr::from_bytes);
        let words: Vec<_> = if line.is_empty() { vec![] } else { words.collect() };
        let ran = folder.ray(&words);
        text.extend([b"$ ray ", line, b"\n", &ran.out].concat());
        // The system's own words go to the program's standard error, which is not stored.
        if ran.status != 66 && ran.status != 73 {
            text.extend(ran.err.as_bytes());
        }
        text.extend(format!("status {}\n", ran.status).as_bytes());
    }
    let stored = fs::read(runs.join("stdout")).unwrap();
    let differs = text.iter().zip(&stored).position(|(a, b)| a != b);
    assert!(text == stored, "they differ from byte {differs:?} on");
}

/// The gate's program has its own copies of the samples, and jobs that break each limit.
#[test]
fn the_stored_runs_have_the_samples() {
    let folder = Folder::new("refused-runs");
    let data = top().join("crates/tool_runs/data");
    for entry in fs::read_dir(top().join("jobs")).unwrap() {
        let path = entry.unwrap().path();
        if path.extension() != Some(OsStr::new("md")) {
            let copy = data.join(path.file_name().unwrap());
            assert!(fs::read(&path).unwrap() == fs::read(&copy).unwrap(), "{}", copy.display());
        }
    }
    for entry in fs::read_dir(&data).unwrap() {
        let path = entry.unwrap().path();
        let name = path.file_name().unwrap().to_str().unwrap();
        if let Some(number) = name.strip_prefix("refused-") {
            let number: u32 = number.split(['-', '.']).next().unwrap().parse().unwrap();
            let found = if name.ends_with(".es") {
                folder.ray(&[OsStr::new("es"), path.as_os_str()]).status as u32
            } else {
                entries::job(&fs::read(&path).unwrap(), &mut [0; Answer::BYTES])
            };
            assert_eq!(found, number, "{name}");
        } else {
            assert!(top().join("jobs").join(name).is_file(), "{name} is no sample");
        }
    }
}

/// The script at the top, from anywhere.
#[test]
fn the_front_page_shows_what_the_tool_prints() {
    let folder = Folder::new("front");
    let drawn = folder.ray(&["draw", "noon.job"]);
    assert_eq!(drawn.does(), fs::read(top().join("docs/noon.svg")).unwrap());
    let page = fs::read_to_string(top().join("README.md")).unwrap();
    let sheet = folder.ray(&["show", "noon.job"]);
    let upper = sheet.text().split("\nREFLECTRIX").next().unwrap();
    let indented = |line: &str| if line.is_empty() { String::new() } else { format!("    {line}") };
    let block: Vec<_> = upper.trim_end().lines().map(indented).collect();
    assert!(page.contains(&block.join("\n")), "README.md has another sheet");
}

#[test]
fn the_script_runs_the_tool() {
    let folder = Folder::new("script");
    let script = top().join("ray");
    let run = |program: &Path, words: &[&str]| {
        let mut command = Command::new(program);
        Ran::of(command.args(words).current_dir(&folder.0).stdin(Stdio::null()).output().unwrap())
    };
    let expected = folder.ray(&["check", "noon.job"]);
    assert_eq!(run(&script, &["check", "noon.job"]), expected);
    symlink(&script, folder.file("linked")).unwrap();
    assert_eq!(run(&folder.file("linked"), &["check", "noon.job"]), expected);
    assert_eq!(run(&script, &["show"]), folder.ray(&["show", "noon.job"]));
    assert_eq!(run(&script, &["show", "noon.job"]), folder.ray(&["show", "noon.job"]));
    run(&script, &["sho"]).fails(64, "ray: no command 'sho'; 'ray help' lists them\n");
    run(&script, &["show", "a b", ""]).fails(64, "ray: show takes JOB; 'ray help' says more\n");
}

/// In a copy where nothing is built and what it takes is missing, it says so.
#[test]
fn the_script_says_what_it_lacks() {
    let folder = Folder::new("bare");
    fs::copy(top().join("ray"), folder.file("ray")).unwrap();
    folder.put("crates.txt", b"tool_entry:\n");
    let bin = folder.file("bin");
    fs::create_dir(&bin).unwrap();
    for name in
        ["awk", "bash", "cat", "cp", "dirname", "find", "mkdir", "mv", "readlink", "sed", "wc"]
    {
        let found =
            Command::new("sh").args(["-c", &format!("command -v {name}")]).output().unwrap();
        let found = String::from_utf8(found.stdout).unwrap();
        symlink(found.trim(), bin.join(name)).unwrap();
    }
    let run = || {
        let mut command = Command::new("bash");
        command.arg(folder.file("ray")).arg("show").env("PATH", &bin).stdin(Stdio::null());
        Ran::of(command.output().unwrap())
    };
    let ran = run();
    assert_eq!((ran.status, ran.out.len()), (69, 0));
    assert!(ran.err.contains("'rt' is not found"), "{}", ran.err);
    let fake = |name: &str, text: &str| {
        fs::write(bin.join(name), text).unwrap();
        fs::set_permissions(bin.join(name), fs::Permissions::from_mode(0o755)).unwrap();
    };
    for name in ["arith", "words", "tool_entry"] {
        fs::create_dir_all(folder.file(&format!("crates/{name}"))).unwrap();
    }
    fake("rt", "#!/bin/sh\necho 'rt: FAILED: tool'\nexit 1\n");
    let ran = run();
    assert_eq!((ran.status, ran.out.len()), (70, 0));
    assert!(ran.err.contains("the build failed at tool_entry"), "{}", ran.err);
    // A stand-in that proves two crates, of which one takes no time, and a tool that prints its words.
    folder.put("crates.txt", b"arith:\nwords:\ntool_entry: arith words\n");
    fake(
        "rt",
        "#!/bin/bash\n\
         [ \"${PWD##*/}\" = words ] || /bin/sleep 4\n\
         [ \"$1\" = run ] || exit 0\n\
         mkdir -p out && { echo '#!/bin/bash'; echo 'echo \"$@\"'; } >out/tool_entry\n\
         /bin/chmod +x out/tool_entry\n",
    );
    let ran = run();
    assert_eq!(ran.status, 0, "{}", ran.err);
    assert_eq!(ran.text(), format!("show {}\n", folder.file("jobs/noon.job").display()));
    for line in ["ray: 1 of 3: arith proved (", "ray: 3 of 3: tool_entry proved ("] {
        assert!(ran.err.contains(line), "{}", ran.err);
    }
    assert!(!ran.err.contains("words proved"), "{}", ran.err);
}
