//! include/ray.h, docs/JOB.md and the wrapper have the numbers, names and forms of the crates, and
//! docs/ARCHITECTURE.md has a line for each crate.

use ray::{layout, Field, Refusal};
use std::collections::BTreeMap;
use std::fs;
use std::path::Path;

fn read(file: &str) -> String {
    let path = Path::new(env!("CARGO_MANIFEST_DIR")).join("..").join(file);
    fs::read_to_string(&path).unwrap_or_else(|e| panic!("{}: {e}", path.display()))
}

/// The header's constants, without RAY_, in their order.
fn defined() -> Vec<(String, String)> {
    let header = read("include/ray.h");
    let constants = header.lines().filter_map(|line| line.strip_prefix("#define RAY_"));
    let constants = constants.filter_map(|line| {
        let mut words = line.split_whitespace();
        Some((words.next()?.to_string(), words.next()?.to_string()))
    });
    constants.collect()
}

/// The header's constants whose names start so, without that, by name.
fn defined_as(prefix: &str) -> BTreeMap<String, usize> {
    let of_prefix = |(name, value): (String, String)| {
        Some((name.strip_prefix(prefix)?.to_string(), value.parse().ok()?))
    };
    defined().into_iter().filter_map(of_prefix).collect()
}

/// A constant of the header that is a number, an f taken away.
fn number(name: &str) -> f32 {
    let (_, value) = defined().into_iter().find(|(n, _)| n == name).expect(name);
    value.trim_end_matches('f').parse().expect(name)
}

/// The constants of a Rattle file, `const NAME: TYPE = SUM;`, by name. A sum may name those above
/// and below it.
fn constants(file: &str) -> BTreeMap<String, String> {
    let text = read(file);
    let items = text.lines().filter_map(|line| {
        let (_, item) = line.split_once("const ")?;
        let (name, rest) = item.split_once(": ")?;
        let (_, value) = rest.strip_suffix(';')?.split_once(" = ")?;
        Some((name.to_string(), value.to_string()))
    });
    items.collect()
}

/// What a sum of products of constants and whole numbers makes; brackets as in `4 * (A + B)`.
fn value(constants: &BTreeMap<String, String>, sum: &str) -> usize {
    if let Some((factor, inner)) = sum.strip_suffix(')').and_then(|s| s.split_once(" * (")) {
        return value(constants, factor) * value(constants, inner);
    }
    let term = |term: &str| term.split(" * ").map(|name| one(constants, name)).product::<usize>();
    sum.split(" + ").map(term).sum()
}

fn one(constants: &BTreeMap<String, String>, name: &str) -> usize {
    name.parse().unwrap_or_else(|_| value(constants, constants.get(name).expect(name)))
}

/// The places of layout.rt, in words: those of the job and of the answer.
fn places() -> [BTreeMap<String, usize>; 2] {
    let constants = constants("crates/job/src/layout.rt");
    let place = |name: &str| one(&constants, name);
    let group = |start: usize, names: &[&str]| -> BTreeMap<String, usize> {
        names.iter().map(|name| (name.to_string(), start + place(name))).collect()
    };
    let mut job = group(0, &["K"]);
    job.extend(group(place("SHARED"), &["NANG", "FREQ", "AMIND", "GHOP", "FI"]));
    job.extend(group(place("TABLES"), &["FVERT", "HPRIM", "HTRUE", "AFAC", "IFOB"]));
    // All others that are no count and no length are the answer's.
    let others = ["SHARED", "SHARED_WORDS", "TABLES", "TABLES_WORDS", "JOB_BYTES", "ANSWER_BYTES"];
    let is_answers =
        |name: &&str| !job.contains_key(*name) && !others.contains(name) && !COUNTS.contains(name);
    let names: Vec<&str> = constants.keys().map(String::as_str).filter(is_answers).collect();
    let answer = group(0, &names);
    assert_eq!((job.len(), answer.len()), (11, 26));
    [job, answer]
}

const COUNTS: [&str; 7] =
    ["POINTS", "POINT_NUMBERS", "TABLE_ROWS", "ENTRIES", "LAYERS", "COLUMN_ROWS", "SLOTS"];

#[test]
fn sizes() {
    let constants = constants("crates/job/src/layout.rt");
    for name in COUNTS.iter().chain(&["JOB_BYTES", "ANSWER_BYTES"]) {
        assert_eq!(number(name), one(&constants, name) as f32, "{name}");
    }
    assert_eq!(
        [layout::job::BYTES, layout::answer::BYTES],
        [one(&constants, "JOB_BYTES"), one(&constants, "ANSWER_BYTES")]
    );
    let wrappers = [
        layout::POINTS,
        layout::POINT_NUMBERS,
        layout::TABLE_ROWS,
        layout::ANGLES * layout::TABLE_ROWS,
        layout::LAYERS,
        layout::COLUMN_ROWS,
        layout::SLOTS,
    ];
    assert_eq!(wrappers, COUNTS.map(|name| one(&constants, name)));
}

#[test]
fn places_of_words() {
    let without_bytes = |prefix| {
        let mut places = defined_as(prefix);
        places.remove("BYTES");
        places
    };
    let crates = places();
    assert_eq!([without_bytes("JOB_"), without_bytes("ANSWER_")], crates);
    for (wrappers, crates) in [layout::job::NAMES, layout::answer::NAMES].into_iter().zip(crates) {
        let mut next = 0;
        for (name, words) in wrappers {
            assert_eq!(crates[*name], next, "{name}");
            next += words;
        }
        assert_eq!(wrappers.len(), crates.len());
    }
}

/// The rows of a table of docs/JOB.md that has this first line.
fn table(first: &str) -> Vec<Vec<String>> {
    let page = read("docs/JOB.md");
    let mut lines = page.lines().skip_while(|line| !line.starts_with(first)).skip(2);
    let rows = lines.by_ref().take_while(|line| line.starts_with('|'));
    let cells =
        |line: &str| line.trim_matches('|').split('|').map(|c| c.trim().to_string()).collect();
    let rows: Vec<_> = rows.map(cells).collect();
    assert!(!rows.is_empty(), "{first}");
    rows
}

#[test]
fn the_pages_tables() {
    let tables = [
        "| byte | word | name | type | count | unit | range",
        "| byte | word | name | type | count | unit | is",
    ];
    let names = [layout::job::NAMES, layout::answer::NAMES];
    for (first, names) in tables.into_iter().zip(names) {
        let rows = table(first);
        assert_eq!(rows.len(), names.len());
        let mut next = 0;
        for (row, (name, words)) in rows.iter().zip(names) {
            let expected = [4 * next, next].map(|n| n.to_string());
            assert_eq!(row[..2], expected, "{name}");
            assert_eq!(row[2], format!("`{}`", name.to_lowercase()));
            assert_eq!(row[4], words.to_string(), "{name}");
            next += words;
        }
    }
    // Ranges and limits of the job's words; fi's stand below the table.
    for field in Field::ALL {
        let rows = table(tables[0]);
        let name = format!("`{}`", field.name());
        let row = rows.iter().find(|row| row[2] == name).unwrap();
        assert_eq!(row[7], field.refusal().number().to_string(), "{name}");
        if field.name() != "fi" {
            let range = format!("{} {}", row[6], row[5]);
            assert_eq!(range.trim_end(), field.range().to_string(), "{name}");
        }
    }
    let sentences = |refusals: &[Refusal]| -> Vec<_> {
        let row = |r: &Refusal| vec![r.number().to_string(), r.sentence().to_string()];
        refusals.iter().map(row).collect()
    };
    let (of_es, of_jobs): (Vec<_>, _) = Refusal::ALL.iter().partition(|r| **r == Refusal::ES);
    assert_eq!(of_es, [Refusal::ES]);
    assert_eq!(table("| number | sentence |"), sentences(&of_jobs));
    let of_es = [Refusal::FREQ, Refusal::AMIND, Refusal::ES];
    assert_eq!(table("| number | sentence of `ray_esmod` |"), sentences(&of_es));
}

/// The page's arguments and numbers of `ray_esmod` are the header's.
#[test]
fn the_pages_tables_of_sporadic_e() {
    let header = read("include/ray.h");
    let rows = table("| argument | type | count | unit | range | is |");
    let names: Vec<_> = rows.iter().map(|row| row[0].trim_matches('`').to_string()).collect();
    let expected = ["km", "fs", "hs", "gcd", "gcdkm", "amind", "freq", "fsdead"];
    assert_eq!(names, expected);
    for (name, row) in expected.iter().zip(&rows) {
        let limit = if *name == "fsdead" { "FS" } else { &name.to_uppercase() };
        let [low, high] = ["MIN", "MAX"].map(|end| number(&format!("{limit}_{end}")));
        assert_eq!(row[4], format!("{low} to {high}"), "{name}");
        // The header's remark on the argument starts with its unit.
        let remark =
            format!(" *   {name:<7} {}", if row[3].is_empty() { "how many" } else { &row[3] });
        assert!(header.lines().any(|line| line.starts_with(&remark)), "{remark}");
    }
    let rows = table("| number of a slot | unit | is |");
    let fields = fields("crates/esmod/src/lib.rt", "pub struct EsHop");
    assert_eq!(rows.len(), fields.len());
    for ([name, _], row) in fields.iter().zip(&rows) {
        assert_eq!(row[0], format!("`{name}`"));
        let remark = format!("/* {}", if row[1].is_empty() { "the number" } else { &row[1] });
        let field = format!("    float {name}; ");
        let line = header.lines().find(|line| line.starts_with(&field)).expect(&field);
        assert!(line.contains(&remark), "{line}");
    }
}

/// The header's remarks have the types and units of the page: `u`, `i` or `f`, then the unit.
#[test]
fn types_and_units() {
    let header = read("include/ray.h");
    let tables = [
        "| byte | word | name | type | count | unit | range",
        "| byte | word | name | type | count | unit | is",
    ];
    for (first, prefix) in tables.into_iter().zip(["JOB", "ANSWER"]) {
        for row in table(first) {
            let name = row[2].trim_matches('`').to_uppercase();
            let define = format!("#define RAY_{prefix}_{name} ");
            let line = header.lines().find(|line| line.starts_with(&define)).expect(&define);
            let (_, remark) = line.split_once("/* ").expect(line);
            let (letter, rest) = remark.split_at(3);
            assert!(row[3] == format!("{}32", letter.trim_end()), "{line}");
            if row[5].is_empty() {
                assert!(
                    !["MHz", "kHz", "km", "deg", "radians"].iter().any(|u| rest.starts_with(u)),
                    "{line}"
                );
            } else {
                assert!(rest.starts_with(&format!("{}, ", row[5])), "{line}");
            }
        }
    }
}

/// The layers' numbers, as the library gives them.
#[test]
fn layers() {
    let job = |name: &str| {
        let path = Path::new(env!("CARGO_MANIFEST_DIR")).join("../jobs").join(name);
        ray::Job::from_bytes(&fs::read(path).unwrap()).unwrap()
    };
    let mut layers: Vec<u32> =
        job("noon.job").solve().unwrap().rows().map(|r| r.layer.number()).collect();
    layers.dedup();
    assert_eq!(layers, ["LAYER_E", "LAYER_F1", "LAYER_F2"].map(|name| number(name) as u32));
    assert_eq!(layers, [ray::Layer::E, ray::Layer::F1, ray::Layer::F2].map(ray::Layer::number));
    let empty = job("all-zero.job").solve().unwrap();
    let place = 4 * layout::answer::ITMOD;
    assert_eq!(empty.as_bytes()[place..][..4], (number("LAYER_EMPTY") as u32).to_le_bytes());
    assert_eq!(empty.slots(), [ray::Slot::Empty; layout::SLOTS]);
}

/// The kinds' numbers, as the walk writes them: header and wrapper have the names, and 0 besides.
#[test]
fn kinds() {
    let text = read("crates/findf/src/lib.rt");
    let (_, after) = text.split_once("pub enum RowKind {").unwrap();
    let (variants, _) = after.split_once('}').unwrap();
    let written: Vec<&str> = variants.trim().split_terminator(',').map(str::trim).collect();
    // The first has its number, and each other the next.
    assert_eq!(written.join(" "), "Exact = 1 Interp Cusp NextCusp");
    let names = ["UNWRITTEN", "EXACT", "INTERPOLATED", "CUSP", "AFTER_CUSP"];
    let numbers: Vec<usize> = (0..names.len()).collect();
    let headers = defined_as("KIND_");
    assert_eq!(headers, names.map(str::to_string).into_iter().zip(numbers.clone()).collect());
    use ray::Kind::{AfterCusp, Cusp, Exact, Interpolated, Unwritten};
    let wrappers = [Unwritten, Exact, Interpolated, Cusp, AfterCusp];
    assert!(wrappers.map(|kind| kind.number() as usize).iter().eq(&numbers));
    // The page's paragraph has each number in its order.
    let page = read("docs/JOB.md");
    let line = page.lines().find(|line| line.starts_with("- **Kinds**")).unwrap();
    let mut rest = line;
    for number in &numbers[1..] {
        let (_, after) =
            rest.split_once(&format!(" {number}, ")).unwrap_or_else(|| panic!("{number}"));
        rest = after;
    }
}

/// The two ends of a range of limits.rt.
fn ends(name: &str) -> [f32; 2] {
    let text = read("crates/limits/src/lib.rt");
    let (_, after) = text.split_once(&format!("pub const {name}: Range = Range(")).expect(name);
    let (numbers, _) = after.split_once(");").unwrap();
    let (low, high) = numbers.split_once(", ").unwrap();
    [low.parse().unwrap(), high.parse().unwrap()]
}

/// Whether the body of a function of limits.rt has this text.
fn has(function: &str, text: &str) -> bool {
    let file = read("crates/limits/src/lib.rt");
    let (_, body) = file.split_once(&format!("pub fn {function}_within(")).expect(function);
    body.split_once("\n}").unwrap().0.contains(text)
}

#[test]
fn ranges() {
    let floats = [
        (Field::Freq, "FREQ", ends("FREQ")),
        (Field::Amind, "AMIND", ends("AMIND")),
        (Field::Ghop, "GHOP", ends("GHOP")),
        (Field::FiF1, "FI_F1", ends("FI_2")),
        (Field::FiF2, "FI_F2", ends("FI_3")),
        (Field::Fvert, "FVERT", ends("FVERT")),
        (Field::Hprim, "HPRIM", ends("HPRIM")),
        (Field::Htrue, "HTRUE", ends("HTRUE")),
        (Field::Afac, "AFAC", ends("AFAC")),
    ];
    for (field, name, crates) in floats {
        let headers = ["MIN", "MAX"].map(|end| number(&format!("{name}_{end}")));
        assert_eq!(headers, crates, "{name}");
        assert_eq!([field.range().low, field.range().high], crates, "{name}");
    }
    let of_es = [("HS", ends("HS")), ("FS", ends("FS")), ("GCD", ends("GCD"))];
    let of_es = of_es.into_iter().chain([("GCDKM", ends("GCDKM"))]);
    for (name, crates) in of_es.clone() {
        assert_eq!(["MIN", "MAX"].map(|end| number(&format!("{name}_{end}"))), crates, "{name}");
    }
    let [low, high] = ["KM_MIN", "KM_MAX"].map(number);
    assert!(has("km", &format!("({low}..={high}).contains(&km)")));
    for (field, function, name) in [(Field::K, "k", "K_MAX"), (Field::Nang, "nang", "NANG_MAX")] {
        let most = number(name);
        assert!(has(function, &format!("{function} <= {most}")), "{name}");
        assert_eq!([field.range().low, field.range().high], [0.0, most], "{name}");
    }
    let [low, high] = ["IFOB_MIN", "IFOB_MAX"].map(number);
    assert!(has("entries", &format!("entry > {high}")) && has("entries", "0 <= bits"));
    assert_eq!([low, high], [Field::Ifob.range().low, Field::Ifob.range().high]);
    let ends = defined().into_iter().filter(|(n, _)| n.ends_with("_MIN") || n.ends_with("_MAX"));
    assert_eq!(ends.count(), 2 * floats.len() + 2 + 2 + 2 * of_es.count() + 2);
    assert_eq!(number("EARTH_KM"), ray::EARTH_KM);
    let radius: f32 = constants("crates/arith/src/lib.rt")["RZ"].parse().unwrap();
    assert_eq!(radius, ray::EARTH_KM);
}

/// Refusals of functions that have no C entry in the product's library.
const WITHOUT_ENTRY: [&str; 3] = ["SLOTS", "COUNT", "LAYER"];

#[test]
fn refusals() {
    // The enum's first case has the number 1, and each next one the next.
    let limits = read("crates/limits/src/lib.rt");
    let (_, after) = limits.split_once("pub enum Refusal {\n").unwrap();
    let (cases, _) = after.split_once("\n}").unwrap();
    assert!(cases.trim_start().starts_with("Job = 1,"));
    let names = cases.lines().map(|line| line.trim().trim_end_matches(" = 1,").trim_end_matches(','));
    let numbers = (1..).zip(names).filter_map(|(n, name)| {
        let name = name.to_uppercase();
        (!WITHOUT_ENTRY.contains(&name.as_str())).then_some((name, n))
    });
    let headers = defined_as("REFUSED_");
    assert_eq!(headers, numbers.collect());
    // The sentences of the header's function, by the names of the numbers.
    let header = read("include/ray.h");
    let sentences = header.lines().filter_map(|line| {
        let (name, rest) =
            line.trim().strip_prefix("case RAY_REFUSED_")?.split_once(": return \"")?;
        Some((headers[name] as u32, rest.strip_suffix("\";")?.to_string()))
    });
    let wrappers = Refusal::ALL.iter().map(|r| (r.number(), r.sentence().to_string()));
    assert_eq!(sentences.collect::<Vec<_>>(), wrappers.collect::<Vec<_>>());
    // Those that name numbers name the right ones.
    let sentence = |r: Refusal| r.sentence();
    assert!(sentence(Refusal::JOB).contains(&format!(" {} bytes", layout::job::BYTES)));
    assert!(sentence(Refusal::ANSWER).contains(&format!(" {} bytes", layout::answer::BYTES)));
    for field in [Field::K, Field::Nang, Field::Freq, Field::Amind, Field::Ghop, Field::Ifob] {
        let ends = format!("is not within {}", field.range());
        assert!(sentence(field.refusal()).ends_with(&ends), "{ends}");
        assert!(sentence(field.refusal()).contains(field.name()));
    }
    for name in ["km", "fs", "hs", "gcd", "gcdkm", "fsdead"] {
        let words = sentence(Refusal::ES).split([' ', ',']);
        assert!(words.clone().any(|word| word == name), "{name}");
    }
}

/// A parameter of a C entry, in C and in Rust: a slice is a pointer, then a length.
fn lowered(parameter: &str) -> [String; 2] {
    let (name, kind) = parameter.split_once(": ").expect(parameter);
    match kind {
        "f32" => [format!("float {name}"), parameter.to_string()],
        "usize" => [format!("size_t {name}"), parameter.to_string()],
        "&[f32; 5]" | "&[[f32; 3]; 5]" => [format!("const float *{name}"), parameter.to_string()],
        "&[u8]" => [
            format!("const uint8_t *{name}, size_t {name}_bytes"),
            format!("{name}: *const u8, {name}_bytes: usize"),
        ],
        "&mut [u8]" => [
            format!("uint8_t *{name}, size_t {name}_bytes"),
            format!("{name}: *mut u8, {name}_bytes: usize"),
        ],
        _ => panic!("{parameter}"),
    }
}

/// A text on one line, without a comma behind the last parameter.
fn on_one_line(text: &str) -> String {
    let text = text.split_whitespace().collect::<Vec<_>>().join(" ");
    text.replace("( ", "(").replace(", )", ")")
}

/// The C entries of raycore, as C and as Rust declare them, sorted.
fn entries() -> [Vec<String>; 2] {
    let crates = read("crates/raycore/src/lib.rt");
    let entries = crates.split("pub extern \"C\" fn ").skip(1);
    let mut declared = [vec![], vec![]];
    for entry in entries {
        let entry = on_one_line(entry.split_once("\n    ensures ").unwrap().0);
        let (name, rest) = entry.split_once('(').unwrap();
        let (parameters, result) = rest.split_once(") -> ").unwrap();
        let lowered: Vec<_> = parameters.split(", ").map(lowered).collect();
        let [c, rust] =
            [0, 1].map(|i| lowered.iter().map(|p| p[i].as_str()).collect::<Vec<_>>().join(", "));
        let in_c = match result {
            "f32" => "float",
            "u32" => "uint32_t",
            "EsModes" => "struct ray_es_modes",
            _ => panic!("{entry}"),
        };
        declared[0].push(format!("{in_c} {name}({c});"));
        declared[1].push(format!("fn {name}({rust}) -> {result};"));
    }
    declared.iter_mut().for_each(|entries| entries.sort());
    assert!(declared[0].len() >= 7);
    declared
}

/// The fields of a struct, name and type, in their order.
fn fields(file: &str, name: &str) -> Vec<[String; 2]> {
    let text = read(file);
    let (_, body) = text.split_once(&format!("{name} {{\n")).expect(name);
    let lines = body.split_once("\n}").unwrap().0.lines();
    let field = |line: &str| match line.trim().strip_prefix("pub ") {
        Some(of_rust) => {
            let (name, kind) = of_rust.trim_end_matches(',').split_once(": ").unwrap();
            [name.to_string(), kind.to_string()]
        }
        None => {
            let (of_c, _) = line.split_once(';').unwrap();
            let (kind, name) = of_c.trim().rsplit_once(' ').unwrap();
            [name.to_string(), kind.to_string()]
        }
    };
    lines.map(field).collect()
}

/// The structs that the C entries hand back have the same fields in the crates, in the header and in
/// the wrapper.
#[test]
fn structs() {
    let in_c = |[name, kind]: [String; 2]| {
        let kind = match kind.as_str() {
            "f32" => "float",
            "u32" => "uint32_t",
            "EsHop" => "struct ray_es_hop",
            _ => panic!("{name}: {kind}"),
        };
        [name, kind.to_string()]
    };
    for (name, c_name) in [("EsHop", "ray_es_hop"), ("EsModes", "ray_es_modes")] {
        let esmod = read("crates/esmod/src/lib.rt");
        let (before, _) = esmod.split_once(&format!("pub struct {name} {{\n")).expect(name);
        let mut attributes = before.lines().rev().take_while(|line| line.starts_with("#["));
        assert!(attributes.any(|line| line == "#[repr(C)]"), "{name}");
        let crates = fields("crates/esmod/src/lib.rt", &format!("pub struct {name}"));
        let wrappers = fields("host/ray/src/call.rs", &format!("pub struct {name}"));
        assert_eq!(wrappers, crates);
        let headers = fields("include/ray.h", &format!("\nstruct {c_name}"));
        assert_eq!(headers, crates.into_iter().map(in_c).collect::<Vec<_>>());
    }
    assert_eq!(read("host/ray/src/call.rs").matches("#[repr(C)]\n").count(), 2);
}

#[test]
fn entry_points() {
    let header = read("include/ray.h");
    let is_prototype =
        |line: &&str| line.contains(" ray_") && line.ends_with(");") && !line.starts_with(' ');
    let mut prototypes: Vec<_> = header.lines().filter(is_prototype).map(str::to_string).collect();
    prototypes.sort();
    // The wrapper's declarations, each on one line.
    let call = read("host/ray/src/call.rs");
    let (_, block) = call.split_once("unsafe extern \"C\" {").unwrap();
    let block = on_one_line(block.split_once("\n    }").unwrap().0);
    let of_rust = block.split("fn ").skip(1).map(|declaration| {
        let (declaration, _) = declaration.rsplit_once(';').unwrap();
        format!("fn {declaration};")
    });
    let mut of_rust: Vec<_> = of_rust.collect();
    of_rust.sort();
    assert_eq!([prototypes, of_rust], entries());
}

/// "no unsafe outside one module"
#[test]
fn the_wrappers_unsafe_code_stands_in_one_module() {
    let sources = Path::new(env!("CARGO_MANIFEST_DIR")).join("ray/src");
    let with_unsafe =
        fs::read_dir(sources).unwrap().map(|entry| entry.unwrap().path()).filter(|path| {
            let text = fs::read_to_string(path).unwrap();
            text.contains("unsafe ") && !text.contains("#![deny(unsafe_code)]")
                || text.contains("allow(unsafe_code)")
        });
    let names: Vec<_> = with_unsafe.map(|path| path.file_name().unwrap().to_owned()).collect();
    assert_eq!(names, ["call.rs"]);
    assert!(
        read("host/ray/src/lib.rs").contains("\n#![deny(missing_docs)]\n#![deny(unsafe_code)]\n")
    );
}

#[test]
fn every_crate_has_a_line() {
    let page = read("docs/ARCHITECTURE.md");
    let lines = page.lines().filter(|line| line.starts_with("| `"));
    // The first cell may name several.
    let named: Vec<&str> =
        lines.flat_map(|line| line.split(" | ").next().unwrap().split('`')).collect();
    let crates = read("crates.txt");
    let crates = crates
        .lines()
        .filter(|line| !line.starts_with('#'))
        .filter_map(|line| line.split_once(':'));
    let without: Vec<&str> = crates
        .map(|(name, _)| name.trim_end_matches(" staticlib"))
        .filter(|name| !named.contains(name))
        .collect();
    assert!(without.is_empty(), "docs/ARCHITECTURE.md has no line for {without:?}");
}
