//! The oracle's slicer: its digest, and what it refuses.

#[path = "../oracle/sha256.rs"]
mod sha256;
#[path = "../oracle/slices.rs"]
mod slices;

use sha256::sha256;

const SOURCE: &str = "before\nlet a = x.sin() + y.asin();\nlet b = n.cos_modes(a).sin();\nafter\n";

/// SOURCE's second and third lines as a table that records these angle calls.
fn table(angle_calls: &str) -> String {
    let lines: String = SOURCE.split_inclusive('\n').skip(1).take(2).collect();
    format!("# comment\nitem file.rs 2 3 {angle_calls} {}\n", sha256(lines.as_bytes()))
}

/// The vectors of FIPS 180-2's appendix B, the empty message, and lengths about a block's end.
#[test]
fn sha256_gives_the_known_digests() {
    let known = [
        ("", "e3b0c44298fc1c149afbf4c8996fb92427ae41e4649b934ca495991b7852b855"),
        ("abc", "ba7816bf8f01cfea414140de5dae2223b00361a396177a9cb410ff61f20015ad"),
        (
            "abcdbcdecdefdefgefghfghighijhijkijkljklmklmnlmnomnopnopq",
            "248d6a61d20638b8e5c026930c3e6039a33ce45964ff2167f6ecedd419db06c1",
        ),
    ];
    for (message, digest) in known {
        assert_eq!(sha256(message.as_bytes()), digest, "{message}");
    }
    let million = sha256(&[b'a'; 1_000_000]);
    assert_eq!(million, "cdc76e5c9914fb9281a1c7e284d73e67f1809a48a497200e046d39ccc7112cd0");
}

/// SOURCE's item as the variant `name` of `alterations` has it, where variants `plain` and `led`
/// stand before the table.
fn variant(name: &str, alterations: &str) -> Result<String, String> {
    let (table, alterations) =
        (table(CALLS), format!("variant plain\nvariant led led\n{alterations}"));
    let items = slices::parse(&table);
    let (variants, alterations) = slices::parse_alterations(&alterations, &items)?;
    let variant = variants.iter().find(|v| v.name == name).expect("a variant of the table");
    variant.of(&items[0], &items[0].cut(SOURCE).unwrap(), &alterations)
}

const CALLS: &str = "sin:2,asin:1,cos_modes:1";
const FIRST: &str = "let a = x.sin() + y.asin();\n";
const SECOND: &str = "let b = n.cos_modes(a).sin();\n";

#[test]
fn a_slice_is_cut_unchanged_and_led() {
    assert!(slices::parse(&table(CALLS))[0].has_angle_calls());
    assert_eq!(variant("plain", "").unwrap(), format!("{FIRST}{SECOND}"));
    let led = "let a = x.ray_sin() + y.ray_asin();\nlet b = n.ray_cos_modes(a).ray_sin();\n";
    assert_eq!(variant("led", "").unwrap(), led);
}

#[test]
fn a_changed_source_is_refused() {
    let table = table(CALLS);
    let slice = &slices::parse(&table)[0];
    for changed in [
        SOURCE.replace("x.sin", "y.sin"),
        SOURCE.replace("before\n", ""),
        SOURCE.replace('\n', "\r\n"),
        String::new(),
    ] {
        assert!(slice.cut(&changed).is_err(), "{changed}");
    }
    assert!(slice.cut(&SOURCE.replace("after", "later")).is_ok());
}

#[test]
fn other_angle_calls_than_those_recorded_are_refused() {
    for calls in ["-", "sin:1,asin:1,cos_modes:1", "sin:2,asin:1", "sin:2,cos:1,asin:1,cos_modes:1"]
    {
        let table = table(calls);
        let slice = &slices::parse(&table)[0];
        assert!(slice.cut(SOURCE).is_err(), "{calls}");
    }
}

/// One alteration of SOURCE's item.
fn alteration(variants: &str, place: &str, line: &str, new: &str) -> String {
    format!("# comment\n{variants} item {place}\n    {line}\n{new}\n")
}

#[test]
fn lines_are_put_before_or_instead_of_a_line() {
    let before = alteration("plain", "before", SECOND, "  count();\n    and();");
    let counted = format!("{FIRST}  count();\n    and();\n{SECOND}");
    assert_eq!(variant("plain", &before).unwrap(), counted);
    let instead = alteration("plain", "instead", FIRST, "    let a = 0;");
    assert_eq!(variant("plain", &instead).unwrap(), format!("    let a = 0;\n{SECOND}"));
    let both = format!("{before}{}", alteration("plain", "instead", SECOND, "    let b = 0;"));
    let expected = format!("{FIRST}  count();\n    and();\n    let b = 0;\n");
    assert_eq!(variant("plain", &both).unwrap(), expected);
}

#[test]
fn the_angle_calls_of_new_lines_are_led() {
    let table = alteration("every", "instead", FIRST, "  let a = x.atan();");
    assert_eq!(variant("plain", &table).unwrap(), format!("  let a = x.atan();\n{SECOND}"));
    let led = variant("led", &table).unwrap();
    assert_eq!(led, "  let a = x.ray_atan();\nlet b = n.ray_cos_modes(a).ray_sin();\n");
}

/// One variant, several, every one, and those that have another's alterations besides their own.
#[test]
fn an_alteration_is_for_the_variants_that_it_names() {
    let variants = "variant other\nvariant third\nvariant more other third\n";
    let altered = |names: &str| {
        let table = format!("{variants}{}", alteration(names, "before", FIRST, "  new"));
        let has = |name| variant(name, &table).unwrap().contains("new");
        ["plain", "led", "other", "third", "more"].map(has)
    };
    assert_eq!(altered("plain"), [true, false, false, false, false]);
    assert_eq!(altered("plain,led"), [true, true, false, false, false]);
    assert_eq!(altered("other"), [false, false, true, false, true]);
    assert_eq!(altered("third"), [false, false, false, true, true]);
    assert_eq!(altered("more"), [false, false, false, false, true]);
    assert_eq!(altered("every"), [true; 5]);
}

#[test]
fn an_alteration_that_fits_nothing_is_refused() {
    let new = "    new";
    let refused = [
        // A line that stands in the item not once: only outside of it, or nowhere.
        alteration("plain", "before", "after", new),
        alteration("plain", "instead", "let c = 0;", new),
        // Two instead of the same line.
        alteration("plain", "instead", FIRST, new).repeat(2),
        // No such variant, item or place; no line, or nothing new.
        alteration("plane", "before", FIRST, new),
        alteration("plain,plane", "before", FIRST, new),
        "variant more plane\n".to_string(),
        alteration("plain", "before", FIRST, new).replace("item", "items"),
        alteration("plain", "after", FIRST, new),
        alteration("plain", "before", FIRST, ""),
        "plain item before\n".to_string(),
        "    a line of no alteration\n".to_string(),
    ];
    for table in refused {
        assert!(variant("plain", &table).is_err(), "{table}");
    }
    let twice = "variant plain\nplain item before\n    same\n    new\n";
    let text = "same\nother\nsame\n";
    let table = format!("item file.rs 1 3 sin:1 {}\n", sha256(text.as_bytes()));
    let items = slices::parse(&table);
    let (variants, alterations) = slices::parse_alterations(twice, &items).unwrap();
    assert!(variants[0].of(&items[0], text, &alterations).is_err());
    assert!(variants[0].of(&items[0], "same\nother\n", &alterations).is_ok());
}
