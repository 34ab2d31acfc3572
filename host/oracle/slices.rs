//! Cuts the oracle out of the Rust source: the items of slices.txt, checked by their digests, and
//! altered as alterations.txt tells.

use crate::sha256::sha256;

/// The methods that are led to the library's entry points.
const ANGLE_CALLS: [&str; 6] = ["sin", "cos", "asin", "acos", "atan", "cos_modes"];

/// One line of slices.txt.
pub struct Slice<'a> {
    item: &'a str,
    pub file: &'a str,
    first: usize,
    last: usize,
    angle_calls: &'a str,
    sha256: &'a str,
}

pub fn parse(table: &str) -> Vec<Slice<'_>> {
    let lines = table.lines().filter(|l| !l.starts_with('#'));
    lines
        .map(|line| match line.split_whitespace().collect::<Vec<_>>()[..] {
            [item, file, first, last, angle_calls, sha256] => Slice {
                item,
                file,
                first: first.parse().expect("the number of a first line"),
                last: last.parse().expect("the number of a last line"),
                angle_calls,
                sha256,
            },
            _ => panic!("not a line of six fields: {line}"),
        })
        .collect()
}

/// One variant of the items that call angle functions.
#[derive(Debug, PartialEq)]
pub struct Variant<'a> {
    pub name: &'a str,
    /// Whether its angle calls are led to the library.
    led: bool,
    /// The variants whose alterations it has besides its own.
    besides: Vec<&'a str>,
}

/// Lines that stand before a line of an item, or instead of it, in some variants.
#[derive(Debug, PartialEq)]
pub struct Alteration<'a> {
    variants: Vec<&'a str>,
    item: &'a str,
    instead: bool,
    line: &'a str,
    new: Vec<&'a str>,
}

/// Names all variants in an alteration.
const EVERY: &str = "every";

/// The variants and the alterations of alterations.txt. Every name that an alteration has must be
/// that of a variant, or of one of the `slices` that have angle calls.
pub fn parse_alterations<'a>(
    table: &'a str,
    slices: &[Slice],
) -> Result<(Vec<Variant<'a>>, Vec<Alteration<'a>>), String> {
    let (mut variants, mut alterations) = (Vec::<Variant>::new(), Vec::<Alteration>::new());
    let lines = table.lines().filter(|l| !l.starts_with('#') && !l.trim().is_empty());
    for line in lines {
        let error = || format!("neither a variant nor an alteration: {line}");
        if line.starts_with(' ') {
            let alteration = alterations.last_mut().ok_or_else(error)?;
            if alteration.line.is_empty() {
                alteration.line = line.trim();
            } else {
                alteration.new.push(line);
            }
            continue;
        }
        match line.split_whitespace().collect::<Vec<_>>()[..] {
            ["variant", name, ref rest @ ..] => variants.push(Variant {
                name,
                led: rest.contains(&"led"),
                besides: rest.iter().copied().filter(|word| *word != "led").collect(),
            }),
            [names, item, place @ ("before" | "instead")] => {
                let (variants, instead) = (names.split(',').collect(), place == "instead");
                alterations.push(Alteration { variants, item, instead, line: "", new: vec![] });
            }
            _ => return Err(error()),
        }
    }
    let is_variant = |name: &&str| variants.iter().any(|variant| variant.name == *name);
    let is_item = |name| slices.iter().any(|s| s.item == name && s.has_angle_calls());
    for Alteration { variants, item, line, new, .. } in &alterations {
        if let Some(name) = variants.iter().find(|name| **name != EVERY && !is_variant(name)) {
            return Err(format!("no variant {name}"));
        }
        if !is_item(*item) {
            return Err(format!("no item {item} that calls angle functions"));
        }
        if line.is_empty() || new.is_empty() {
            return Err(format!("{item}: nothing to put before or instead of `{line}`"));
        }
    }
    if let Some(name) = variants.iter().flat_map(|v| &v.besides).find(|name| !is_variant(name)) {
        return Err(format!("no variant {name}"));
    }
    Ok((variants, alterations))
}

impl Variant<'_> {
    fn has(&self, alteration: &Alteration) -> bool {
        let names = &alteration.variants;
        names.contains(&EVERY)
            || names.contains(&self.name)
            || self.besides.iter().any(|besides| names.contains(besides))
    }

    /// The slice as this variant has it.
    pub fn of(
        &self,
        slice: &Slice,
        text: &str,
        alterations: &[Alteration],
    ) -> Result<String, String> {
        let of_this = |a: &&Alteration| a.item == slice.item && self.has(a);
        let text = altered(text, &alterations.iter().filter(of_this).collect::<Vec<_>>())
            .map_err(|e| format!("{}, {}: {e}", self.name, slice.item))?;
        Ok(if self.led { lead(&text) } else { text })
    }
}

/// The text with these alterations, each of a line that stands in it once.
fn altered(text: &str, alterations: &[&Alteration]) -> Result<String, String> {
    for Alteration { line, .. } in alterations {
        let found = text.lines().filter(|l| l.trim() == *line).count();
        if found != 1 {
            return Err(format!("{found} lines `{line}` where 1 is expected"));
        }
        let replaced = alterations.iter().filter(|a| a.instead && a.line == *line).count();
        if replaced > 1 {
            return Err(format!("{replaced} alterations instead of `{line}`"));
        }
    }
    let lines = text.split_inclusive('\n').flat_map(|old| {
        let here = |instead| {
            let here = move |a: &&&Alteration| a.instead == instead && a.line == old.trim();
            alterations.iter().filter(here).flat_map(|a| &a.new).map(|new| format!("{new}\n"))
        };
        let kept = here(true).next().is_none().then(|| old.to_string());
        here(false).chain(here(true)).chain(kept)
    });
    Ok(lines.collect())
}

/// The angle calls of a text, as slices.txt records them.
fn angle_calls(text: &str) -> String {
    let count = |name| text.matches(&format!(".{name}(")).count();
    let calls = ANGLE_CALLS.map(|name| (name, count(name)));
    let calls = calls.iter().filter(|(_, count)| *count > 0);
    let calls: Vec<_> = calls.map(|(name, count)| format!("{name}:{count}")).collect();
    if calls.is_empty() {
        "-".to_string()
    } else {
        calls.join(",")
    }
}

/// Each `.sin(` is `.ray_sin(`, and so on.
fn lead(text: &str) -> String {
    let led = |text: String, name| text.replace(&format!(".{name}("), &format!(".ray_{name}("));
    ANGLE_CALLS.into_iter().fold(text.to_string(), led)
}

impl Slice<'_> {
    /// Whether the slice calls an angle function, and so has a led form.
    pub fn has_angle_calls(&self) -> bool {
        self.angle_calls != "-"
    }

    /// The slice's lines out of the text of its file, unchanged. Its digest and its angle calls
    /// must be those that slices.txt records.
    pub fn cut(&self, source: &str) -> Result<String, String> {
        let lines = source.split_inclusive('\n');
        let text: String = lines.skip(self.first - 1).take(self.last + 1 - self.first).collect();
        let found = sha256(text.as_bytes());
        if found != self.sha256 {
            let Slice { item, file, first, last, sha256, .. } = self;
            return Err(format!(
                "{item}, {file} lines {first} to {last}: SHA-256 {found} where {sha256} is \
                 expected; the source is another than the one slices.txt was written for"
            ));
        }
        let calls = angle_calls(&text);
        if calls != self.angle_calls {
            let Slice { item, angle_calls, .. } = self;
            return Err(format!("{item}: angle calls {calls} where {angle_calls} is expected"));
        }
        Ok(text)
    }
}
