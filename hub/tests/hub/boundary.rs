//! The library's source beside the hub's declarations, both as text: every export is declared, every
//! declaration is an export, and names, parameters, fields, their order and their types are the same. No other
//! file exports or declares, nothing hides a part of the two texts or gives a type another meaning, and each
//! struct has its size. Sizes and offsets as compiled are held in `src/ffi.rs`.

use std::{
    fs::{read_dir, read_to_string},
    path::{Path, PathBuf},
};

const LIBRARY: &str = include_str!("../../../crates/facets/src/lib.rt");
const DECLARED: &str = include_str!("../../src/ffi.rs");
const PACKAGE: &str = include_str!("../../src/lib.rs");

/// The structs, and how many bytes each has.
const SIZES: [(&str, usize); 4] = [("Location", 12), ("Cleaned", 8), ("Tally", 24), ("HeadRead", 12)];

/// A call or a struct: its parameters or fields in order, each a name and a type, and what it returns.
#[derive(Clone, Debug, PartialEq)]
struct Item {
    name: String,
    parts: Vec<[String; 2]>,
    result: String,
}

/// What one side says.
#[derive(Clone, Debug, Default)]
struct Side {
    calls: Vec<Item>,
    structs: Vec<Item>,
    faults: Vec<String>,
}

// ---- reading

fn is_word(sign: char) -> bool {
    sign.is_alphanumeric() || sign == '_'
}

/// The words and single signs of a source, without comments and blanks.
fn tokens(source: &str) -> Vec<&str> {
    let mut all = Vec::new();
    for line in source.lines() {
        let mut rest = line.split("//").next().unwrap_or_default().trim_start();
        while let Some(first) = rest.chars().next() {
            let word = rest.find(|sign| !is_word(sign)).unwrap_or(rest.len());
            let end = if is_word(first) { word } else { first.len_utf8() };
            all.push(&rest[..end]);
            rest = rest[end..].trim_start();
        }
    }
    all
}

/// What stands behind each place where these words stand.
fn behind<'a>(tokens: &'a [&'a str], words: &[&str]) -> Vec<&'a [&'a str]> {
    let places = tokens.windows(words.len()).enumerate().filter(|(_, run)| *run == words);
    places.map(|(at, _)| &tokens[at + words.len()..]).collect()
}

/// What stands before the first such sign, or all.
fn up_to<'a>(tokens: &'a [&'a str], sign: &str) -> &'a [&'a str] {
    tokens.split(|token| *token == sign).next().unwrap_or_default()
}

/// How often a word stands.
fn count(tokens: &[&str], word: &str) -> usize {
    tokens.iter().filter(|token| **token == word).count()
}

/// `NAME ( part, part )` or `NAME { part, part }`, then `-> RESULT` where something is returned.
fn item(tokens: &[&str], close: &str) -> Item {
    let end = tokens.iter().position(|token| *token == close).expect("an end");
    let parts = tokens[2..end].split(|token| *token == ",").filter(|part| !part.is_empty());
    let part = |part: &[&str]| {
        let colon = part.iter().position(|token| *token == ":").expect("a name and a type");
        [part[..colon].join(" "), part[colon + 1..].join(" ")]
    };
    let result = match tokens.get(end + 1..end + 4) {
        Some(["-", ">", result]) => result,
        _ => "nothing",
    };
    Item { name: tokens[0].to_owned(), parts: parts.map(part).collect(), result: result.to_owned() }
}

/// The structs laid out as C does; another one is a fault.
fn structs(tokens: &[&str], side: &mut Side) {
    let marked = behind(tokens, &["#", "[", "repr", "(", "C", ")", "]", "pub", "struct"]);
    if marked.len() != count(tokens, "struct") {
        side.faults.push("a struct without #[repr(C)]".to_owned());
    }
    side.structs = marked.into_iter().map(|tokens| item(tokens, "}")).map(without_results).collect();
}

fn without_results(item: Item) -> Item {
    Item { result: String::new(), ..item }
}

/// What may hide a part of a source: a block comment, or an attribute that is not expected.
fn hiding(source: &str, expected: &[&str], side: &mut Side) {
    if source.contains("/*") {
        side.faults.push("a block comment".to_owned());
    }
    for attribute in behind(&tokens(source), &["#"]) {
        let attribute = up_to(attribute, "]").concat();
        if !expected.contains(&attribute.as_str()) {
            side.faults.push(format!("the attribute #{attribute}]"));
        }
    }
}

/// What may give a number's type another meaning: an item that makes a type, other than a struct, and a `use`
/// that renames, takes in everything, or takes in a type of such a name.
fn other_meanings(tokens: &[&str], side: &mut Side) {
    for word in ["type", "enum", "union", "trait"] {
        if count(tokens, word) != 0 {
            side.faults.push(format!("an item {word}"));
        }
    }
    for names in behind(tokens, &["use"]) {
        for word in ["as", "*", "u8", "u16", "u32", "u64", "usize"] {
            if count(up_to(names, ";"), word) != 0 {
                side.faults.push(format!("a use with {word}"));
            }
        }
    }
}

/// What stands before the name of an export.
const EXPORTED: [&str; 13] =
    ["#", "[", "unsafe", "(", "no_mangle", ")", "]", "pub", "extern", "\"", "C", "\"", "fn"];

/// What the library exports, its parameters as C passes them.
fn library(source: &str) -> Side {
    let (tokens, mut side) = (tokens(source), Side::default());
    hiding(source, &["![tactic(auto)", "[derive(Clone,Copy)", "[unsafe(no_mangle)", "[repr(C)"], &mut side);
    structs(&tokens, &mut side);
    let marked = behind(&tokens, &EXPORTED);
    if marked.len() != count(&tokens, "extern") || marked.len() != count(&tokens, "no_mangle") {
        side.faults.push("an export without its marks".to_owned());
    }
    for tokens in marked {
        let mut call = item(tokens, ")");
        call.parts = call.parts.iter().flat_map(as_passed).collect();
        side.calls.push(call);
    }
    side
}

/// A slice passes as a pointer and a length, a lent number as a pointer.
fn as_passed([name, kind]: &[String; 2]) -> Vec<[String; 2]> {
    let pointer = |kind: &str| [name.clone(), kind.to_owned()];
    let length = || [format!("{name}_len"), "usize".to_owned()];
    match kind.as_str() {
        "& [ u8 ]" => vec![pointer("* const u8"), length()],
        "& mut [ u8 ]" => vec![pointer("* mut u8"), length()],
        "& mut u32" => vec![pointer("* mut u32")],
        "u8" | "u16" | "u32" | "u64" | "usize" => vec![pointer(kind)],
        _ => vec![pointer(&format!("{kind}, which the hub cannot pass"))],
    }
}

/// What the hub declares.
fn declared(source: &str) -> Side {
    let (tokens, mut side) = (tokens(source), Side::default());
    hiding(source, &["[repr(C)"], &mut side);
    other_meanings(&tokens, &mut side);
    structs(&tokens, &mut side);
    let blocks = behind(&tokens, &["extern", "\"", "C", "\"", "{"]);
    if blocks.len() != count(&tokens, "extern") {
        side.faults.push("an extern block that is not C's".to_owned());
    }
    for block in blocks {
        let block = up_to(block, "}");
        let calls = behind(block, &["pub", "fn"]);
        if count(block, "#") != 0 || calls.len() != count(block, "fn") {
            side.faults.push("a declaration with marks of its own".to_owned());
        }
        side.calls.extend(calls.into_iter().map(|tokens| item(tokens, ")")).map(with_pointers));
    }
    side
}

/// A lent number may be declared as a reference.
fn with_pointers(mut call: Item) -> Item {
    for [_, kind] in &mut call.parts {
        if kind == "& mut u32" {
            *kind = "* mut u32".to_owned();
        }
    }
    call
}

// ---- comparing

/// Every difference of the two sources.
fn differences(rattle: &str, rust: &str) -> Vec<String> {
    let (library, declared) = (library(rattle), declared(rust));
    let mut all = [&library.faults[..], &declared.faults].concat();
    all.extend(unlike(&library.calls, &declared.calls));
    all.extend(unlike(&library.structs, &declared.structs));
    for item in library.structs.iter().chain(&declared.structs) {
        all.extend(free_bytes(item).into_iter().chain(wrong_size(item)));
    }
    all
}

/// The items of one side that are missing on the other, stand twice, or are not the same there.
fn unlike(library: &[Item], declared: &[Item]) -> Vec<String> {
    let mut all = Vec::new();
    for (items, others, side) in [(library, declared, "declared"), (declared, library, "exported")] {
        for item in items {
            match others.iter().filter(|other| other.name == item.name).collect::<Vec<_>>()[..] {
                [other] if other == item => (),
                [other] => all.push(format!("{item:?} is {side} as {other:?}")),
                [] => all.push(format!("{} is not {side}", item.name)),
                _ => all.push(format!("{} is {side} twice", item.name)),
            }
        }
    }
    all
}

/// The bytes of a field.
fn width([_, kind]: &[String; 2]) -> Option<usize> {
    match kind.as_str() {
        "u8" => Some(1),
        "u16" => Some(2),
        "u32" => Some(4),
        "u64" => Some(8),
        _ => None,
    }
}

/// A struct whose fields do not have the bytes it is to have.
fn wrong_size(item: &Item) -> Option<String> {
    let bytes = item.parts.iter().filter_map(width).sum();
    (!SIZES.contains(&(&item.name, bytes))).then(|| format!("{} has {bytes} bytes", item.name))
}

/// A struct that C's layout leaves a free byte in: before a field, or at its end.
fn free_bytes(item: &Item) -> Option<String> {
    let sizes = item.parts.iter().map(width).collect::<Option<Vec<usize>>>();
    let filled = sizes.is_some_and(|sizes| {
        let mut end = 0;
        let close = sizes.iter().all(|size| {
            end += size;
            end % size == 0
        });
        close && sizes.iter().all(|size| end % size == 0)
    });
    (!filled).then(|| format!("{} has free bytes", item.name))
}

// ---- every other file

/// A path from the repository's root.
fn path(from_root: &str) -> PathBuf {
    Path::new(concat!(env!("CARGO_MANIFEST_DIR"), "/..")).join(from_root)
}

/// The files with this extension in a directory and below it, each with its text.
fn sources(directory: &Path, extension: &str) -> Vec<(PathBuf, String)> {
    let mut all = Vec::new();
    for entry in read_dir(directory).expect("a directory") {
        let path = entry.expect("an entry").path();
        if path.is_dir() {
            all.extend(sources(&path, extension));
        } else if path.extension().is_some_and(|its| its == extension) {
            let text = read_to_string(&path).expect("a text");
            all.push((path, text));
        }
    }
    all
}

/// The files, other than the one where it belongs, in which one of these words stands, be it in a comment.
fn elsewhere(sources: &[(PathBuf, String)], words: &[&str], home: &Path) -> Vec<String> {
    assert!(sources.iter().any(|(path, _)| path == home), "{home:?} is read");
    let has = |text: &str| text.split(|sign: char| !is_word(sign)).any(|word| words.contains(&word));
    let others = sources.iter().filter(|(path, text)| path != home && has(text));
    others.map(|(path, _)| format!("{} has one of {words:?}", path.display())).collect()
}

/// The files that export, other than the library's.
fn other_exports(crates: &[(PathBuf, String)]) -> Vec<String> {
    elsewhere(crates, &["no_mangle", "export_name"], &path("crates/facets/src/lib.rt"))
}

/// The hub's files that declare, other than `ffi.rs`.
fn other_declarations(hub: &[(PathBuf, String)]) -> Vec<String> {
    elsewhere(hub, &["extern"], &path("hub/src/ffi.rs"))
}

/// The package has the module `ffi` once, and under no attribute but the one that allows unsafe code.
fn has_ffi_as_it_is(package: &str) -> bool {
    let tokens = tokens(package);
    let attribute = ["#", "[", "allow", "(", "unsafe_code", ")", "]"];
    let module = [&[";"][..], &attribute, &["mod", "ffi", ";"]].concat();
    behind(&tokens, &module).len() == 1 && count(&tokens, "ffi") == 1 && !package.contains("/*")
}

// ---- the tests

#[test]
fn the_declarations_are_the_exports() {
    assert_eq!(differences(LIBRARY, DECLARED), [""; 0]);
    let (library, declared) = (library(LIBRARY), declared(DECLARED));
    assert_eq!((library.calls.len(), library.structs.len()), (7, 4));
    assert_eq!((declared.calls.len(), declared.structs.len()), (7, 4));
    assert!(has_ffi_as_it_is(PACKAGE));
}

#[test]
fn no_other_file_exports() {
    let mut crates = sources(&path("crates"), "rt");
    assert_eq!(other_exports(&crates), [""; 0]);
    for (name, text) in [
        ("crates/facets/src/more.rt", "#[no_mangle]\npub extern \"C\" fn facets_more() {}"),
        ("crates/tally/src/lib.rt", "fn one() {} #[no_mangle] pub extern \"C\" fn facets_tally() {}"),
        ("crates/ascii/src/deep/lib.rt", "let a = b\"//\"; #[export_name = \"x\"] fn two() {}"),
    ] {
        crates.push((path(name), text.to_owned()));
        let [found] = &other_exports(&crates)[..] else { panic!("{name} is not seen alone") };
        assert!(found.contains(name), "{found}");
        crates.pop();
    }
}

#[test]
fn no_other_file_of_the_hub_declares() {
    let mut hub = sources(&path("hub/src"), "rs");
    assert_eq!(other_declarations(&hub), [""; 0]);
    for (name, text) in [
        ("hub/src/tally.rs", "extern \"C\" {\n    fn facets_tally();\n}"),
        ("hub/src/more/mod.rs", "let a = \"//\"; extern{fn facets_more();}"),
    ] {
        hub.push((path(name), text.to_owned()));
        let [found] = &other_declarations(&hub)[..] else { panic!("{name} is not seen alone") };
        assert!(found.contains(name), "{found}");
        hub.pop();
    }
}

#[test]
fn another_ffi_in_the_package_is_seen() {
    for other in [
        "#[cfg(unix)]\nmod ffi;", "#[path = \"other.rs\"]\nmod ffi;", "mod ffi {}",
        "mod ffi;\n#[cfg(unix)]\nmod ffi;", "/*\nmod ffi;",
    ] {
        let package = PACKAGE.replacen("mod ffi;", other, 1);
        assert!(package != PACKAGE && !has_ffi_as_it_is(&package), "{other}");
    }
    let package = PACKAGE.replacen("#[allow(unsafe_code)]", "#[cfg(unix)]\n#[allow(unsafe_code)]", 1);
    assert!(package != PACKAGE && !has_ffi_as_it_is(&package));
}

/// Damages one text and expects this among the differences.
fn damaged(text: &str, old: &str, new: &str, expected: &str) {
    assert!(text.contains(old), "{old} is there to be damaged");
    let other = text.replacen(old, new, 1);
    let found = if text == LIBRARY { differences(&other, DECLARED) } else { differences(LIBRARY, &other) };
    let meant = found.iter().any(|difference| difference.contains(expected));
    assert!(meant, "{old} as {new}: {found:?}");
}

#[test]
fn damaged_exports_are_seen() {
    for (old, new, expected) in [
        ("pub other_scheme: u32", "pub scheme: u32", "[\"pub scheme\", \"u32\"]"),
        (
            "pub start: u32,\n    pub len: u32,", "pub len: u32,\n    pub start: u32,",
            "[\"pub len\", \"u32\"], [\"pub start\"",
        ),
        ("pub source: u32", "pub source: u8", "Location has free bytes"),
        ("Cleaned {\n    pub refusal: u32", "Cleaned {\n    pub refusal: u16", "Cleaned has free bytes"),
        ("Cleaned {\n    pub refusal: u32,", "Cleaned {", "Cleaned\", parts: [[\"pub len\", \"u32\"]]"),
        ("#[repr(C)]\npub struct Tally", "pub struct Tally", "a struct without #[repr(C)]"),
        ("major: u16,\n    minor: u16,", "minor: u16,\n    major: u16,", "[\"minor\", \"u16\"], [\"major\""),
        ("host: &[u8], table: &[u8]", "table: &[u8], host: &[u8]", "[\"table_len\", \"usize\"], [\"host\""),
        ("major: u16,", "major: u32,", "[\"major\", \"u32\"]"),
        ("place: &mut u32", "place: &mut u16", "which the hub cannot pass"),
        ("out: &mut [u8]", "out: &[u8]", "[\"out\", \"* const u8\"]"),
        ("item: &mut [u8]", "item: &[u8]", "[\"item\", \"* const u8\"]"),
        ("text: &mut [u8]", "text: &[u8]", "[\"text\", \"* const u8\"]"),
        ("text: &mut [u8]", "text: &mut [u16]", "which the hub cannot pass"),
        ("start: u32,\n    item", "start: u16,\n    item", "[\"start\", \"u16\"]"),
        (
            "item: &mut [u8],\n    text: &mut [u8]", "text: &mut [u8],\n    item: &mut [u8]",
            "[\"text_len\", \"usize\"], [\"item\"",
        ),
        ("pub item_len: u32", "pub item_len: u16", "HeadRead has free bytes"),
        ("pub text_len: u32,", "", "HeadRead has 8 bytes"),
        (") -> HeadRead", ") -> Location", "result: \"Location\""),
        ("],\n) -> u16", "],\n) -> u32", "result: \"u32\""),
        (") -> Tally", ") -> Cleaned", "result: \"Cleaned\""),
        ("fn facets_tally", "fn facets_count", "facets_tally is not exported"),
        ("fn facets_tally", "fn facets_count", "facets_count is not declared"),
        ("fn facets_decide_place", "fn facets_decide", "facets_decide is exported twice"),
        ("#[unsafe(no_mangle)]", "", "an export without its marks"),
        ("#[unsafe(no_mangle)]", "", "facets_private_label is not exported"),
        ("Cleaned {\n    pub refusal: u32,", "Cleaned {", "Cleaned has 4 bytes"),
        ("pub start: u32,", "pub start: u64,", "Location has 16 bytes"),
        ("pub struct Tally", "pub struct Counts", "Counts has 24 bytes"),
        ("#[unsafe(no_mangle)]", "/*\n#[unsafe(no_mangle)]", "a block comment"),
        ("#[unsafe(no_mangle)]", "#[cfg(unix)]\n#[unsafe(no_mangle)]", "the attribute #[cfg(unix)]"),
        ("#[repr(C)]", "#[repr(C, packed)]", "the attribute #[repr(C,packed)]"),
    ] {
        damaged(LIBRARY, old, new, expected);
    }
}

#[test]
fn damaged_declarations_are_seen() {
    for (old, new, expected) in [
        ("pub too_long: u32", "pub long: u32", "[\"pub long\", \"u32\"]"),
        ("pub refusal: u32", "pub refusal: u16", "[\"pub refusal\", \"u16\"]"),
        ("#[repr(C)]\npub struct Cleaned", "pub struct Cleaned", "Cleaned is not declared"),
        ("host_len: usize,", "host_len: u32,", "[\"host_len\", \"u32\"]"),
        ("host_len: usize,", "", "facets_private_label"),
        ("major: u16,\n            minor: u16,", "minor: u16,\n            major: u16,", "\"minor\""),
        ("place: *mut u32", "place: *mut u16", "[\"place\", \"* mut u16\"]"),
        ("out: *mut u8", "out: *const u8", "[\"out\", \"* const u8\"]"),
        ("item: *mut u8", "item: *const u8", "[\"item\", \"* const u8\"]"),
        ("text: *mut u8", "text: *const u8", "[\"text\", \"* const u8\"]"),
        ("item: *mut u8", "text: *mut u8", "facets_read_head"),
        ("start: u32,\n            item", "start: u16,\n            item", "[\"start\", \"u16\"]"),
        (
            "pub item_len: u32,\n    pub text_len: u32,",
            "pub text_len: u32,\n    pub item_len: u32,",
            "HeadRead",
        ),
        (") -> HeadRead;", ") -> Location;", "result: \"Location\""),
        (") -> u32;", ") -> u16;", "result: \"u16\""),
        (") -> u32;", ");", "result: \"nothing\""),
        ("pub fn facets_clean", "pub fn facets_wash", "facets_clean is not declared"),
        ("pub fn facets_clean", "pub fn facets_wash", "facets_wash is not exported"),
        ("pub fn facets_clean", "pub fn facets_decide", "facets_decide is declared twice"),
        ("pub fn facets_tally", "#[link_name = \"x\"]\n pub fn facets_tally", "marks of its own"),
        ("extern \"C\" {", "extern \"Rust\" {", "an extern block that is not C's"),
        ("extern \"C\" {", "extern \"Rust\" {", "facets_decide is not declared"),
        ("mod c {", "type u32 = u64;\nmod c {", "an item type"),
        ("extern \"C\" {", "pub(super) type usize = u32;\nextern \"C\" {", "an item type"),
        ("mod c {", "enum u8 {}\nmod c {", "an item enum"),
        ("use super::Location;", "use super::Location as u32;", "a use with as"),
        (
            "{Cleaned, HeadRead, Tally}",
            "{\n    Cleaned as u16,\n    HeadRead,\n    Tally,\n}",
            "a use with as",
        ),
        ("use super::Location;", "use super::*;", "a use with *"),
        ("use super::Location;", "use super::{Location, usize};", "a use with usize"),
        ("pub start: u32,", "", "Location has 8 bytes"),
        ("pub kept: u32,", "pub kept: u64,", "Tally has 28 bytes"),
        ("mod c {", "/*\nmod c {", "a block comment"),
        ("mod c {", "#[cfg(unix)]\nmod c {", "the attribute #[cfg(unix)]"),
        ("extern \"C\" {", "#[link(name = \"x\")]\nextern \"C\" {", "the attribute #[link(name=\"x\")]"),
        ("use crate::Inputs;", "#![cfg(unix)]\nuse crate::Inputs;", "the attribute #![cfg(unix)]"),
        ("#[repr(C)]", "#[repr(C)]\n#[cfg(unix)]", "the attribute #[cfg(unix)]"),
    ] {
        damaged(DECLARED, old, new, expected);
    }
}

#[test]
fn sizes_damaged_alike_on_both_sides_are_seen() {
    for (old, new, expected) in [
        ("pub start: u32,", "", "Location has 8 bytes"),
        ("Cleaned {", "Cleaned {\n    pub more: u32,", "Cleaned has 12 bytes"),
        ("pub not_facet: u32,", "", "Tally has 20 bytes"),
        ("pub text_len: u32,", "", "HeadRead has 8 bytes"),
    ] {
        let (rattle, rust) = (LIBRARY.replacen(old, new, 1), DECLARED.replacen(old, new, 1));
        assert_eq!(differences(&rattle, &rust), [expected; 2]);
    }
}

#[test]
fn a_lent_number_may_be_declared_as_a_reference() {
    let other = DECLARED.replacen("place: *mut u32", "place: &mut u32", 1);
    assert_ne!(other, DECLARED);
    assert_eq!(differences(LIBRARY, &other), [""; 0]);
}

#[test]
fn free_bytes_are_seen() {
    let of = |kinds: &[&str]| {
        let parts = kinds.iter().map(|kind| ["x".to_owned(), (*kind).to_owned()]).collect();
        free_bytes(&Item { name: "It".to_owned(), parts, result: String::new() }).is_some()
    };
    for filled in [&["u32", "u32"][..], &["u16", "u16", "u32"], &["u64", "u32", "u32"], &["u8"]] {
        assert!(!of(filled), "{filled:?}");
    }
    for free in [&["u16", "u32"][..], &["u32", "u16"], &["u8", "u32"], &["u64", "u32"], &["Tally"]] {
        assert!(of(free), "{free:?}");
    }
}
