//! The exports are declared here as the library's sources have them. No compiler compares the two, so their texts are compared.

use std::collections::BTreeMap;
use std::fs;
use std::path::Path;

/// Of each function that this word begins, its parameters with their types, and then the type of its answer.
fn functions(text: &str, word: &str, crosses: fn(&str, &str) -> Vec<String>) -> BTreeMap<String, Vec<String>> {
    let mut found = BTreeMap::new();
    for function in text.split(word).skip(1) {
        let (name, rest) = function.split_once('(').expect("parameters follow a name");
        let (parameters, rest) = rest.split_once(')').expect("parameters end");
        let pairs = parameters.split(',').filter_map(|one| one.split_once(": "));
        let mut signature: Vec<String> = pairs.flat_map(|(name, of)| crosses(name.trim(), of.trim())).collect();
        signature.extend(rest.trim_start().strip_prefix("-> ").map(|answer| answer[..3].to_owned()));
        assert!(found.insert(name.to_owned(), signature).is_none(), "{name} stands twice");
    }
    found
}

/// How a parameter of an export crosses: an allocator, which has no bytes, does not, and a slice is a pointer and a length.
fn crossing(name: &str, of: &str) -> Vec<String> {
    let slice = |pointer: &str, rest: &str| vec![format!("{name}: {pointer} {}", rest.trim_end_matches(']')), LENGTH.to_owned()];
    match (of.strip_prefix("&mut ["), of.strip_prefix("&[")) {
        (Some(rest), _) => slice("*mut", rest),
        (None, Some(rest)) => slice("*const", rest),
        (None, None) if of == "Global" => vec![],
        (None, None) => vec![format!("{name}: {of}")],
    }
}

/// A length, which has a name in the declaration alone.
const LENGTH: &str = "usize";

/// How a parameter is declared.
fn declared(name: &str, of: &str) -> Vec<String> {
    let is_length = name == "most" || name.ends_with("len") && of == LENGTH;
    vec![if is_length { LENGTH.to_owned() } else { format!("{name}: {of}") }]
}

#[test]
fn the_exports_are_declared_as_they_are() {
    let here = Path::new(env!("CARGO_MANIFEST_DIR"));
    let mut exports = BTreeMap::new();
    for name in ["stores", "lists", "sets", "maps"] {
        let file = here.join(format!("../../crates/versions_c/src/{name}.rt"));
        let text = fs::read_to_string(&file).unwrap_or_else(|error| panic!("{}: {error}", file.display()));
        exports.append(&mut functions(&text, "extern \"C\" fn naipselu_", crossing));
    }
    let text = fs::read_to_string(here.join("src/library.rs")).expect("the declaration is there");
    assert_eq!(functions(&text, " fn naipselu_", declared), exports);
    let safe = functions(&text, " safe fn naipselu_", declared);
    assert!(safe.values().flatten().all(|one| !one.contains('*')), "what takes a raw pointer is not safe");
}

/// The names and the types of the fields of a struct, but for those that are ghosts.
fn fields<'t>(text: &'t str, name: &str) -> Vec<(&'t str, &'t str)> {
    let body = text.split_once(&format!("pub struct {name} {{")).expect("the struct is there").1;
    let lines = body.split("\n}").next().expect("it ends").lines().map(str::trim);
    let fields = lines.filter(|line| !line.starts_with("//") && !line.contains("ghost "));
    fields.filter_map(|line| line.trim_start_matches("pub ").trim_end_matches(',').split_once(": ")).collect()
}

#[test]
fn what_crosses_has_the_fields_that_it_has() {
    let here = Path::new(env!("CARGO_MANIFEST_DIR"));
    let declared = fs::read_to_string(here.join("src/library.rs")).expect("the declaration is there");
    for (name, file) in [("Handle", "handle"), ("Form", "form")] {
        let text = fs::read_to_string(here.join(format!("../../crates/versions_c/src/{file}.rt"))).expect("the source is there");
        assert_eq!(fields(&declared, name), fields(&text, name));
        assert_eq!(fields(&declared, name).len(), 2);
    }
}

/// The arms of the match that stands between these words, by what they match.
fn codes(text: &str, from: &str, to: &str) -> BTreeMap<String, String> {
    let body = text.split_once(from).expect("it begins").1.split_once(to).expect("it ends").0;
    body.lines()
        .filter_map(|line| line.trim().trim_end_matches(',').split_once(" => "))
        .map(|(a, b)| (a.to_owned(), b.to_owned()))
        .collect()
}

#[test]
fn the_numbers_of_errors_are_those_of_refusals() {
    let here = Path::new(env!("CARGO_MANIFEST_DIR"));
    let refusals = fs::read_to_string(here.join("../../crates/total_versions/src/answers.rt")).expect("the source is there");
    let errors = fs::read_to_string(here.join("src/error.rs")).expect("the source is there");
    let told = codes(&errors, "match code {", "code => ");
    let numbers = codes(&refusals, "match self {", "}\n    }");
    for (refusal, error) in
        [("NoVersion", "Version"), ("Range", "Range"), ("Long", "Long"), ("Memory", "Memory"), ("NotText", "Text")]
    {
        let number = &numbers[&format!("Refusal::{refusal}")];
        assert_eq!(told.get(number), Some(&format!("Error::{error}")));
    }
    assert_eq!((numbers.len(), told.len()), (6, 5), "an error for each but a handle without a store");
}
