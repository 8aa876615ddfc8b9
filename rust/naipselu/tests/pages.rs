//! The pages' programs print what the pages say.

use std::env;
use std::fs;
use std::io::Write;
use std::path::Path;
use std::process::{Command, Stdio};

/// The text of a file by its path from the crate's folder.
fn text(path: &str) -> String {
    let file = Path::new(env!("CARGO_MANIFEST_DIR")).join(path);
    fs::read_to_string(&file).unwrap_or_else(|error| panic!("{}: {error}", file.display()))
}

/// The blocks of a page that are of this kind.
fn blocks<'p>(page: &'p str, kind: &str) -> Vec<&'p str> {
    let begin = format!("```{kind}\n");
    page.split(&begin).skip(1).map(|rest| rest.split("```").next().expect("it ends")).collect()
}

/// What an example prints where this is its input.
fn said(example: &str, input: &str) -> String {
    let tests = env::current_exe().expect("it has a path");
    let program = tests.with_file_name("../examples").join(example);
    let run = Command::new(&program).stdin(Stdio::piped()).stdout(Stdio::piped()).spawn();
    let mut run = run.unwrap_or_else(|error| panic!("{}: {error}: `cargo test --examples` builds it", program.display()));
    run.stdin.take().expect("it is piped").write_all(input.as_bytes()).expect("it reads");
    let said = run.wait_with_output().expect("it ends");
    assert!(said.status.success());
    String::from_utf8(said.stdout).expect("it prints text")
}

#[test]
fn the_editor_prints_what_the_page_says() {
    let page = text("../../docs/RUST.md");
    let [commands, lines] = blocks(&page, "text")[..] else { panic!("the page has one session") };
    assert_eq!(said("editor_undo", commands), lines);
}

#[test]
fn the_first_program_prints_what_the_page_says() {
    let page = text("README.md");
    let ([program], [lines]) = (&blocks(&page, "rust")[..], &blocks(&page, "text")[..]) else {
        panic!("the page has one program")
    };
    assert_eq!(text("examples/kept.rs"), format!("//! The program of the page.\n\n{program}"));
    assert_eq!(said("kept", ""), *lines);
}
