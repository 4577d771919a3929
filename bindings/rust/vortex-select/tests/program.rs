//! The whole program: the documents of `examples/`, and hostile ones.
#![cfg(feature = "rows")]
use std::fs;
use std::path::{Path, PathBuf};
use vortex_select::{file, made, page, rows, run, Answer};

fn examples() -> PathBuf {
    Path::new(env!("CARGO_MANIFEST_DIR")).join("../../examples")
}

/// What a file of the example has, or else the other text.
fn held(example: &Path, kind: &str, other: &str) -> String {
    fs::read_to_string(example.with_extension(kind)).unwrap_or(other.into())
}

#[test]
fn the_examples_give_what_they_must() {
    let mut count = 0;
    for entry in fs::read_dir(examples()).unwrap() {
        let example = entry.unwrap().path();
        let is_document = example.extension().is_some_and(|kind| kind == "json");
        if !is_document || example.with_extension("to").exists() {
            continue;
        }
        // words that are no text can't be handed in here: the C check has them
        let words = fs::read(example.with_extension("words")).unwrap_or(b"rows".into());
        let Ok(words) = String::from_utf8(words) else {
            continue;
        };
        let words: Vec<&str> = words.split_whitespace().collect();
        let answer = run(&words, &fs::read(&example).unwrap());
        let status = held(&example, "status", "0").trim().parse().unwrap();
        let text = fs::read(example.with_extension("out")).unwrap_or_default();
        assert_eq!(answer, Answer { status, text }, "{example:?}");
        count += 1;
    }
    assert!(count > 90);
}

#[test]
fn each_word_has_its_function() {
    let read = |name: &str| fs::read(examples().join(name)).unwrap();
    let people = read("page_of_people.json");
    assert_eq!(page(1, 3, &people).text, read("page_of_people.out"));
    assert_eq!(rows(&read("two_slices.json")).text, b"i16\n300\n");
    assert_eq!(file(b"{}").status, 2);
    assert_eq!(made(7), run(&["made", "7"], b"what nothing reads"));
    assert_eq!(page(0, 0, b"{}").status, 3);
}

fn ends_with(words: &[&str], document: &[u8], status: u8) {
    let text = Vec::new();
    assert_eq!(run(words, document), Answer { status, text }, "{words:?}");
}

#[test]
fn hostile_documents_end_with_a_status() {
    for words in [&["rows"][..], &["file"], &["page", "0", "9"]] {
        ends_with(words, b"", 2);
        ends_with(words, b"\xff", 2);
        ends_with(words, &[b'['; 100_000], 2);
        ends_with(words, &vec![b' '; 16_777_216], 2);
        ends_with(words, &vec![b' '; 16_777_217], 7);
        ends_with(words, &vec![0; 40_000_000], 7);
    }
    let column = r#"{"layout":"Primitive","type":"u8","values":[]}"#;
    for index in ["-1", "18446744073709551616", "1e400", "[]"] {
        let document = format!(r#"{{"column":{column},"steps":[{{"slice":[{index},0]}}]}}"#);
        ends_with(&["rows"], document.as_bytes(), 2);
    }
}

#[test]
fn other_words_are_refused() {
    let words: [&[&str]; 9] = [
        &[],
        &[""],
        &["rows", ""],
        &["Rows"],
        &["rows\0"],
        &["made"],
        &["made", "4294967296"],
        &["page", "0", "00000000000"],
        &["page", "0", "1", "2"],
    ];
    for words in words {
        ends_with(words, b"{}", 3);
    }
}

#[test]
fn a_text_longer_than_its_document_is_whole() {
    let column = r#"{"layout":"Constant","type":"u64","value":18446744073709551615,"len":100000}"#;
    let answer = rows(format!(r#"{{"column":{column},"steps":[]}}"#).as_bytes());
    assert_eq!(answer.status, 0);
    assert_eq!(answer.text.len(), 4 + 100_000 * 21);
}
