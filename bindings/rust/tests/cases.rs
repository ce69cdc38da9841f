//! Each case of `cases/*.txt` has its answer and its status, from four threads at once.

use rustc_abi_text::{layout_input, map_input, Answer};
use std::{fs, path::Path, thread};

struct Case {
    file: String,
    is_map: bool,
    input: Vec<u8>,
    answer: Answer,
}

/// The bytes that a text with escapes stands for.
fn unescaped(text: &str) -> Vec<u8> {
    let (mut bytes, mut rest) = (Vec::new(), text.as_bytes());
    while let Some((&first, behind)) = rest.split_first() {
        let (byte, len) = match (first, behind.first()) {
            (b'\\', Some(b'n')) => (b'\n', 2),
            (b'\\', Some(b'r')) => (b'\r', 2),
            (b'\\', Some(b'x')) => {
                let digits = std::str::from_utf8(&rest[2..4]).expect("two digits");
                (u8::from_str_radix(digits, 16).expect("two digits"), 4)
            }
            (b'\\', _) => panic!("an escape that isn't known: {text}"),
            _ => (first, 1),
        };
        bytes.push(byte);
        rest = &rest[len..];
    }
    bytes
}

/// The cases of a file; `docs/CHANGING.md` has their form.
fn cases_of(path: &Path) -> Vec<Case> {
    let (mut cases, mut input, mut text) = (Vec::new(), Vec::new(), String::new());
    for line in fs::read_to_string(path).expect("a file of cases").lines() {
        if let Some(line) = line.strip_prefix("in: ") {
            input.extend_from_slice(line.as_bytes());
            input.push(b'\n');
        } else if let Some(escaped) = line.strip_prefix("raw: ") {
            input = unescaped(escaped);
        } else if let Some(line) = line.strip_prefix("out: ") {
            text += line;
            text.push('\n');
        } else if let Some(status) = line.strip_prefix("status: ") {
            cases.push(Case {
                file: path.display().to_string(),
                is_map: path.ends_with("map.txt"),
                input: std::mem::take(&mut input),
                answer: Answer {
                    text: std::mem::take(&mut text),
                    status: status.parse().expect("a number"),
                },
            });
        }
    }
    cases
}

#[test]
fn cases_have_their_answers() {
    let folder = Path::new(env!("CARGO_MANIFEST_DIR")).join("../../cases");
    let entries = fs::read_dir(folder).expect("the cases").map(|it| it.expect("a file").path());
    let cases: Vec<Case> = entries
        .filter(|it| it.extension().is_some_and(|it| it == "txt"))
        .flat_map(|it| cases_of(&it))
        .collect();
    assert!(cases.len() > 1000, "{} cases", cases.len());
    thread::scope(|scope| {
        for _ in 0..4 {
            scope.spawn(|| {
                for it in &cases {
                    let call = if it.is_map { map_input } else { layout_input };
                    assert_eq!(call(&it.input), it.answer, "{}: {}", it.file, String::from_utf8_lossy(&it.input));
                }
            });
        }
    });
}
