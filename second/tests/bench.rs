//! The bench program: its transcript and the shapes of its lines.

use second::bench::{read, Bench, Line};
use second::field::put32;
use second::key::key;
use second::layout::zero;
use std::io::Write;
use std::process::{Command, Stdio};

/// What the bench prints for these lines.
fn transcript(lines: &[&str]) -> Vec<String> {
    let mut bench = Bench::new();
    lines
        .iter()
        .map(|line| bench.line(line.as_bytes()))
        .collect()
}

/// What the program prints for this input.
fn program(input: &[u8]) -> String {
    let mut child = Command::new(env!("CARGO_BIN_EXE_bench"))
        .stdin(Stdio::piped())
        .stdout(Stdio::piped())
        .spawn()
        .expect("the program starts");
    let mut stdin = child.stdin.take().expect("its input");
    stdin.write_all(input).expect("its input is read");
    drop(stdin);
    let output = child.wait_with_output().expect("the program ends");
    assert!(output.status.success());
    String::from_utf8(output.stdout).expect("words")
}

#[test]
fn paper_transcript() {
    let input = "i 7 1 1 900\nf 7 1 1\nf 7 2 1\ns\nc\nf 7 1 1\nf 0 1 1\n";
    let output = "done\ndone 900\nnone\ndone\ndone\ndone 900\nbadkey\n";
    assert_eq!(program(input.as_bytes()), output);
}

#[test]
fn last_line_without_newline() {
    assert_eq!(program(b""), "");
    assert_eq!(program(b"s"), "done\n");
    assert_eq!(program(b"s\n\n"), "done\nline\n");
    assert_eq!(program(b"\xff\xfe\ns"), "line\ndone\n");
}

#[test]
fn long_lines() {
    let zeros = "0".repeat(100_000);
    let input = format!(
        "i {zeros}7 1 1 {zeros}900\nf 7 1 1\nc{}\n",
        " 1".repeat(50_000)
    );
    assert_eq!(program(input.as_bytes()), "done\ndone 900\ndone\n");
}

#[test]
fn numbers_within_their_width() {
    let insert = |model, serial, issue, record| {
        Some(Line::Insert {
            key: key(model, serial, issue),
            record,
        })
    };
    assert_eq!(read(b"i 007 01 0001 00"), insert(7, 1, 1, 0));
    let most = b"i 65535 4294967295 65535 4294967295";
    assert_eq!(read(most), insert(65535, u32::MAX, 65535, u32::MAX));
    for wide in [
        "i 65536 1 1 1",
        "i 1 4294967296 1 1",
        "i 1 1 65536 1",
        "i 1 1 1 4294967296",
        "i 0 1 1 4294967296",
        "f 65536 1 1",
        "f 0 4294967296 1",
        "f 1 1 99999999999999999999999999999999999999",
        "c 5",
        "c 0 1 18446744073709551616",
    ] {
        assert_eq!(read(wide.as_bytes()), None, "{wide}");
    }
}

#[test]
fn zero_fields() {
    let lines = [
        "i 0 1 1 5",
        "i 1 0 1 5",
        "i 1 1 0 5",
        "f 0 1 1",
        "f 1 0 1",
        "f 1 1 0",
    ];
    assert_eq!(transcript(&lines), ["badkey"; 6]);
    assert_eq!(transcript(&["i 1 1 1 0", "f 1 1 1"]), ["done", "done 0"]);
}

/// Lines of no good shape.
const SHAPES: [&str; 44] = [
    "",
    " ",
    "x",
    "S",
    "I 7 1 1 900",
    "F 7 1 1",
    "C",
    "s ",
    " s",
    "s 1",
    "ss",
    "s\r",
    "i",
    "i ",
    "i 7 1 1",
    "i 7 1 1 900 1",
    "i  7 1 1 900",
    "i 7 1 1 900 ",
    " i 7 1 1 900",
    "i\t7 1 1 900",
    "i 7\t1 1 900",
    "i +7 1 1 900",
    "i -7 1 1 900",
    "i 0x7 1 1 900",
    "i 7a 1 1 900",
    "i 7 1 1 9.0",
    "i 7 1 1 900\r",
    "i7 1 1 900",
    "f",
    "f 7 1",
    "f 7 1 1 1",
    "f 7 1 1 ",
    "f 7  1",
    "c ",
    "c  1",
    "c 1 ",
    "c a",
    "c +1",
    "c -1",
    "c 1,2",
    "cc",
    "l",
    "o",
    "n 7 1",
];

#[test]
fn other_shapes() {
    for line in SHAPES {
        assert_eq!(transcript(&[line]), ["line"], "{line:?}");
    }
}

#[test]
fn other_shapes_do_nothing() {
    let mut bench = Bench::new();
    bench.line(b"i 7 1 1 900");
    let before = bench.store.clone();
    for line in ["i 7 2 1", "f 7 1", "s ", "c 5", "c 0 9"] {
        assert_eq!(bench.line(line.as_bytes()), "line");
        assert!(bench.store == before, "{line:?}");
    }
}

#[test]
fn crash_takes_a_set_of_pages() {
    let twice = transcript(&["i 7 1 1 900", "c 1 1", "f 7 1 1"]);
    assert_eq!(twice, ["done", "done", "done 900"]);
    let none = transcript(&["i 7 1 1 900", "c", "f 7 1 1"]);
    assert_eq!(none, ["done", "done", "none"]);
    let other = transcript(&["i 7 1 1 900", "c 0 2 3 4", "f 7 1 1"]);
    assert_eq!(other, ["done", "done", "none"]);
    let zeros = transcript(&["i 7 1 1 900", "c 001 0004", "f 7 1 1"]);
    assert_eq!(zeros, ["done", "done", "done 900"]);
}

#[test]
fn every_refusing_word() {
    let mut bench = Bench::new();
    assert_eq!(bench.line(b"i 7 1 1 900"), "done");
    assert_eq!(bench.line(b"i 7 1 1 901"), "present");
    assert_eq!(bench.line(b"f 7 1 1"), "done 900");
    assert_eq!(bench.line(b"f 7 1 2"), "none");
    bench.store.working[0] = 0;
    assert_eq!(bench.line(b"f 7 1 1"), "damaged");
    assert_eq!(bench.line(b"i 7 3 1 1"), "damaged");
}

// With capacities of 2 the answer before it is syncfirst.
#[cfg(not(feature = "caps2"))]
#[test]
fn full_word() {
    let mut bench = Bench::new();
    let mut last = String::new();
    for serial in 1..=200 {
        last = bench.line(format!("i 7 {serial} 1 1").as_bytes());
        if last != "done" {
            break;
        }
    }
    assert_eq!(last, "full");
}

#[test]
fn refused_opening() {
    let mut bench = Bench::new();
    bench.line(b"i 7 1 1 900");
    put32(&mut bench.store.stable, zero::NUMBER, u32::MAX);
    assert_eq!(bench.line(b"c"), "spent");
    for line in ["i 7 2 1 1", "f 7 1 1", "f 0 1 1", "s"] {
        assert_eq!(bench.line(line.as_bytes()), "length", "{line}");
    }
    let before = bench.store.clone();
    assert_eq!(bench.line(b"c 0 1 2 3 4"), "spent");
    assert!(bench.store == before, "a further crash writes no page");
    put32(&mut bench.store.stable, zero::NUMBER, 7);
    assert_eq!(bench.line(b"c 1"), "done", "and opens again");
    assert_eq!(bench.line(b"f 7 1 1"), "none");
}
