//! Random lines for the bench program: most of them good, some spoilt.

use crate::bench::Bench;
use crate::layout::BENCH_PAGES;
use crate::rng::Rng;

/// Lines to feed, the last one with a newline or without.
pub fn random_lines(rng: &Rng) -> Vec<u8> {
    let mut text = Vec::new();
    let spoilt = rng.one_of(&[0, 5, 40]);
    let mut next = 1;
    for _ in 0..rng.from(0, 300) {
        let mut line = good_line(rng, &mut next).into_bytes();
        if rng.below(100) < spoilt {
            spoil(&mut line, rng);
        }
        text.extend(line);
        text.push(b'\n');
    }
    if rng.once_in(3) {
        text.pop();
    }
    text
}

fn good_line(rng: &Rng, next: &mut u32) -> String {
    match rng.below(20) {
        0..=10 => {
            *next += 1;
            let serial = rng.one_of(&[*next, *next, *next, rng.from(1, 60) as u32]);
            let record = rng.one_of(&[900, 0, u32::MAX, rng.next() as u32]);
            format!("i 7 {serial} 1 {record}")
        }
        11..=15 => {
            let serial = rng.from(0, *next as usize + 1);
            let (model, issue) = (rng.one_of(&[7, 7, 7, 8, 0]), rng.one_of(&[1, 1, 1, 2]));
            format!("f {model} {serial} {issue}")
        }
        16..=17 => "s".to_string(),
        _ => {
            let mut line = "c".to_string();
            for _ in 0..rng.one_of(&[0, 1, 2, 3, 4, 6]) {
                line += &format!(" {}", rng.below(BENCH_PAGES));
            }
            line
        }
    }
}

/// Changes a line a little, or altogether.
fn spoil(line: &mut Vec<u8>, rng: &Rng) {
    let at = rng.below(line.len());
    let odd = [
        b' ', b'0', b'9', b'\r', b'\t', b'+', b'-', b'x', b'C', b'I', 0, 255,
    ];
    match rng.below(8) {
        0 => line.insert(at, rng.one_of(&odd)),
        1 => line[at] = rng.one_of(&odd),
        2 => _ = line.remove(at),
        3 => line.extend(b" 1"),
        4 => line.extend(
            rng.one_of(&["4294967296", "65536", "00000000000000007", " ", "5"])
                .bytes(),
        ),
        5 => line.truncate(at),
        6 => line.extend(vec![rng.one_of(&odd); rng.below(9000)]),
        _ => line.fill_with(|| rng.one_of(&odd)),
    }
    line.retain(|byte| *byte != b'\n');
}

/// What the second program's bench prints for these.
pub fn answered(text: &[u8]) -> Vec<u8> {
    let mut bench = Bench::new();
    let mut out = Vec::new();
    let whole = text.strip_suffix(b"\n").unwrap_or(text);
    if text.is_empty() {
        return out;
    }
    for line in whole.split(|byte| *byte == b'\n') {
        out.extend(bench.line(line).bytes());
        out.push(b'\n');
    }
    out
}
