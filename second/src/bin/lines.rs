//! `lines PROGRAM SEED SECONDS`: random lines for a bench program, whose answers must be those of this one, byte for byte.

use second::driver::seed_and_seconds;
use second::lines::{answered, random_lines};
use second::rng::Rng;
use std::io::{Read, Write};
use std::process::{Command, ExitCode, Stdio};
use std::time::{Duration, Instant};

fn main() -> ExitCode {
    let words: Vec<String> = std::env::args().skip(1).collect();
    let numbers = words.get(1..).and_then(seed_and_seconds);
    let Some((seed, seconds)) = numbers else {
        eprintln!("usage: lines PROGRAM SEED|fresh SECONDS");
        return ExitCode::from(2);
    };
    println!("lines, seed {seed}, {seconds} seconds");
    let seeds = Rng::new(seed);
    let end = Instant::now() + Duration::from_secs(seconds);
    let (mut files, mut lines) = (0, 0);
    while Instant::now() < end {
        let seed = seeds.next();
        let text = random_lines(&Rng::new(seed));
        let expected = answered(&text);
        let out = match run(&words[0], &text) {
            Ok(out) => out,
            Err(what) => {
                println!("{} doesn't run: {what}", words[0]);
                return ExitCode::FAILURE;
            }
        };
        if out != expected {
            println!(
                "file of seed {seed} differs at {}",
                first_other(&expected, &out)
            );
            return ExitCode::FAILURE;
        }
        files += 1;
        lines += expected.split(|byte| *byte == b'\n').count() - 1;
    }
    println!("{lines} lines in {files} files alike");
    ExitCode::from(u8::from(files == 0))
}

/// What a program writes when it reads this.
fn run(program: &str, text: &[u8]) -> std::io::Result<Vec<u8>> {
    let mut child = Command::new(program)
        .stdin(Stdio::piped())
        .stdout(Stdio::piped())
        .spawn()?;
    let mut input = child.stdin.take().expect("piped");
    let mut output = child.stdout.take().expect("piped");
    let text = text.to_vec();
    let feeder = std::thread::spawn(move || input.write_all(&text));
    let mut out = Vec::new();
    output.read_to_end(&mut out)?;
    feeder.join().expect("a feeder")?;
    let status = child.wait()?;
    if !status.success() {
        return Err(std::io::Error::other(format!("{status}")));
    }
    Ok(out)
}

/// The first line that differs.
fn first_other(expected: &[u8], out: &[u8]) -> String {
    let lines = expected.split(|byte| *byte == b'\n');
    let others = out.split(|byte| *byte == b'\n');
    let at = lines
        .zip(others)
        .take_while(|(line, other)| line == other)
        .count();
    format!("line {}", at + 1)
}
