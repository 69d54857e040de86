//! Megabytes a second over bodies of 65,536 bytes: the proved reader's `is_readable`, by the program `json_bench`
//! (which reads a body once and judges it 1,000 times), beside serde_json, which skips the same body, and which
//! builds a tree of it. serde_json tests neither the nesting nor, where it skips, UTF-8 and surrogates.

use serde::de::IgnoredAny;
use serde_json::Value;
use std::{
    hint::black_box,
    io::Write,
    process::{Command, Stdio},
    time::{Duration, Instant},
};

const SIZE: usize = 65_536;
const TURNS: usize = 1_000;

/// A blank, these bytes, and blanks up to the size.
fn padded(bytes: &[u8]) -> Vec<u8> {
    let mut body = [b" ", bytes].concat();
    assert!(body.len() <= SIZE);
    body.resize(SIZE, b' ');
    body
}

/// An array of as many of these items as fit.
fn array(item: &str) -> Vec<u8> {
    let items = vec![item; (SIZE - 3) / (item.len() + 1)];
    padded(format!("[{}]", items.join(",")).as_bytes())
}

/// A string of as many of these pieces as fit.
fn string(piece: &str) -> Vec<u8> {
    padded(format!("\"{}\"", piece.repeat((SIZE - 3) / piece.len())).as_bytes())
}

fn bodies() -> Vec<(&'static str, Vec<u8>)> {
    vec![
        ("deep arrays", array(&format!("{}{}", "[".repeat(15), "]".repeat(15)))),
        ("deep objects", array(&format!("{}1{}", "{\"a\":".repeat(15), "}".repeat(15)))),
        ("small numbers", array("1")),
        ("long numbers", array("-123456789.123456789e+123")),
        ("short strings", array("\"https://www.example.com\"")),
        ("plain string", string("a")),
        ("short escapes", string("\\n")),
        ("\\u escapes", string("\\u00e9")),
        ("surrogate pairs", string("\\ud83d\\ude00")),
        ("UTF-8", string("\u{20ac}")),
    ]
}

/// The time of the program's 1,000 turns, its start and its input among them.
fn proved(body: &[u8]) -> Duration {
    let program = concat!(env!("CARGO_MANIFEST_DIR"), "/../crates/json_bench/out/json_bench");
    let begin = Instant::now();
    let mut child = Command::new(program)
        .stdin(Stdio::piped())
        .stdout(Stdio::piped())
        .spawn()
        .expect("crates/json_bench/out/json_bench, by `rt run` in crates/json_bench");
    child.stdin.take().expect("a pipe").write_all(body).expect("the program reads");
    let output = child.wait_with_output().expect("the program ends");
    assert_eq!(output.stdout, b"1000 readable\n");
    begin.elapsed()
}

fn timed(mut read: impl FnMut() -> bool) -> Duration {
    let begin = Instant::now();
    for _ in 0..TURNS {
        assert!(read());
    }
    begin.elapsed()
}

fn megabytes(time: Duration) -> f64 {
    (SIZE * TURNS) as f64 / time.as_secs_f64() / 1e6
}

fn main() {
    println!("{:16} {:>10} {:>16} {:>16}", "MB/s", "is_readable", "serde_json skips", "serde_json tree");
    for (name, body) in bodies() {
        let skips = || serde_json::from_slice::<IgnoredAny>(black_box(&body)).is_ok();
        let builds = || serde_json::from_slice::<Value>(black_box(&body)).is_ok();
        println!(
            "{name:16} {:>10.0} {:>16.0} {:>16.0}",
            megabytes(proved(&body)),
            megabytes(timed(skips)),
            megabytes(timed(builds))
        );
    }
}
