//! Plays the script on standard input line by line, and prints what `scene run` prints of it.
//!
//! The status is 0, and 1 where a line was bad; 3 where memory was wanting or a stream failed. Why a line is bad,
//! standard error tells.
use scene::{Outcome, Scene};
use std::io::{self, BufRead, Write};
use std::process::ExitCode;

/// A line without its line feed and one carriage return before that; the last line may lack a line feed, and is whole.
fn without_break(line: &[u8]) -> &[u8] {
    match line.strip_suffix(b"\n") {
        Some(line) => line.strip_suffix(b"\r").unwrap_or(line),
        None => line,
    }
}

/// Plays all lines, which are bytes, as some may be no text; and tells whether all were good.
fn play() -> Result<bool, Box<dyn std::error::Error>> {
    let mut scene = Scene::new()?;
    let mut input = io::stdin().lock();
    let mut output = io::BufWriter::new(io::stdout().lock());
    let mut all_good = true;
    let mut line = Vec::new();
    for number in 1.. {
        line.clear();
        if input.read_until(b'\n', &mut line)? == 0 {
            break;
        }
        let answer = scene.play(without_break(&line))?;
        output.write_all(answer.text.as_bytes())?;
        if let Outcome::Bad(reason) = answer.outcome {
            all_good = false;
            eprintln!("lines: line {number}: {reason}");
        }
    }
    output.flush()?;
    Ok(all_good)
}

fn main() -> ExitCode {
    match play() {
        Ok(true) => ExitCode::SUCCESS,
        Ok(false) => ExitCode::FAILURE,
        Err(error) => {
            eprintln!("lines: {error}");
            ExitCode::from(3)
        }
    }
}
