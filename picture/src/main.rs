//! Draws a trace and the text that the proved program wrote for it as a picture.

use picture::run::Kind;
use std::io::{self, Read, Write};
use std::process::ExitCode;

const USAGE: &str = "picture replay|yard TRACE < TEXT > PICTURE

TRACE is a trace in bytes, or in the text form if its name ends in .txt; TEXT what the program
replay or yard wrote for it. The picture is SVG. `draw` at the root does both.
";

fn main() -> ExitCode {
    let words: Vec<String> = std::env::args().skip(1).collect();
    let words: Vec<&str> = words.iter().map(String::as_str).collect();
    let kind = match words[..] {
        ["-h" | "--help"] => {
            print!("{USAGE}");
            return ExitCode::SUCCESS;
        }
        ["replay", _] => Kind::Replay,
        ["yard", _] => Kind::Yard,
        _ => {
            eprint!("{USAGE}");
            return ExitCode::from(2);
        }
    };
    match run(kind, words[1]) {
        Ok(()) => ExitCode::SUCCESS,
        Err(error) => {
            eprintln!("picture: {}: {error}", words[1]);
            ExitCode::FAILURE
        }
    }
}

/// Writes the picture; nothing if something is wrong.
fn run(kind: Kind, path: &str) -> Result<(), String> {
    let say = |error: io::Error| error.to_string();
    let mut trace = std::fs::read(path).map_err(say)?;
    if path.ends_with(".txt") {
        let text = String::from_utf8(trace).map_err(|_| "not a text")?;
        trace = oracle::trace::bytes_of_text(&text)?;
    }
    let mut text = String::new();
    io::stdin().read_to_string(&mut text).map_err(say)?;
    let picture = picture::draw(kind, &trace, &text)?;
    io::stdout().write_all(picture.as_bytes()).map_err(say)
}
