//! Draws a run of `bench` or `rig` as a message sequence chart: the script and
//! the printed lines go in, an SVG comes out.

#![forbid(unsafe_code)]

mod arrows;
mod chart;
mod frames;
mod notes;
mod run;
mod svg;

use std::process::ExitCode;
use std::{env, fs};

const USAGE: &str = "usage: sequence TITLE SCRIPT PRINTED

SCRIPT is a script of bench or rig, PRINTED what the program printed for it.
The picture goes to standard output.";

fn main() -> ExitCode {
    let words: Vec<String> = env::args().skip(1).collect();
    match drawn(&words) {
        Ok(picture) => {
            print!("{picture}");
            ExitCode::SUCCESS
        }
        Err(what) => {
            eprintln!("{what}");
            ExitCode::FAILURE
        }
    }
}

fn drawn(words: &[String]) -> Result<String, String> {
    let [title, script, printed] = words else {
        return Err(USAGE.to_string());
    };
    let run = run::read(&text_of(script)?, &text_of(printed)?)?;
    let frames = frames::sent(&run)?;
    Ok(chart::draw(title, &run, &frames))
}

fn text_of(path: &str) -> Result<String, String> {
    fs::read_to_string(path).map_err(|error| format!("{path}: {error}"))
}
