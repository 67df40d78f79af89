//! Program: what the program `lanetext` or `lanepage` prints, against the slow text. Arguments: the program, `listing`
//! or `page`, cases, seed.

use reference::compare::Arguments;
use reference::random::Cases;
use reference::slow;
use std::io::{self, Write};
use std::process::{Command, ExitCode, Stdio};

fn main() -> ExitCode {
    let words: Vec<String> = std::env::args().skip(1).collect();
    let (program, text): (_, Text) = match &words[..] {
        [program, word, ..] if word == "listing" => (program, slow::listing),
        [program, word, ..] if word == "page" => (program, slow::page_listing),
        _ => {
            eprintln!("listings PROGRAM listing|page [CASES] [SEED]");
            return ExitCode::FAILURE;
        }
    };
    match compare(program, text, &Arguments::read(1000)) {
        Ok(told) => println!("listings: {program}, {told}"),
        Err(difference) => {
            println!("listings: DIFFERENCE in {difference}");
            return ExitCode::FAILURE;
        }
    }
    ExitCode::SUCCESS
}

/// What is to be printed for a file.
type Text = fn(&[u8]) -> Vec<u8>;

fn compare(program: &str, text: Text, arguments: &Arguments) -> Result<String, String> {
    let cases = Cases::new(arguments.seed);
    let (mut refused, mut lines) = (0, 0);
    for number in 0..arguments.cases {
        let file = cases.case(number).file;
        let expected = String::from_utf8_lossy(&text(&file)).into_owned();
        let printed = printed(program, &file).map_err(|fault| format!("case {number}: {program}: {fault}"))?;
        if printed != expected {
            return Err(format!("case {number}: {}", first_difference(&printed, &expected)));
        }
        refused += u64::from(expected.starts_with("refused"));
        lines += expected.lines().count();
    }
    let lists = arguments.cases - refused;
    Ok(format!("{} kernels, {lists} listed and {refused} refused, {lines} lines alike", arguments.cases))
}

fn printed(program: &str, file: &[u8]) -> io::Result<String> {
    let mut child = Command::new(program).stdin(Stdio::piped()).stdout(Stdio::piped()).spawn()?;
    // a file fits what a pipe holds, so that this does not wait for the program to read
    child.stdin.take().expect("it was asked for").write_all(file)?;
    Ok(String::from_utf8_lossy(&child.wait_with_output()?.stdout).into_owned())
}

fn first_difference(printed: &str, expected: &str) -> String {
    let (mut own, mut wanted) = (printed.split('\n'), expected.split('\n'));
    loop {
        let (line, want) = (own.next(), wanted.next());
        if line != want || line.is_none() {
            return format!("line '{}' instead of '{}'", line.unwrap_or_default(), want.unwrap_or_default());
        }
    }
}
