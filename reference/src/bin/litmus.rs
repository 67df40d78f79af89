//! Program: tries every litmus row under its masks and prints the table of results; fails at a difference.

use reference::fast;
use reference::litmus::rows::{Expected, Row, rows};
use reference::litmus::trial::{Found, Runs, Trial, try_row};
use reference::slow::kernel::Refusal;
use std::process::ExitCode;

fn main() -> ExitCode {
    let others = [
        Runs { name: "fast", runs: fast::RUNS },
        #[cfg(feature = "runs")]
        Runs { name: "library", runs: reference::library::RUNS },
    ];
    match print_table(&others) {
        Ok(0) => ExitCode::SUCCESS,
        Ok(differences) => {
            eprintln!("litmus: {differences} differences");
            ExitCode::FAILURE
        }
        Err(fault) => {
            eprintln!("litmus: {fault}");
            ExitCode::FAILURE
        }
    }
}

const PUBLISHED: &str = "x86 published | Sparc PSO published";

/// The number of differences from what the rows expect.
fn print_table(others: &[Runs]) -> Result<usize, String> {
    println!("| test | volatile | asked at the end | {PUBLISHED} | source | tso | pso | outcomes SC/source/tso/pso |");
    println!("|---|---|---|---|---|---|---|---|---|");
    let mut differences = 0;
    for row in rows()? {
        for mask in &row.masks {
            let trial = try_row(&row, *mask, others)?;
            println!("{}", line(&row, *mask, &trial));
            for difference in &trial.differences {
                eprintln!("{} {}: {difference}", row.name, row.assembled.set(*mask));
            }
            differences += trial.differences.len();
        }
    }
    Ok(differences)
}

fn line(row: &Row, mask: u16, trial: &Trial) -> String {
    let verdict = |allowed: bool| if allowed { "allowed" } else { "forbidden" };
    let published = row.published.filter(|_| mask == row.masks[0]).map_or("-", verdict);
    let sparc = row.sparc_published(mask);
    let sparc = sparc.map_or("-".to_string(), |found| format!("{}, {}", verdict(found.allowed), found.place));
    let asked = match &row.expected {
        Expected::Refused(_) => "-".to_string(),
        Expected::Ends(ends) => format!("`{}`", ends.asked_text),
    };
    let (machines, counts) = match &trial.found {
        Found::Refused(Refusal { number, record }) => {
            (vec![format!("refused {number} record {record}"); 3], "-".to_string())
        }
        Found::Ends { allowed, counts } => {
            let counts: Vec<String> = counts.iter().map(usize::to_string).collect();
            (allowed[1..].iter().map(|own| verdict(*own).to_string()).collect(), counts.join("/"))
        }
    };
    let (name, set, machines) = (&row.name, row.assembled.set(mask), machines.join(" | "));
    format!("| {name} | `{set}` | {asked} | {published} | {sparc} | {machines} | {counts} |")
}
