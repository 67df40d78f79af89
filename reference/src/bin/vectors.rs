//! Program: writes the data, arguments and expected output of the program `vectors`, by slow. Argument: its folder.

use reference::examples;
use reference::litmus::assembler::assemble;
use reference::litmus::rows::rows;
use reference::slow::machines::Machine;
use reference::slow::{self, STATE};
use std::collections::BTreeMap;
use std::path::Path;
use std::{env, fs};

/// The example of four lanes and the schedule that is shipped with it.
const FOUR_LANES: &str = "four-lanes";
const FOUR_LANES_MOVES: &str = include_str!("../../../examples/four-lanes.moves");

const STORE_BUFFERING: &str = "store-buffering-mask-1";
const LOCK: &str = "lock-hand-over";

/// Examples whose lanes all come to their end: the kernel, the schedule and what its head says, its moves. Lane 0 of
/// the lock has five instructions on the pso machine, which has SS before the UNLOCK, and waits once on the others.
const ENDED: [(&str, &str, &str, &str); 5] = [
    (STORE_BUFFERING, "both-pending", "a store pending in each", "0 0; 0 0; 0 0; 1 0; 1 0; 1 0"),
    (STORE_BUFFERING, "one-pending", "a store pending in lane 1", "0 0; 0 0; 0 0; 1 0; 1 0; 1 0; 0 1"),
    (STORE_BUFFERING, "none-pending", "nothing pending", "0 0; 0 0; 0 0; 1 0; 1 0; 1 0; 0 1; 1 1"),
    (LOCK, "release-pending", "a release pending in lane 1", "0 0; 0 0; 0 0; 0 0; 0 0; 0 1; 0 1; 1 0; 1 0; 1 0"),
    (LOCK, "release-committed", "nothing pending", "0 0; 0 0; 0 0; 0 0; 0 0; 0 1; 0 1; 1 0; 1 0; 1 0; 1 1"),
];

/// A schedule with a choice that the tso machine does not have: the second store of lane 0 is to commit first. It may
/// do so in MP, on the source and on the pso machine; MP with both locations volatile has SS between the stores.
const OVERTAKING: (&str, &str) = ("overtaking.moves", "0 0; 0 0; 0 0; 0 0; 0 0; 0 2; 1 0; 1 0; 0 1; 0 1");

/// Rows of the litmus tables, under their first set of volatile locations and under their last.
const LITMUS: [&str; 13] =
    ["SB", "MP", "LB", "S", "R", "2+2W", "CoRR", "n5", "WRC", "IRIW", "lock-SB", "SB+mfences", "nested-upward"];

fn main() -> Result<(), String> {
    let folder = env::args().nth(1).ok_or("vectors FOLDER")?;
    let folder = Path::new(&folder);
    let write = |name: &str, bytes: &[u8]| fs::write(folder.join(name), bytes).map_err(|fault| fault.to_string());
    let (mut arguments, mut expected) = (Vec::new(), String::new());
    for (name, file) in examples()? {
        write(&format!("data/{name}"), &file)?;
        expected.push_str(&format!("{name} {}\n", lowered(&file)));
        arguments.extend([name, "-".to_string()]);
    }
    for (schedule, text) in schedules() {
        write(&format!("data/{schedule}"), text.as_bytes())?;
    }
    for (name, file, schedule) in runs()? {
        let text = &schedules()[&schedule];
        let moves = examples::moves(text).ok_or_else(|| format!("{schedule} has a line that is no move"))?;
        write(&format!("data/{name}"), &file)?;
        expected.push_str(&format!("{name} {}\n", lowered(&file)));
        for (machine, word) in Machine::ALL.into_iter().zip(["source", "tso", "pso"]) {
            expected.push_str(&format!("{schedule} {word}\n{}", ran(machine, &file, &moves)));
        }
        arguments.extend([name, schedule]);
    }
    write("args", format!("{}\n", arguments.join("\n")).as_bytes())?;
    write("stdout", expected.as_bytes())
}

/// The papers' examples that are executed.
fn examples() -> Result<Vec<(String, Vec<u8>)>, String> {
    let sets = |count: usize| assemble("x", &vec!["r0=1"; count].join("; ")).map(|assembled| assembled.file(0));
    let mut chained = sets(3)?;
    chained[16 + 12 + 10] = 2;
    let mut short = sets(9)?;
    short.truncate(123);
    let mut five_lanes = sets(1)?;
    five_lanes[0] = 5;
    let locked_twice = assemble("x", "lock l; lock l; unlock l")?.file(0);
    let downward = assemble("x", "lock l1; lock l0; unlock l0; unlock l1")?.file(0);
    let files = [
        ("no-records", assemble("x", "")?.file(0)),
        ("64-records", sets(64)?),
        ("65-records", sets(65)?),
        ("chained-to-itself", chained),
        ("9-sets-of-123-bytes", short),
        ("15-bytes", sets(0)?[..15].to_vec()),
        ("5-lanes", five_lanes),
        ("locked-twice", locked_twice),
        ("locks-downward", downward),
    ];
    Ok(files.map(|(name, file)| (format!("{name}.kernel"), file)).to_vec())
}

/// Kernels that are run: name, file, name of the schedule.
fn runs() -> Result<Vec<(String, Vec<u8>, String)>, String> {
    let rows = rows()?;
    let mut files = Vec::new();
    let mut litmus = |name: String, file: Vec<u8>| {
        let schedule = format!("{}-lanes.moves", file[0]);
        files.push((name, file, schedule));
    };
    for name in LITMUS {
        let row = rows.iter().find(|row| row.name == name).ok_or_else(|| format!("no row {name}"))?;
        let (first, last) = (row.masks[0], row.masks[row.masks.len() - 1]);
        litmus(format!("{name}.kernel"), row.assembled.file(first));
        if last != first {
            litmus(format!("{name}-volatile.kernel"), row.assembled.file(last));
        }
    }
    let overtaken: Vec<_> = files.iter().filter(|(name, _, _)| name.starts_with("MP")).cloned().collect();
    files.extend(overtaken.into_iter().map(|(name, file, _)| (name, file, OVERTAKING.0.to_string())));
    let kernels = BTreeMap::from_iter(examples::kernels());
    let ended = ENDED.iter().map(|(name, schedule, _, _)| (*name, *schedule));
    // the four lanes last: tests/examples.sh reads their end from there on
    for (name, schedule) in ended.chain([(FOUR_LANES, FOUR_LANES)]) {
        let file = kernels.get(name).ok_or_else(|| format!("no example {name}"))?;
        files.push((format!("{name}.kernel"), file.clone(), format!("{schedule}.moves")));
    }
    Ok(files)
}

/// The texts of schedules by name.
fn schedules() -> BTreeMap<String, String> {
    let lines = |moves: &str| moves.replace("; ", "\n");
    let in_turn = (2..=4).map(|lanes| (format!("{lanes}-lanes.moves"), moves_text(lanes)));
    let ended = ENDED.iter().map(|(_, name, head, moves)| {
        (format!("{name}.moves"), format!("# every lane at its end, {head}\n{}\n", lines(moves)))
    });
    let (name, moves) = OVERTAKING;
    let overtaking = (name.to_string(), format!("# the second store of lane 0 is to commit first\n{}\n", lines(moves)));
    let four_lanes = (format!("{FOUR_LANES}.moves"), FOUR_LANES_MOVES.to_string());
    in_turn.chain(ended).chain([overtaking, four_lanes]).collect()
}

/// Stores pile up, then go to memory, three times over.
fn moves_text(lanes: u8) -> String {
    let round = |choice: u8| (0..lanes).map(|lane| format!("{lane} {choice}\n")).collect::<String>().repeat(4);
    format!("# {lanes} lanes in turn: instructions, then commits\n{}", (round(0) + &round(1)).repeat(3))
}

fn lowered(file: &[u8]) -> String {
    let mut sheet = [0; 10_256];
    let bytes = [1, 2, 3].map(|level| slow::lower(level, file, &mut sheet));
    match bytes[0] >> 32 {
        0 => format!("level 1 {} bytes level 2 {} bytes level 3 {} bytes", bytes[0], bytes[1], bytes[2]),
        number => format!("refused {number} record {}", bytes[0] as u32),
    }
}

/// The end of a run as the library's programs tell it.
fn ran(machine: Machine, file: &[u8], moves: &[u8]) -> String {
    let mut state = [0; STATE];
    let answer = slow::run(machine, file, moves, &mut state);
    if answer != STATE as u64 {
        return format!("refused {} record {}\n", answer >> 32, answer as u32);
    }
    let word = |at: usize| u32::from_le_bytes([state[at], state[at + 1], state[at + 2], state[at + 3]]);
    let words = |from: usize, count: usize| (0..count).map(|i| format!(" {}", word(from + 4 * i))).collect::<String>();
    let locks: String = state[4..4 + usize::from(file[2])].iter().map(|lock| format!(" {lock}")).collect();
    let finished = if state[0] == 1 { "yes" } else { "no" };
    let mut text = format!("done {} waited {}\nfinished {finished}\n", word(8), word(16));
    text.push_str(&format!("memory{}\nlocks{locks}\n", words(24, file[1].into())));
    for lane in 0..usize::from(file[0]) {
        let at = 88 + 548 * lane;
        let pair = |at: usize| u16::from_le_bytes([state[at], state[at + 1]]);
        text.push_str(&format!("lane {lane} position {} registers{}\n", pair(at), words(at + 4, 8)));
        for entry in (0..usize::from(pair(at + 2))).map(|i| at + 36 + 8 * i) {
            let told = match state[entry] {
                1 => format!("location {} value {}", state[entry + 1], word(entry + 4)),
                _ => format!("release {}", state[entry + 1]),
            };
            text.push_str(&format!("lane {lane} pending {told}\n"));
            if state[entry + 2] == 1 {
                text.push_str(&format!("lane {lane} pending SS\n"));
            }
        }
    }
    text
}
