//! Holds calls of the C interface to the slow implementation: answers, output buffers, and the bytes around them.

use crate::random::{self, Case, Cases, Random};
use crate::slow::{self, STATE, machines::Machine};
use crate::{Lower, Run, fast};
use std::collections::BTreeMap;
use std::fmt;
use std::process::ExitCode;

/// The calls under test; the runs, one for each machine, may be left out.
pub struct Calls {
    pub lower1: Lower,
    pub lower2: Lower,
    pub lower3: Lower,
    pub page: Lower,
    pub runs: Option<[Run; 3]>,
}

/// Cases and seed from the command line.
pub struct Arguments {
    pub cases: u64,
    pub seed: u64,
}

impl Arguments {
    pub fn read(cases: u64) -> Self {
        let numbers: Vec<u64> = std::env::args().skip(1).filter_map(|word| word.parse().ok()).collect();
        Arguments { cases: numbers.first().copied().unwrap_or(cases), seed: numbers.get(1).copied().unwrap_or(1) }
    }
}

/// How many calls were compared, by their answer: 0 for success, else the refusal.
#[derive(Default)]
pub struct Tally {
    cases: u64,
    answers: BTreeMap<u64, u64>,
}

impl fmt::Display for Tally {
    fn fmt(&self, out: &mut fmt::Formatter) -> fmt::Result {
        let calls: u64 = self.answers.values().sum();
        write!(out, "{} cases, {calls} calls alike; by answer:", self.cases)?;
        self.answers.iter().try_for_each(|(number, count)| write!(out, " {number}:{count}"))
    }
}

/// Tries random cases from a seed and says what was compared, or the first difference.
pub fn compare(arguments: &Arguments, calls: &Calls) -> Result<Tally, String> {
    let mut tally = Tally::default();
    let cases = Cases::new(arguments.seed);
    for number in 0..arguments.cases {
        let mut case = cases.case(number);
        let tried = tally.try_lowering(&mut case, calls).and_then(|()| tally.try_runs(&mut case, calls));
        tried.map_err(|difference| format!("case {number}: {difference}\nkernel {}", hex(&case.file)))?;
        tally.cases += 1;
    }
    Ok(tally)
}

/// Schedules of 16 megabytes on a kernel of 256 records, the second with a last move that no machine has. They are held
/// to the fast implementation, which `agree` holds to the slow one.
pub fn compare_long(calls: &Calls) -> Result<Tally, String> {
    let mut tally = Tally::default();
    let mut random = Random::new(1);
    let draft = random::draft_of(&mut random, &[64; 4]);
    let file = random::numbered(&mut random, &draft);
    let own = Machine::ALL.into_iter().zip(fast::RUNS);
    for ((machine, fast), run) in own.zip(calls.runs.iter().flatten()) {
        let mut moves = random::long_schedule(&mut random, 4, 8_000_000, machine.highest_choice());
        for last in [0, 4] {
            *moves.last_chunk_mut::<2>().expect("there are moves") = [last, 0];
            tally
                .alike(random.byte(), STATE, |out| fast(&file, &moves, out), |out| run(&file, &moves, out))
                .map_err(|difference| format!("run {machine:?}, 8000000 moves, lane {last} last: {difference}"))?;
            tally.cases += 1;
        }
    }
    Ok(tally)
}

/// Prints one line, or the first difference with its case.
pub fn report(who: &str, compared: Result<Tally, String>) -> ExitCode {
    match &compared {
        Ok(tally) => println!("{who}: {tally}"),
        Err(difference) => println!("{who}: DIFFERENCE in {difference}"),
    }
    if compared.is_ok() { ExitCode::SUCCESS } else { ExitCode::FAILURE }
}

impl Tally {
    fn try_lowering(&mut self, case: &mut Case, calls: &Calls) -> Result<(), String> {
        let Case { file, random, .. } = case;
        let mut lent_file = Lent::holding(file);
        let lower1 = ("lower1", slow::lowered(1, file), calls.lower1);
        let lower2 = ("lower2", slow::lowered(2, file), calls.lower2);
        let lower3 = ("lower3", slow::lowered(3, file), calls.lower3);
        let page = ("page", slow::paged(file), calls.page);
        for (name, result, lower) in [lower1, lower2, lower3, page] {
            let length = result.as_ref().map_or(40, Vec::len);
            for room in [0, length - 1, length, length + 1, length + 1 + random.below(6400)] {
                let expected = |out: &mut [u8]| slow::answer(slow::put_into(out, &result));
                let given = |out: &mut [u8]| lower(lent_file.buffer(), out);
                self.alike(random.byte(), room, expected, given)
                    .and_then(|()| lent_file.still(file))
                    .map_err(|difference| format!("{name}, {room} bytes of room: {difference}"))?;
            }
        }
        Ok(())
    }

    fn try_runs(&mut self, case: &mut Case, calls: &Calls) -> Result<(), String> {
        let Case { file, random, schedules, .. } = case;
        let mut lent_file = Lent::holding(file);
        let Some(runs) = calls.runs else { return Ok(()) };
        for (machine, moves) in schedules {
            let (machine, run) = (*machine, runs[*machine as usize]);
            let mut lent_moves = Lent::holding(moves);
            for room in [0, STATE - 1, STATE, STATE + 1 + random.below(100)] {
                let expected = |out: &mut [u8]| slow::run(machine, file, moves, out);
                let given = |out: &mut [u8]| run(lent_file.buffer(), lent_moves.buffer(), out);
                self.alike(random.byte(), room, expected, given)
                    .and_then(|()| lent_file.still(file))
                    .and_then(|()| lent_moves.still(moves))
                    .map_err(|difference| {
                        format!("run {machine:?}, {room} bytes of room: {difference}\nmoves {}", hex(moves))
                    })?;
            }
        }
        Ok(())
    }

    /// Makes both calls on like buffers; everything afterwards has to be alike.
    fn alike(
        &mut self,
        fill: u8,
        room: usize,
        expected: impl FnOnce(&mut [u8]) -> u64,
        given: impl FnOnce(&mut [u8]) -> u64,
    ) -> Result<(), String> {
        let before: Vec<u8> = (0..room).map(|at| (at as u8).wrapping_mul(31).wrapping_add(fill)).collect();
        let (mut own, mut other) = (before.clone(), Lent::holding(&before));
        let (asked, got) = (expected(&mut own), given(other.buffer()));
        *self.answers.entry(asked >> 32).or_default() += 1;
        if asked != got {
            return Err(format!("answer {} instead of {}", told(got), told(asked)));
        }
        other.still(&own)
    }
}

fn told(answer: u64) -> String {
    match answer >> 32 {
        0 => format!("{answer}"),
        number => format!("refused {number} record {}", answer as u32),
    }
}

const GUARD: usize = 64;
const GUARD_BYTE: u8 = 0xa5;

/// A buffer to put_into, with bytes around it that nobody may write.
struct Lent {
    bytes: Vec<u8>,
}

impl Lent {
    fn holding(content: &[u8]) -> Self {
        Lent { bytes: [&[GUARD_BYTE; GUARD], content, &[GUARD_BYTE; GUARD]].concat() }
    }

    fn buffer(&mut self) -> &mut [u8] {
        let end = self.bytes.len() - GUARD;
        &mut self.bytes[GUARD..end]
    }

    /// Whether it holds this, and nothing around it was written.
    fn still(&self, content: &[u8]) -> Result<(), String> {
        let wanted = Lent::holding(content).bytes;
        match self.bytes.iter().zip(&wanted).position(|(have, want)| have != want) {
            Some(at) => {
                let place = at as i64 - GUARD as i64;
                Err(format!("byte {place} of the buffer is {} instead of {}", self.bytes[at], wanted[at]))
            }
            None => Ok(()),
        }
    }
}

fn hex(bytes: &[u8]) -> String {
    bytes.iter().map(|byte| format!("{byte:02x}")).collect()
}
