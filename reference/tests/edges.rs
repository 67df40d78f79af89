//! Tests: the first 2,000 cases of seed 1 have every edge, and each edge is answered as its rule says; they have LOCKs
//! without their MFENCE in every place, locks nested upward and not, kernels at the end of a page, and moves of the pso
//! machine about its marks.

use reference::random::{Case, Cases};
use reference::slow::kernel::{Kernel, LOAD, LOCK, Refusal, SKIP, STORE, UNLOCK, check, check_to_7};
use reference::slow::locks::{lane_lock_fault, lane_lock_order};
use reference::slow::machines::{Machine, Program, State, Turn};
use reference::slow::pending::{Item, Pending};
use reference::slow::placement::{Barrier, placement};
use reference::slow::sheets::{Level, SL, SS, instructions};
use reference::slow::{lowered, paged};
use std::collections::BTreeMap;

const CASES: u64 = 2000;

fn for_each_case(cases: &Cases, tell: impl FnMut(Case)) {
    (0..CASES).map(|number| cases.case(number)).for_each(tell);
}

#[test]
fn every_kernel_edge() {
    let cases = Cases::new(1);
    let mut met: BTreeMap<&str, usize> = cases.edges().iter().map(|edge| (edge.name.as_str(), 0)).collect();
    assert_eq!(met.len(), cases.edges().len(), "two edges have one name");
    for number in 0..CASES {
        let case = cases.case(number);
        let Some((edge, record)) = case.edge else { continue };
        let expected = (edge.refusal != 0).then_some(Refusal { number: edge.refusal, record });
        assert_eq!(check(&case.file).err(), expected, "{} in case {number}", edge.name);
        *met.get_mut(edge.name.as_str()).unwrap() += 1;
    }
    let missing: Vec<_> = met.iter().filter(|(_, count)| **count == 0).collect();
    assert!(missing.is_empty(), "{missing:?}");
}

/// What a schedule is at the edge of, if it breaks one rule at most.
fn schedule_edges(machine: Machine, lanes: u8, moves: &[u8]) -> Vec<&'static str> {
    let highest = machine.highest_choice();
    let (pairs, odd) = moves.as_chunks::<2>();
    let broken: Vec<usize> = (0..pairs.len()).filter(|at| pairs[*at][0] >= lanes || pairs[*at][1] > highest).collect();
    let last = pairs.len().saturating_sub(1);
    match (&broken[..], odd) {
        ([], []) => {
            let lane = pairs.iter().any(|[lane, _]| *lane == lanes - 1).then_some("lane T - 1");
            let choice = pairs.iter().any(|[_, choice]| *choice == highest).then_some("highest choice");
            let none = pairs.is_empty().then_some("no move");
            [lane, choice, none].into_iter().flatten().collect()
        }
        ([], [_]) if pairs.is_empty() => vec!["one byte"],
        ([], [_]) => vec!["odd byte"],
        ([at], []) => {
            let kind = match pairs[*at] {
                [lane, choice] if lane == lanes && choice <= highest => "lane T",
                [lane, choice] if lane < lanes && choice == highest + 1 => "choice above the highest",
                _ => return vec!["far beyond"],
            };
            let place = if *at == 0 { "fault in the first move" } else { "fault in a later move" };
            vec![kind, place, if *at == last { "fault in the last move" } else { "fault in an earlier move" }]
        }
        _ => vec![],
    }
}

#[test]
fn every_schedule_edge() {
    for machine in Machine::ALL {
        let mut met: BTreeMap<&str, usize> = BTreeMap::new();
        for_each_case(&Cases::new(1), |case| {
            if check(&case.file).is_err() {
                return;
            }
            for (_, moves) in case.schedules.iter().filter(|(own, _)| *own == machine) {
                for edge in schedule_edges(machine, case.file[0], moves) {
                    *met.entry(edge).or_default() += 1;
                }
            }
        });
        let rare: Vec<_> = met.iter().filter(|(_, count)| **count < 5).collect();
        assert!(met.len() == 12 && rare.is_empty(), "{machine:?}: {met:?}");
    }
}

/// Whether no move names a lane or a choice that there is not; highest is 64.
fn lawful(moves: &[u8], lanes: u8) -> bool {
    moves.as_chunks::<2>().0.iter().all(|[lane, choice]| *lane < lanes && *choice <= 64)
}

/// The highest choice of the source machine that a schedule's moves carried out, and the longest list.
fn reached(kernel: &Kernel, moves: &[u8]) -> (u8, usize) {
    let program = Program::new(Machine::Source, kernel);
    let (mut state, mut choice, mut list) = (program.start(), 0, 0);
    for [lane, chosen] in moves.as_chunks::<2>().0 {
        if let Turn::Done(next, _) = program.turn(&state, usize::from(*lane), usize::from(*chosen)) {
            state = next;
            choice = choice.max(*chosen);
            list = list.max(state.lanes[usize::from(*lane)].pending.count());
        }
    }
    (choice, list)
}

#[test]
fn a_full_list_and_its_64th_entry() {
    let (mut full, mut committed) = (0, 0);
    for_each_case(&Cases::new(1), |case| {
        let Ok(kernel) = check(&case.file) else { return };
        let lawful = |moves: &[u8]| lawful(moves, case.file[0]);
        if case.edge.is_none() || !kernel.chains.iter().any(|chain| chain.len() == 64) {
            return;
        }
        for (_, moves) in case.schedules.iter().filter(|(machine, moves)| *machine == Machine::Source && lawful(moves))
        {
            let (choice, list) = reached(&kernel, moves);
            full += usize::from(list == 64);
            committed += usize::from(choice == 64);
        }
    });
    assert!(full > 0 && committed > 0, "{full} full lists, {committed} commits of a 64th entry");
}

/// Where a lane has a LOCK with SL before it, which level 2 does not write, and SKIPs about it.
fn drains(kernel: &Kernel, lane: usize) -> Vec<&'static str> {
    let standing = placement(kernel, lane);
    let operation = |position: usize| kernel.at(lane, position).operation;
    let drains = |position: &usize| operation(*position) == LOCK && standing[*position].contains(&Barrier::SL);
    let locks: Vec<usize> = (0..kernel.length(lane)).filter(drains).collect();
    let volatile = |position: &usize| kernel.volatile(kernel.at(lane, *position).b);
    let orders =
        |position: &usize| operation(*position) == UNLOCK || operation(*position) == STORE && volatile(position);
    let behind = locks.iter().map(|lock| match (0..*lock).rev().find(orders).map(operation) {
        Some(UNLOCK) => "behind an UNLOCK",
        _ => "behind a volatile store",
    });
    let loads = (0..kernel.length(lane)).filter(|at| operation(*at) == LOAD && volatile(at));
    let covered = |load: &usize| !standing[*load].contains(&Barrier::SL) && locks.iter().any(|lock| lock < load);
    let covered = loads.filter(covered).map(|_| "before a volatile load without MFENCE");
    let skips = (0..kernel.length(lane)).filter(|at| operation(*at) == SKIP).flat_map(|from| {
        let to = kernel.place(lane, kernel.at(lane, from).target);
        let lands = locks.contains(&to).then_some("SKIP to it");
        let over = locks.iter().any(|lock| from < *lock && *lock < to).then_some("SKIP over it");
        let after = locks.iter().any(|lock| *lock < from).then_some("SKIP behind it");
        [lands, over, after].into_iter().flatten()
    });
    behind.chain(covered).chain(skips).collect()
}

#[test]
fn locks_without_their_mfence() {
    let mut met: BTreeMap<&str, usize> = BTreeMap::new();
    for_each_case(&Cases::new(1), |case| {
        let Ok(kernel) = check(&case.file) else { return };
        for kind in (0..kernel.header.lanes).flat_map(|lane| drains(&kernel, lane)) {
            *met.entry(kind).or_default() += 1;
        }
    });
    let rare: Vec<_> = met.iter().filter(|(_, count)| **count < 100).collect();
    assert!(met.len() == 6 && rare.is_empty(), "{met:?}");
}

/// How deep a lane nests its locks, and whether it releases one below another.
fn nests(kernel: &Kernel, lane: usize) -> Vec<&'static str> {
    let (mut held, mut met): (Vec<u8>, Vec<_>) = (Vec::new(), Vec::new());
    for record in (0..kernel.length(lane)).map(|position| kernel.at(lane, position)) {
        match record.operation {
            LOCK => held.push(record.b),
            UNLOCK if held.last() != Some(&record.b) => met.push("not the newest released"),
            _ => {}
        }
        if record.operation == UNLOCK {
            held.retain(|lock| *lock != record.b);
        }
        met.extend([2, 3, 4].contains(&held.len()).then(|| ["two deep", "three deep", "four deep"][held.len() - 2]));
    }
    met.sort();
    met.dedup();
    met
}

#[test]
fn nested_locks_and_their_order() {
    let mut met: BTreeMap<&str, usize> = BTreeMap::new();
    for_each_case(&Cases::new(1), |case| {
        let Ok(kernel) = check_to_7(&case.file) else { return };
        let lanes = 0..kernel.header.lanes;
        let faults: Vec<_> = lanes.clone().filter_map(|lane| lane_lock_fault(&kernel, lane).err()).collect();
        let whole = lanes.clone().filter(|lane| lane_lock_fault(&kernel, *lane).is_ok());
        let falls: Vec<_> = whole.filter_map(|lane| lane_lock_order(&kernel, lane).err()).collect();
        let kinds = match (&faults[..], &falls[..]) {
            ([], []) => lanes.flat_map(|lane| nests(&kernel, lane)).collect(),
            ([], [_]) => vec!["12 in one lane"],
            ([], _) => vec!["12 in several lanes"],
            (_, [_, ..]) => vec!["8 and 12 in different lanes"],
            _ => vec![],
        };
        for kind in kinds.into_iter().filter(|_| case.edge.is_none()) {
            *met.entry(kind).or_default() += 1;
        }
    });
    let rare: Vec<_> = met.iter().filter(|(_, count)| **count < 10).collect();
    assert!(met.len() == 7 && rare.is_empty(), "{met:?}");
}

/// Instructions and pages of the kernels that are made for a number of instructions.
#[test]
fn kernels_at_the_end_of_a_page() {
    let mut met: BTreeMap<usize, usize> = BTreeMap::new();
    for_each_case(&Cases::new(1), |case| {
        let named = case.edge.and_then(|(edge, _)| edge.name.strip_suffix(" instructions at level 2"));
        let Some(count) = named.and_then(|count| count.parse::<usize>().ok()) else { return };
        assert_eq!(lowered(2, &case.file).map(|sheet| sheet.len()), Ok(16 + 8 * count));
        *met.entry(count).or_default() = paged(&case.file).map_or(0, |pages| pages.len() / 33 - count);
    });
    assert_eq!(met, BTreeMap::from([(55, 1), (56, 2), (110, 2), (111, 3)]));
}

/// What a commit of the pso machine is about: by what it is held back, or what it leaves.
fn commit_kind(before: &Pending, index: usize, after: Option<&Pending>) -> Option<&'static str> {
    let (older, entry) = before.nth(index)?;
    let marked = older.contains(&Item::Mark);
    let same = older.iter().any(|item| matches!(item, Item::Entry(other) if other.same(entry)));
    let behind = |list: &Pending| list.marked().iter().filter(|(_, mark)| *mark).count();
    Some(match (after, marked, same) {
        (None, true, false) => "held back by a mark",
        (None, false, true) => "held back by its location",
        (None, _, _) => "held back by both",
        (Some(after), _, _) if behind(after) < behind(before) => "a mark vanishes",
        _ if before.marked()[index].1 => "its mark goes to the entry before",
        _ if index > 0 => "past older entries",
        _ => "the oldest, no mark behind it",
    })
}

/// What a move of the pso machine is about.
fn kind(before: &State, after: Option<&State>, lane: usize, choice: usize, operation: u8) -> Option<&'static str> {
    let list = &before.lanes[lane].pending;
    match (choice, operation, list.count()) {
        (0, SS, 0) => Some("SS with nothing pending"),
        (0, SS, 31) => Some("SS behind 31"),
        (0, SS, 32) => Some("SS behind 32"),
        (0, SS, 63) => Some("SS behind 63"),
        (0, SS, _) => Some("SS behind others"),
        (0, SL, 1..) => Some("SL waits"),
        (0, LOCK, 1..) => Some("LOCK waits for the list"),
        (0, LOAD, 1..) => Some("LOAD with a list"),
        (0, _, _) => None,
        (64, _, 64) if after.is_some() => Some("the 64th commits"),
        (64, _, 64) => Some("the 64th is held back"),
        (64, _, _) => Some("choice 64 beyond the list"),
        (k, _, count) if k == count + 1 => Some("one beyond the list"),
        (k, _, _) => commit_kind(list, k - 1, after.map(|after| &after.lanes[lane].pending)),
    }
}

#[test]
fn moves_about_marks() {
    let mut met: BTreeMap<&str, usize> = BTreeMap::new();
    for_each_case(&Cases::new(1), |case| {
        let Ok(kernel) = check(&case.file) else { return };
        let program = Program::new(Machine::Pso, &kernel);
        let parts: Vec<_> = (0..kernel.header.lanes).map(|lane| instructions(&kernel, lane, Level::Three)).collect();
        for (_, moves) in case.schedules.iter().filter(|(machine, _)| *machine == Machine::Pso) {
            if !lawful(moves, case.file[0]) {
                continue;
            }
            let mut state = program.start();
            for [lane, choice] in moves.as_chunks::<2>().0 {
                let (lane, choice) = (usize::from(*lane), usize::from(*choice));
                let operation = parts[lane].get(state.lanes[lane].position).map_or(0, |next| next.operation);
                let after = match program.turn(&state, lane, choice) {
                    Turn::Done(after, _) => Some(after),
                    _ => None,
                };
                if let Some(kind) = kind(&state, after.as_ref(), lane, choice, operation) {
                    *met.entry(kind).or_default() += 1;
                }
                state = after.unwrap_or(state);
            }
        }
    });
    let rare: Vec<_> = met.iter().filter(|(_, count)| **count < 3).collect();
    assert!(met.len() == 19 && rare.is_empty(), "{} kinds, {met:?}", met.len());
}
