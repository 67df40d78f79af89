//! Fast implementation: the pages of the level 2 sheet, each line written in place over one prepared for its operation.

use super::check::{Kernel, Record};
use super::flow::Plan;
use super::{ADD, LOAD, LOCK, Refusal, SET, SKIP, STORE, UNLOCK};

const WIDTH: usize = 33;
type Line = [u8; WIDTH];

/// Instructions of a full page.
const LINES: usize = 55;

/// Where fields begin, from 0; these have three columns, the operand's first of which is always blank.
const POSITION: usize = 2;
const OPERAND: usize = 14;
const TARGET: usize = 25;
const NUMBER: usize = 29;

const REGISTER: usize = 13;
const CONSTANT_END: usize = 28;

/// A blank line but for the text from there on.
const fn prepared(text: &[u8], from: usize) -> Line {
    let mut line = [b' '; WIDTH];
    line[WIDTH - 1] = b'\n';
    let mut at = 0;
    while at < text.len() {
        line[from + at] = text[at];
        at += 1;
    }
    line
}

const HEADING: Line = prepared(b"page", 0);

/// By operation: the name, and register 0 where there is one. MFENCE stands at 0, which is no operation of a record.
const NAMED: [Line; 8] = {
    let mut named = [prepared(b"MFENCE", 6); 8];
    named[SET as usize] = prepared(b"SET    0", 6);
    named[ADD as usize] = prepared(b"ADD    0", 6);
    named[LOAD as usize] = prepared(b"LOAD   0", 6);
    named[STORE as usize] = prepared(b"STORE  0", 6);
    named[LOCK as usize] = prepared(b"LOCK", 6);
    named[UNLOCK as usize] = prepared(b"UNLOCK", 6);
    named[SKIP as usize] = prepared(b"SKIP   0", 6);
    named
};

/// Numbers in three columns, to the right.
const NUMBERS: [[u8; 3]; 257] = {
    let mut numbers = [[b' '; 3]; 257];
    let mut number = 0;
    while number < 257 {
        let mut left = number;
        let mut column = 3;
        while column == 3 || left > 0 {
            column -= 1;
            numbers[number][column] = b'0' + (left % 10) as u8;
            left /= 10;
        }
        number += 1;
    }
    numbers
};

pub fn write(kernel: &Kernel, plan: &Plan, page: &mut [u8]) -> Result<usize, Refusal> {
    let count = plan.counts.iter().map(|count| usize::from(*count)).sum::<usize>();
    let pages = count.div_ceil(LINES).max(1);
    let length = WIDTH * (count + pages);
    let page = page.get_mut(..length).ok_or(Refusal::new(9, 0))?;
    let lines = page.as_chunks_mut::<WIDTH>().0;
    for (page, number) in lines.chunks_mut(1 + LINES).zip(1..) {
        page[0] = HEADING;
        put(&mut page[0], NUMBER, number);
    }
    let mut before = 0;
    for lane in 0..kernel.lanes() {
        write_lane(kernel, plan, lane, before, lines);
        before += usize::from(plan.counts[lane]);
    }
    Ok(length)
}

/// So many instructions stand before the lane's first.
fn write_lane(kernel: &Kernel, plan: &Plan, lane: usize, before: usize, lines: &mut [Line]) {
    let mut position = 0;
    for (name, standing) in kernel.chain(lane).iter().zip(&plan.barriers[kernel.ends[lane]..]) {
        if *standing != 0 {
            begin(lines, before, lane, position, 0);
            position += 1;
        }
        let record = kernel.record(*name);
        let line = begin(lines, before, lane, position, record[0]);
        line[REGISTER] += record[1];
        match record[0] {
            SET => put_constant(line, record),
            SKIP => put(line, TARGET, plan.lands(kernel, lane, record).into()),
            _ => put(line, OPERAND, record[2].into()),
        }
        put(line, NUMBER, usize::from(*name) + 1);
        position += 1;
    }
}

/// An instruction's line, behind the headings of its page and of those before it: lane, position and name.
fn begin(lines: &mut [Line], before: usize, lane: usize, position: usize, operation: u8) -> &mut Line {
    let index = before + position;
    let line = &mut lines[index + index / LINES + 1];
    *line = NAMED[usize::from(operation & 7)];
    line[0] = b'0' + lane as u8;
    put(line, POSITION, position);
    line
}

/// A number up to 256 in three columns.
fn put(line: &mut Line, from: usize, number: usize) {
    line[from..from + 3].copy_from_slice(&NUMBERS[number]);
}

/// Two digits at a time from the right; what is left is below 100, and its blank falls before the field or in it.
fn put_constant(line: &mut Line, record: &Record) {
    let mut left = u32::from_le_bytes([record[4], record[5], record[6], record[7]]);
    let mut end = CONSTANT_END;
    while left >= 100 {
        let pair = left % 100;
        line[end - 2] = b'0' + (pair / 10) as u8;
        line[end - 1] = b'0' + (pair % 10) as u8;
        left /= 100;
        end -= 2;
    }
    put(line, end - 3, left as usize);
}
