//! The example kernels, in the notation of the litmus tables, and the text of schedules.

use crate::litmus::assembler::assemble;

const STORE_BUFFERING: &str = "r0=1; x=r0; r1=y ‖ r0=1; y=r0; r1=x";

const SIXTEEN: &str = "x0 x1 x2 x3 x4 x5 x6 x7 x8 x9 x10 x11 x12 x13 x14 x15";

/// Locks 1 to 3, sums beyond 2^32, register 7, volatile locations from 8 up; lanes 2 and 3 skip and store.
const FOUR_LANES: &str = "lock l1; r7=4294967295; x8=r7; r6=x15; unlock l1 \
    ‖ r1=2147483648; r2=2147483649; r1+=r2; x9=r1; x10=r2; lock l1; r5=x8; unlock l1; skip r5 end; x0=r5 \
    ‖ r7=4294967294; r3=x10; skip r3 D; r4=3000000000; r4+=r4; D:; lock l2; x12=r4; x13=r7; x14=r3; unlock l2; r5=x13 \
    ‖ r7=2147483647; skip r0 A; r7=0; A:; lock l3; x15=r7; x11=r7; unlock l3; r6=x15; skip r6 end; x8=r6";

/// Lane 0 fills a table and raises a flag; lane 1 looks for it, adds the table up and answers. Level 2 has 59
/// instructions.
const TWO_PAGES: &str = "r0=1; x0=r0; r0+=r0; x1=r0; r0+=r0; x2=r0; r0+=r0; x3=r0; r0+=r0; x4=r0; r0+=r0; \
    x5=r0; r0+=r0; x6=r0; r0+=r0; x7=r0; r0+=r0; x8=r0; r0+=r0; x9=r0; r0+=r0; x15=1; r1=x14; \
    lock l; r2=x10; unlock l \
    ‖ r0=x15; skip r0 end; r2=x0; r1+=r2; r2=x1; r1+=r2; r2=x2; r1+=r2; r2=x3; r1+=r2; r2=x4; r1+=r2; \
    r2=x5; r1+=r2; r2=x6; r1+=r2; r2=x7; r1+=r2; r2=x8; r1+=r2; r2=x9; r1+=r2; \
    lock l; r3=x10; r3+=r1; x10=r3; unlock l; x14=1; r4=x15";

/// Both lanes take lock 0 first. With the locks of lane 1 the other way each could wait for the other: refused.
const NESTED_LOCKS: &str = "lock l0; lock l1; x=1; y=1; unlock l1; unlock l0 \
    ‖ lock l0; lock l1; r0=x; r1=y; unlock l1; unlock l0";

const CROSSED_LOCKS: &str = "lock l0; lock l1; x=1; y=1; unlock l1; unlock l0 \
    ‖ lock l1; lock l0; r0=x; r1=y; unlock l0; unlock l1";

/// Name, locations, volatile ones, lanes.
const EXAMPLES: [(&str, &str, &str, &str); 10] = [
    ("store-buffering-mask-3", "x y", "{x y}", STORE_BUFFERING),
    ("store-buffering-mask-1", "x y", "{x}", STORE_BUFFERING),
    ("store-buffering-mask-0", "x y", "{}", STORE_BUFFERING),
    ("message-passing", "data flag", "{flag}", "data=5; flag=1 ‖ r0=flag; skip r0 end; r1=data"),
    ("lock-hand-over", "x", "{}", "lock l; x=1; unlock l ‖ lock l; r0=x; unlock l"),
    ("nested-locks", "x y", "{}", NESTED_LOCKS),
    ("crossed-locks", "x y", "{}", CROSSED_LOCKS),
    ("skip-over-volatile-load", "x y z", "{x y}", "r1=z; x=1; skip r1 D; r2=y; D:; r3=y ‖ y=1; z=1"),
    ("four-lanes", SIXTEEN, "{x8 x10 x13 x15}", FOUR_LANES),
    ("two-pages", SIXTEEN, "{x14 x15}", TWO_PAGES),
];

/// The examples' kernel files by name.
pub fn kernels() -> Vec<(&'static str, Vec<u8>)> {
    let valid = EXAMPLES.map(|(name, locations, volatile, lanes)| {
        let assembled = assemble(locations, lanes).expect("an example keeps the notation");
        let mask = assembled.mask(volatile).expect("an example names its own locations");
        (name, assembled.file(mask))
    });
    valid.into_iter().chain([("damaged", damaged())]).collect()
}

/// Store buffering whose third record is chained to itself: the paper's `refused 5 record 3`.
fn damaged() -> Vec<u8> {
    let mut file = assemble("x y", STORE_BUFFERING).expect("an example keeps the notation").file(3);
    file[16 + 12 * 2 + 10] = 3;
    file
}

/// The moves of a schedule's text, as bytes from C: a line has lane and choice, and `#` begins a comment.
pub fn moves(text: &str) -> Option<Vec<u8>> {
    let mut moves = Vec::new();
    for line in text.lines().map(|line| line.split('#').next().unwrap_or("")) {
        match line.split_whitespace().collect::<Vec<_>>()[..] {
            [] => {}
            [lane, choice] => moves.extend([lane.parse::<u8>().ok()?, choice.parse().ok()?]),
            _ => return None,
        }
    }
    Some(moves)
}
