# Tries the tester: plants one fault at a time in a copy of the reference, which stands in for the library (fast, or
# slow where the fault is in it) and for `lanetext` and `lanepage` (slow), and expects `differ`, `listings` or `counts`
# to find it. Prints the rows of the table in docs/TESTS.md. Run with bash. Arguments: number of random cases for each
# fault; a word, to try only the faults whose name has it.
set -eu
cd "$(dirname "$0")"
cases=${1:-3000}
only=${2:-}
out=$(realpath -m ../target/planted)
copy=$out/copy
export CARGO_TARGET_DIR=$out LANES_LIB=$out/release
missed=0

restore() {
    rm -rf "$copy"
    mkdir -p "$copy/src"
    cp -r planted "$copy/"
    cp -r src/fast src/slow "$copy/src/"
}

# build TESTER [PROGRAM]: the stand-in that it tries, the archive or the program, then the tester
build() {
    local stand_in=--lib features='--features runs'
    if [ "$1" = listings ]; then
        stand_in="--bin ${2##*/}" features=
    elif [ "$planted_in" = slow ]; then
        stand_in='--lib --features slow'
    fi
    cargo build --quiet --offline -j1 --release --manifest-path "$copy/planted/Cargo.toml" $stand_in \
        2>"$out/planted.log"
    cargo build --quiet --offline -j1 --profile planted $features --bin "$1"
}

# fault NAME FILE SED [TESTER ARGUMENT..]: the sed script has to change the file, and the tester has to notice
fault() {
    local name=$1 file=$2 sed=$3
    shift 3
    case $name in *"$only"*) ;; *) return ;; esac
    case $file in src/slow/*) planted_in=slow ;; *) planted_in=fast ;; esac
    if [ $# = 0 ]; then
        set -- differ "$cases"
    fi
    restore
    sed -i "$sed" "$copy/$file"
    if cmp -s "$file" "$copy/$file"; then
        echo "NOT PLANTED  $name"
        missed=1
        return
    fi
    build "$@"
    "$out/planted/$@" > "$out/tester.log" 2>&1 || true
    told=$(sed -n 's/.* DIFFERENCE in //p' "$out/tester.log" |
        sed -n '1s/^case \([0-9]*\): /\1 | /p; 1s/^[a-z]/- | &/p')
    if [ -n "$told" ]; then
        echo "| $name | $told |"
    else
        echo "MISSED  $name"
        missed=1
    fi
}

restore
planted_in=fast
listings="listings $LANES_LIB/lanetext listing"
pages="listings $LANES_LIB/lanepage page"
for planted_in in slow fast; do
    build differ
    "$out/planted/differ" "$cases"
done
for program in "$listings" "$pages"; do
    build $program
    "$out/planted/"$program "$cases"
done
build counts
"$out/planted/counts"

check=src/fast/check.rs flow=src/fast/flow.rs sheet=src/fast/sheet.rs page=src/fast/page.rs machine=src/fast/machine.rs
paged=src/slow/page.rs pending=src/slow/pending.rs locks=src/slow/locks.rs calls=src/fast/mod.rs

fault 'a barrier on one side of a SKIP covers the other' $flow 's/self.live |= other.live;//'
fault 'cell VS, VS is empty' $flow 's/\[0, 0, SL, SS\]\]/[0, 0, SL, 0]]/'
fault 'a plain store hides the volatile store before it' $flow 's/first == class {/first == class \&\& class != 1 {/'
fault 'a SKIP lands behind its target'"'"'s barrier' $flow \
    's/position => self.starts\[start + position\]/& + self.barriers[start + position].count_ones() as u16/'
fault 'a SKIP to the end lands at the start' $flow 's/64 => self.counts\[lane\]/64 => 0/'
fault 'the mask stays at level 2' $sheet 's/if LEVEL >= 2/if LEVEL == 3/'
fault 'MFENCE stays before a LOCK' $flow 's/\[0, 0, SL, SL\]/[0, 0, 0, SL]/'
fault 'level 1 leaves SL out before a LOCK as well' $flow 's/\[0, 0, SL, SL\]/[0, SL, SL, SL]/'
fault 'no MFENCE before a volatile load either' $flow 's/(record\[0\] == LOCK)/(matches!(record[0], LOCK | LOAD))/'
fault 'MFENCE before a volatile load that a LOCK parts from the store' $flow \
    's/ways.live = pass.live;/ways.live = pass.live | ways.live \& u8::from(LEVEL == 2 \&\& record[0] == LOCK) << 5;/'
fault 'counts with the MFENCE left out' $flow \
    's/1 + standing.count_ones()/1 + (pass.standing \& KEPT[LEVEL]).count_ones()/'
fault 'a SKIP to a LOCK counts the MFENCE left out' $flow \
    's/\(self.starts\[start + position\] = count\);/\1 + u16::from(pass.standing \& left_out != 0);/'
fault 'a SKIP behind a LOCK counts the MFENCE left out' $flow \
    's/let mut count = 0;/& let mut more = 0;/
    s/\(self.starts\[start + position\] = count\);/\1 + more; more += u16::from(pass.standing \& left_out != 0);/'
fault 'counts of two lanes exchanged' $sheet 's/head\[8..\].chunks_exact_mut(2)/&.rev()/'
fault 'a bad record is named one too low' $check 's/Refusal::new(4, index + 1)/Refusal::new(4, index)/'
fault 'a record that no lane has is accepted' $check 's/if met == self.records.len()/if met <= self.records.len()/'
fault 'chains of 65 records pass' $check 's/> 64)/> 65)/'
fault 'L 17 passes' $check 's/(1..=16)/(1..=17)/'
fault 'K 5 passes' $check 's/locks <= 4/locks <= 5/'
fault 'byte 3 of the header may be 1' $check 's/zero == 0/zero <= 1/'
fault 'mask bit L may be set' $check 's/>> locations == 0/>> locations <= 1/'
fault 'a head from lane T up may be 1' $check 's/else { 0 })/else { 1 })/'
fault 'byte 3 of a record may be 1' $check 's/((low >> 24) as u8 == 0)/((low >> 24) as u8 <= 1)/'
fault 'register 8 of a SET passes' $check 's/a: 7, constant/a: 8, constant/'
fault 'register 8 added passes' $check 's/b_end: 8/b_end: 9/'
fault 'ADD may have a constant of 1' $check 's/b_end: 8,/& constant: 1,/'
fault 'LOCK may have a register' $check 's/(LOCK)\] = Limits {/& a: 1,/'
fault 'operation 8 passes' $check 's/wrapping_sub(1) < 7/wrapping_sub(1) < 8/'
fault 'refusal 7 is numbered 6' $check 's/Refusal::new(7, number)/Refusal::new(6, number)/'
fault 'a SKIP to itself passes' $check 's/from < to \&\& to < end/from <= to \&\& to < end/'
fault 'a SKIP into another lane passes' $check 's/from < to \&\& to < end/from < to/'
fault 'ways with different held sets pass' $flow 's/self.held & self.lacked | self.held/self.held/'
fault 'a byte is written on refusal 9' $sheet \
    's/let sheet = sheet.get_mut/if let Some(byte) = sheet.first_mut() { *byte = 1; }\n    &/'
fault 'a byte is written past the result' $sheet \
    's/let sheet = sheet.get_mut/if let Some(byte) = sheet.get_mut(length) { *byte ^= 1; }\n    &/'
fault 'a byte of the kernel file is written' planted/src/lib.rs \
    's/unsafe { $lower(/unsafe { if kl > 0 { *kernel.cast_mut() ^= 1; } $lower(/'
fault 'bytes are written past the output buffer' planted/src/lib.rs \
    's/unsafe { $lower(/unsafe { *sheet.add(sl) ^= 1; $lower(/'
fault 'a volatile load on the source machine goes on' $machine 's/else if own.ordered > 0/else if own.ordered > 64/'
fault 'an UNLOCK commits ahead of an older plain store' $machine 's/SOURCE => ordered || older/SOURCE => older/'
fault 'a plain store overtakes one to its location' $machine 's/ordered || older.iter().any(same)/ordered/'
fault 'LOCK of the tso machine with a pending list' $machine \
    's/if LEVEL == SOURCE { self.ordered > 0 }/if LEVEL == TSO { false } else &/'
fault 'MFENCE does not wait' $machine 's/_ if own.first < own.last => return Turn::Waits,//'
fault 'a load takes the oldest own value' $machine 's/.iter().rev().find(stored)/.iter().find(stored)/'
fault 'only the first move is looked at for 10' $machine 's/moves.iter().fold/moves.iter().take(1).fold/'
fault 'choice 64 of the source machine is refused' $machine 's/else { 64 }/else { 63 }/'
fault 'choice 2 of the tso machine passes' $machine 's/if LEVEL == TSO { 1 }/if LEVEL == TSO { 2 }/'
fault 'lane T passes' $machine 's/named\[0\] >= kernel/named[0] > kernel/'
fault 'an odd byte passes' $machine 's/!odd.is_empty() ||//'
fault 'the 64th entry does not commit' $machine 's/.get(index) else/.get(index).filter(|_| index < 63) else/'
fault 'done and waited exchanged' $machine \
    's/record(done, moves.len() as u64 - done,/record(moves.len() as u64 - done, done,/'
fault 'finished always' $machine 's/= finished.into();/= u8::from(finished) | 1;/'
fault 'finished with stores pending' $machine 's/lane.first == lane.last \&\& lane.position/lane.position/'
fault 'drained looked for in lane 0 only' $machine \
    's/lane.first == lane.last/self.lanes[0].first == self.lanes[0].last/'
fault 'finished wherever nothing is pending' $machine 's/ \&\& lane.position == part.len()//'
fault 'bytes of the state left as they were' $machine 's/state.fill(0);//'
fault 'a release frees no lock' $machine 's/& 3)\] = 0,/\& 3)] \&= 255,/'
fault 'the upper half of a count left zero' $machine \
    's/&waited.to_le_bytes()/\&u64::from(waited as u32).to_le_bytes()/' counts
fault 'MFENCE listed before a LOCK' src/slow/sheets.rs 's/if next == LOCK => None/if next > 15 => None/' \
    $listings "$cases"
fault 'ADD listed under another name' src/slow/listing.rs 's/"ADD {a} {b}"/"SUM {a} {b}"/' $listings "$cases"
fault 'a SKIP beyond 63 listed as a SKIP to 0' src/slow/listing.rs \
    's/SKIP => format/SKIP if word > 63 => format!("SKIP {a} 0"),\n        &/' $listings "$cases"
fault 'constants from 2^31 up listed as negative' src/slow/listing.rs \
    's/"SET {a} {word}"/"SET {a} {}", word as i32/' $listings "$cases"
fault 'the last of 3,089 bytes is not read' src/slow/listing.rs 's/3089/3088/' $listings "$cases"
fault '54 lines a page' $page 's/LINES: usize = 55/LINES: usize = 54/'
fault '56 lines a page' $page 's/LINES: usize = 55/LINES: usize = 56/'
fault 'a heading too many for 55 instructions' $page 's/count.div_ceil(LINES).max(1)/count \/ LINES + 1/'
fault 'no heading for a kernel without instructions' $page 's/.div_ceil(LINES).max(1)/.div_ceil(LINES)/'
fault 'pages numbered from 0' $page 's/zip(1..)/zip(0..)/'
fault 'page numbers to the left' $page \
    's/put(&mut page\[0\], NUMBER, number);/& while page[0][NUMBER] == 32 { page[0][NUMBER..32].rotate_left(1); }/'
fault 'positions to the left' $page \
    's/put(line, POSITION, position);/& while line[POSITION] == 32 { line[POSITION..5].rotate_left(1); }/'
fault 'positions counted from the kernel'"'"'s first' $page 's/POSITION, position)/POSITION, index)/'
fault 'the record of the next operation' $page \
    's/for (name, standing) in/for (at, (name, standing)) in/
    s/\.zip(&plan.barriers.*ends\[lane\]\.\.\])/&.enumerate()/
    s/NUMBER, usize::from(\*name)/NUMBER, usize::from(*kernel.chain(lane).get(at + 1).unwrap_or(name))/'
fault 'MFENCE with the record behind it' $page \
    's/begin(lines, before, lane, position, 0);/put(&, NUMBER, usize::from(*name) + 1);/; s/, 0);, NUMBER/, 0), NUMBER/'
fault 'UNLOCK under the name of LOCK' $page 's/prepared(b"UNLOCK", 6)/prepared(b"LOCK", 6)/'
fault 'LOCK with a register' $page 's/prepared(b"LOCK", 6)/prepared(b"LOCK   0", 6)/'
fault 'a constant one column to the left' $page 's/CONSTANT_END: usize = 28/CONSTANT_END: usize = 27/'
fault 'a 0 within a constant left blank' $page \
    's/line\[end - 2\] = .*/line[end - 2] = if pair < 10 { 32 } else { 48 + (pair \/ 10) as u8 };/'
fault 'a SKIP'"'"'s position one column to the left' $page 's/TARGET: usize = 25/TARGET: usize = 24/'
fault 'an operand one column to the right' $page 's/OPERAND: usize = 14/OPERAND: usize = 15/'
fault 'a byte is written on refusal 9 of the page' $page \
    's/let page = page.get_mut/if let Some(byte) = page.last_mut() { *byte = 1; }\n    &/'
fault 'a byte is written past the pages' $page \
    's/let page = page.get_mut/if let Some(byte) = page.get_mut(length) { *byte ^= 1; }\n    &/'
fault 'each lane begins a page' $paged \
    's/lines.chunks(LINES)/lines.chunk_by(|one, two| one[..1] == two[..1]).flat_map(|lane| lane.chunks(LINES))/' \
    $pages "$cases"
fault 'a heading on the first page alone' $paged \
    's/heading(number) + /(if number == 1 { heading(1) } else { String::new() }) + /' $pages "$cases"
fault 'a SKIP with its position at level 1' $paged \
    's/let own = \(instructions(kernel, lane, Level::\)Two);/let mut own = \1Two); let first = \1One);\
    let aimed = |record: usize| first.iter().find(|one| one.record == record).map_or(0, |one| one.word);\
    own.iter_mut().filter(|own| own.record > 0).for_each(|own| own.word = aimed(own.record));/' $pages "$cases"
fault 'names to the right' $paged 's/{text:<width\$}/{text:>width$}/' $pages "$cases"
fault 'constants to the left' $paged \
    's/right(19..=28, word)/left(19..=28, \&word.map_or(String::new(), |word| word.to_string()))/' $pages "$cases"
fault 'a constant of 0 left blank' $paged \
    's/Some(word), Some(record)/Some(word).filter(|word| *word > 0), Some(record)/' $pages "$cases"
fault 'SKIP under the name of SET' $paged 's/("SKIP"/("SET"/' $pages "$cases"
fault 'MFENCE with record 0' $paged 's/("MFENCE", None, None, None, None)/("MFENCE", None, None, None, Some(0))/' \
    $pages "$cases"
fault 'lines without the blanks at their ends' $paged 's/line + "\\n"/line.trim_end().to_string() + "\\n"/' \
    $pages "$cases"

fault 'level 3 drops SS' $flow 's/SL, SS | SL\]/SL, SL]/'
fault 'level 3 keeps LS too' $flow 's/SL, SS | SL\]/SL, LS | SS | SL]/'
fault 'SL stays before a LOCK at level 3' $flow 's/\[0, 0, SL, SL\]/[0, 0, SL, 0]/'
fault 'SS is left out before an UNLOCK at level 3' $flow \
    's/let standing = pass.standing/let dropped = if LEVEL == 3 \&\& record[0] == UNLOCK { SS } else { 0 };\
    let standing = pass.standing \& !dropped/'
fault 'the mask stays at level 3' $sheet 's/if LEVEL >= 2/if LEVEL == 2/'
fault 'MFENCE at level 3' $sheet 's/\[0, 0, SS, SL\]\]/[0, 0, SS, MFENCE]]/'
fault 'level byte 2 at level 3' $sheet 's/= LEVEL as u8/= LEVEL.min(2) as u8/'
fault 'pso commits past a mark' $machine 's/own.marked(index) || older/older/'
fault 'pso commits past its own location' $machine \
    's/own.marked(index) || older.iter().any(same)/own.marked(index)/'
fault 'pso commits only the oldest' $machine 's/PSO => own.marked(index)/PSO => true/'
fault 'a mark holds back the entry before it' $machine 's/(1 << older) - 1/(2 << older) - 1/'
fault 'a mark goes with the entry before it' $machine \
    's/own.first += 1;/own.marks \&= !(1 << (own.first + index)); &/'
fault 'a mark moves one entry on with each commit' $machine 's/own.first += 1;/own.marks <<= 1; &/'
fault 'SS leaves no mark' $machine 's/=> own.mark(),/=> {}/'
fault 'SS waits as SL does' $machine 's/SS if LEVEL == PSO => own.mark(),//'
fault 'marks behind the 32nd entry and later are lost' $machine \
    's/1 << (self.last - 1)/u64::from(1u32.unbounded_shl(self.last as u32 - 1)) \& 0x7fff_ffff/'
fault 'no mark behind the 63rd entry' $machine 's/1 << (self.last - 1)/1 << (self.last - 1) \& !(1 << 62)/'
fault 'SL of the pso machine passes with stores pending' $machine \
    's/_ if own.first < own.last =>/_ if LEVEL != PSO \&\& own.first < own.last =>/'
fault 'LOCK of the pso machine with a pending list' $machine \
    's/if LEVEL == SOURCE { self.ordered > 0 }/if LEVEL == PSO { false } else &/'
fault 'LOCK of the pso machine as on the source machine' $machine 's/LEVEL == SOURCE { self/LEVEL != TSO { self/'
fault 'a load reads memory where a mark is pending' $machine \
    's/own.newest(b).unwrap_or(memory)/own.newest(b).filter(|_| own.marks == 0).unwrap_or(memory)/'
fault 'choice 2 of the pso machine is refused' $machine 's/if LEVEL == TSO { 1 }/if LEVEL != SOURCE { 1 }/'
fault 'choice 64 of the pso machine is refused' $machine 's/TSO { 1 }/& else if LEVEL == PSO { 63 }/'
fault 'choice 65 of the pso machine passes' $machine 's/TSO { 1 }/& else if LEVEL == PSO { 65 }/'
fault 'no mark in the record' $machine 's/entry | (self.marks >> at & 1) << 16/*entry/; s/(\*entry)/entry/'
fault 'a mark in the record on the entry behind it' $machine 's/self.marks >> at & 1/self.marks << 1 >> at \& 1/'
fault 'a mark in the record on the oldest entry' $machine \
    's/self.marks >> at & 1/u64::from(at == self.first \&\& self.marks >> at > 0)/'
fault 'SS leaves a mark with nothing pending' $pending 's/if !self.is_empty() \&\& !after_a_mark/if !after_a_mark/'
fault 'a mark that becomes the oldest stays' $pending 's/while self.items.first()/while false \&\& self.items.first()/'
fault 'a mark vanishes with the first entry before it' $pending \
    's/while self.items.first() ==/while self.items.get(1) ==/; s/self.items.remove(0)/self.items.remove(1)/'

fault '12 is never given' $flow 's/if falling == 0 { Ok/if falling < 257 { Ok/'
fault '12 is numbered 8' $flow 's/Refusal::new(12, falling)/Refusal::new(8, falling)/'
fault 'a lock one below a held one passes' $flow 's/& 3) > 0/\& 3) > 3/'
fault 'lock 0 passes where lock 3 is held' $flow 's/& 3) > 0/\& 3) \& 7 > 0/'
fault 'the lowest held lock alone counts for 12' $flow \
    's/self.held >> (record\[2\] & 3) > 0/self.held > 0 \&\& self.held.trailing_zeros() > u32::from(record[2])/'
fault 'the lock taken last alone counts for 12' $flow \
    's/let mut first = 0;/& let mut last = 0;/
    s/if ways.falls(record)/let fell = ways.falls(record) \&\& ways.held >> last \& 1 == 1;\
    if record[0] == LOCK { last = record[2] } if fell/'
fault 'a released lock counts for 12' $flow \
    's/let mut first = 0;/& let mut ever = 0;/
    s/if ways.falls(record)/ever |= ways.held; if record[0] == LOCK \&\& ever >> record[2] > 1/'
fault 'only lane 0 is looked at for 12' $flow 's/if falling == 0 { own }/if lane == 0 { own }/'
fault '12 names the last lane' $flow 's/if falling == 0 { own }/if own > 0 { own }/'
fault '12 names the last LOCK of a lane' $flow 's/ways.falls(record) \&\& first == 0/ways.falls(record)/'
fault '12 names the lowest record of a lane' $flow 's/first == 0 {/(first == 0 || usize::from(*name) < first) {/'
fault '12 names the lowest record of all lanes' $flow \
    's/if falling == 0 { own } else { falling }/if falling.min(own) == 0 { falling + own } else { falling.min(own) }/'
fault '12 names the LOCK of the held lock' $flow \
    's/let mut first = 0;/& let mut takers = [0; 8];/
    s/if ways.falls(record)/if record[0] == LOCK { takers[usize::from(record[2])] = usize::from(*name) + 1 } &/
    s/first = usize::from(\*name) + 1;/first = takers[ways.held.ilog2() as usize];/'
fault '12 before 8 of a later lane' $flow 's/falling = if/if own > 0 { return Err(Refusal::new(12, own)); } &/'
fault '12 before 8 of the same lane' $flow \
    's/first = usize::from(\*name) + 1;/return Err(Refusal::new(12, usize::from(*name) + 1));/'
fault '12 before a lock held at the end' $flow 's/!= 0 => Err/!= 0 \&\& first == 0 => Err/'
fault 'no 12 at level 1' $flow 's/if falling == 0 { Ok/if falling == 0 || LEVEL == 1 { Ok/'
fault 'no 12 at level 3' $flow 's/if falling == 0 { Ok/if falling == 0 || LEVEL == 3 { Ok/'
fault 'no 12 on the source machine' $flow 's/if falling == 0 { Ok/if falling == 0 || LEVEL == 0 { Ok/'
fault 'no 12 for the page' $calls \
    's/answer(\(put_out.*page::write)\))/match \1 { Err(Refusal(own)) if own >> 32 == 12 => 33, it => answer(it) }/'
fault '12 after 9' $calls 's/plan.lay::<LEVEL>(&kernel)?;/plan.lay::<LEVEL>(\&kernel)\
    .map_err(|own| if own.0 >> 32 == 12 \&\& out.is_empty() { Refusal::new(9, 0) } else { own })?;/'
fault '12 after 10' $machine 's/plan.lay::<LEVEL>(&kernel)?;/plan.lay::<LEVEL>(\&kernel)\
    .map_err(|own| if own.0 >> 32 == 12 \&\& moves.len() % 2 == 1 { Refusal::new(10, 0) } else { own })?;/'
fault 'a byte is written on refusal 12' $calls \
    's/plan.lay::<LEVEL>(&kernel)?;/if let Err(own) = plan.lay::<LEVEL>(\&kernel) {\
        out.iter_mut().take((own.0 >> 32 == 12).into()).for_each(|byte| *byte ^= 1); return Err(own); }/'
fault 'a refusal 12 listed as 8' $locks 's/refuse(12, \*number)/refuse(8, *number)/' $listings "$cases"
fault 'pages of a kernel that 12 refuses' $locks 's/|held| \*held < b)/|held| *held < b + 4)/' $pages "$cases"

# leave no faulty archive where a test could link it
rm -rf "$copy" "$LANES_LIB"
exit $missed
