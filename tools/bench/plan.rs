// The program `plan` in ordinary Rust, with the same algorithm, as a measure of speed; and three ways
// of deciding the exact gauge. A table comes from standard input.
//
//   plan                   prints its plan
//   plan N                 makes the plan N times over and prints it once
//   plan scan N            asks the exact gauge of all the duties as one list, N times over, by the
//   plan instants N        descending scan, by every instant, or by every deadline instant, and prints
//   plan deadlines N       the verdict and how many instants were looked at
use std::hint::black_box;
use std::io::{Read, Write};

const MOST_DUTIES: usize = 64;
const LONGEST: u32 = 1_000_000;
// How many records are looked at in one go.
const BLOCK: usize = 16;
// Most lists have no more duties than this.
const FEW: usize = 16;
const LONGEST_TABLE: usize = 21 + 33 * MOST_DUTIES;
const LONGEST_PLAN: usize = 21 + 36 * MOST_DUTIES;

#[derive(Clone, Copy, Default)]
struct Timing {
    cost: u32,
    deadline: u32,
    spacing: u32,
}

#[derive(Clone, Copy, Default)]
struct Record {
    name: [u8; 8],
    timing: Timing,
    board: u8,
}

#[derive(Clone, Copy)]
enum Letter {
    Density,
    Slope,
    Exact,
}

struct Header {
    letter: Letter,
    boards: u8,
    duties: u8,
    cycle: u32,
}

#[derive(Debug)]
struct Fault {
    number: u8,
    line: usize,
    column: usize,
}

fn refuse<T>(number: u8, line: usize, column: usize) -> Result<T, Fault> {
    Err(Fault {
        number,
        line,
        column,
    })
}

// Gauges.

impl Timing {
    fn is_timely(&self) -> bool {
        1 <= self.cost
            && self.cost <= self.deadline
            && self.deadline <= self.spacing
            && self.spacing <= LONGEST
    }

    fn demand(&self, t: u32) -> u64 {
        if t < self.deadline {
            return 0;
        }
        self.cost as u64 * (1 + ((t - self.deadline) / self.spacing) as u64)
    }
}

fn is_fair(duties: &[Timing], cycle: u32) -> bool {
    duties.len() <= MOST_DUTIES
        && (1..=LONGEST).contains(&cycle)
        && duties.iter().all(|d| d.is_timely() && cycle % d.spacing == 0)
}

fn density(duties: &[Timing]) -> bool {
    let sum: u64 = duties
        .iter()
        .map(|d| (d.cost as u64 * 1_000_000).div_ceil(d.deadline as u64))
        .sum();
    sum <= 1_000_000
}

#[derive(Clone, Copy, Default)]
struct Line {
    deadline: u64,
    step: u64,
    rate: u64,
}

fn slope(duties: &[Timing], cycle: u32) -> bool {
    if duties.len() <= FEW {
        drawn_below(duties, cycle, &mut [Line::default(); FEW])
    } else {
        drawn_below(duties, cycle, &mut [Line::default(); MOST_DUTIES])
    }
}

// Draws the lines into memory that has room for them, and looks at each deadline.
fn drawn_below(duties: &[Timing], cycle: u32, lines: &mut [Line]) -> bool {
    for (line, d) in lines.iter_mut().zip(duties) {
        let cost = d.cost as u64;
        *line = Line {
            deadline: d.deadline as u64,
            step: cost * cycle as u64,
            rate: cost * (cycle / d.spacing) as u64,
        };
    }
    let lines = &lines[..duties.len()];
    duties.iter().all(|d| {
        let t = d.deadline as u64;
        let sum: u64 = lines
            .iter()
            .map(|l| if t < l.deadline { 0 } else { l.step + l.rate * (t - l.deadline) })
            .sum();
        sum <= t * cycle as u64
    })
}

fn demand_upto(duties: &[Timing], t: u32) -> u64 {
    duties.iter().map(|d| d.demand(t)).sum()
}

fn scan(duties: &[Timing], cycle: u32, seen: &mut u64) -> bool {
    let mut t = cycle;
    loop {
        *seen += 1;
        let h = demand_upto(duties, t);
        if h > t as u64 {
            return false;
        }
        if h == 0 {
            return true;
        }
        t = h as u32 - 1;
    }
}

fn every_instant(duties: &[Timing], cycle: u32, seen: &mut u64) -> bool {
    for t in 1..=cycle {
        *seen += 1;
        if demand_upto(duties, t) > t as u64 {
            return false;
        }
    }
    true
}

fn every_deadline(duties: &[Timing], cycle: u32, seen: &mut u64) -> bool {
    for d in duties {
        let mut t = d.deadline;
        while t <= cycle {
            *seen += 1;
            if demand_upto(duties, t) > t as u64 {
                return false;
            }
            t += d.spacing;
        }
    }
    true
}

fn passes(letter: Letter, duties: &[Timing], cycle: u32) -> bool {
    is_fair(duties, cycle)
        && match letter {
            Letter::Density => density(duties),
            Letter::Slope => slope(duties, cycle),
            Letter::Exact => scan(duties, cycle, &mut 0),
        }
}

// Placing.

#[derive(Clone, Copy, Default)]
struct Lined {
    record: Record,
    index: usize,
}

impl Lined {
    fn precedes(&self, other: &Lined) -> bool {
        let (mine, theirs) = (self.record.timing.deadline, other.record.timing.deadline);
        mine < theirs || (mine == theirs && self.index <= other.index)
    }
}

struct Heap<'a> {
    slots: &'a mut [Lined],
    len: usize,
}

impl Heap<'_> {
    fn push(&mut self, x: Lined) {
        let mut j = self.len;
        self.slots[j] = x;
        self.len += 1;
        while 0 < j {
            let parent = (j - 1) / 2;
            if self.slots[parent].precedes(&self.slots[j]) {
                return;
            }
            self.slots.swap(parent, j);
            j = parent;
        }
    }

    fn pop(&mut self) -> Option<Lined> {
        if self.len == 0 {
            return None;
        }
        let out = self.slots[0];
        self.len -= 1;
        self.slots.swap(0, self.len);
        let s = &mut self.slots[..self.len];
        let mut j = 0;
        while j < s.len() / 2 {
            let left = 2 * j + 1;
            let right = left + 1;
            let child = if right == s.len() || s[left].precedes(&s[right]) { left } else { right };
            if s[j].precedes(&s[child]) {
                break;
            }
            s.swap(j, child);
            j = child;
        }
        Some(out)
    }
}

// Copies the timings of the board's records to `list` from place `from` on.
fn add(records: &[Record], board: u8, list: &mut [Timing], from: usize) -> usize {
    let mut n = from;
    for record in records {
        if record.board == board {
            list[n] = record.timing;
            n += 1;
        }
    }
    n
}

fn board_passes(letter: Letter, records: &[Record], board: u8, cycle: u32) -> bool {
    let mut list = [Timing::default(); MOST_DUTIES];
    let mut n = 0;
    let (blocks, rest) = records.as_chunks::<BLOCK>();
    for block in blocks {
        n = add(block, board, &mut list, n);
    }
    n = add(rest, board, &mut list, n);
    passes(letter, &list[..n], cycle)
}

fn place_one(letter: Letter, records: &mut [Record], i: usize, boards: u8, cycle: u32) -> bool {
    for board in 1..=boards {
        records[i].board = board;
        if board_passes(letter, records, board, cycle) {
            return true;
        }
    }
    records[i].board = 0;
    false
}

fn is_duty_of(record: &Record, cycle: u32) -> bool {
    good_prefix(&record.name) == 8
        && record.timing.is_timely()
        && record.board <= 16
        && cycle % record.timing.spacing == 0
}

fn place(header: &Header, records: &mut [Record], scratch: &mut [Lined]) -> Result<(), Fault> {
    let duties = header.duties as usize;
    if records.len() < duties {
        return refuse(11, 1, 10);
    }
    let records = &mut records[..duties];
    if let Some(i) = records.iter().position(|r| !is_duty_of(r, header.cycle)) {
        return refuse(32, i + 2, 25);
    }
    if scratch.len() < duties {
        return refuse(10, 0, 0);
    }
    for record in records.iter_mut() {
        record.board = 0;
    }
    let mut heap = Heap {
        slots: scratch,
        len: 0,
    };
    for (index, record) in records.iter().enumerate() {
        heap.push(Lined {
            record: *record,
            index,
        });
    }
    while let Some(next) = heap.pop() {
        if !place_one(header.letter, records, next.index, header.boards, header.cycle) {
            return refuse(50, next.index + 2, 1);
        }
    }
    Ok(())
}

// Reading.

fn is_name_byte(b: u8) -> bool {
    b.is_ascii_uppercase() || b.is_ascii_digit()
}

// How many bytes from the start may stand in a name's field.
fn good_prefix(bytes: &[u8; 8]) -> usize {
    if !is_name_byte(bytes[0]) {
        return 0;
    }
    let stem = bytes.iter().take_while(|b| is_name_byte(**b) || **b == b'-').count();
    stem + bytes[stem..].iter().take_while(|b| **b == b' ').count()
}

struct Reader<'a> {
    text: &'a [u8],
    line: usize,
}

impl<'a> Reader<'a> {
    fn line<const WIDTH: usize>(&mut self) -> Result<&'a [u8; WIDTH], Fault> {
        self.line += 1;
        if self.text.is_empty() {
            return refuse(40, self.line, 1);
        }
        let end = self.text.iter().position(|b| *b == b'\n');
        let Some((line, rest)) = self.text.split_first_chunk::<WIDTH>() else {
            return refuse(30, self.line, 1);
        };
        if end != Some(WIDTH) {
            return refuse(30, self.line, 1);
        }
        self.text = &rest[1..];
        Ok(line)
    }

    // The number in the columns from `first` to `last`.
    fn number(&self, line: &[u8], first: usize, last: usize, least: u32, most: u32) -> Result<u32, Fault> {
        let field = &line[first - 1..last];
        let blanks = field.iter().take_while(|b| **b == b' ').count();
        let digits = &field[blanks..];
        let bad = digits.is_empty()
            || (digits.len() > 1 && digits[0] == b'0')
            || !digits.iter().all(|b| b.is_ascii_digit());
        if bad {
            return refuse(21, self.line, first);
        }
        let value = digits.iter().fold(0u32, |n, b| n * 10 + (b - b'0') as u32);
        if value < least || value > most {
            return refuse(22, self.line, first);
        }
        Ok(value)
    }

    fn header(&mut self) -> Result<Header, Fault> {
        let line = self.line::<20>()?;
        if let Some(i) = (0..5).find(|i| line[*i] != b"RELAY"[*i]) {
            return refuse(20, 1, i + 1);
        }
        let letter = match line[5] {
            b'D' => Letter::Density,
            b'S' => Letter::Slope,
            b'E' => Letter::Exact,
            _ => return refuse(20, 1, 6),
        };
        Ok(Header {
            letter,
            boards: self.number(line, 7, 9, 1, 16)? as u8,
            duties: self.number(line, 10, 12, 0, 64)? as u8,
            cycle: self.number(line, 13, 20, 1, LONGEST)?,
        })
    }

    fn record(&mut self, cycle: u32) -> Result<Record, Fault> {
        let line = self.line::<32>()?;
        let mut name = [0; 8];
        name.copy_from_slice(&line[..8]);
        let good = good_prefix(&name);
        if good < 8 {
            return refuse(20, self.line, good + 1);
        }
        let timing = Timing {
            cost: self.number(line, 9, 16, 1, LONGEST)?,
            deadline: self.number(line, 17, 24, 1, LONGEST)?,
            spacing: self.number(line, 25, 32, 1, LONGEST)?,
        };
        if timing.cost > timing.deadline || timing.deadline > timing.spacing {
            return refuse(31, self.line, 9);
        }
        if cycle % timing.spacing != 0 {
            return refuse(32, self.line, 25);
        }
        Ok(Record {
            name,
            timing,
            board: 0,
        })
    }
}

fn read_table(text: &[u8], records: &mut [Record]) -> Result<Header, Fault> {
    let mut reader = Reader { text, line: 0 };
    let header = reader.header()?;
    let duties = header.duties as usize;
    if records.len() < duties {
        return refuse(11, 1, 10);
    }
    let mut rows = [Record::default(); MOST_DUTIES];
    for row in rows[..duties].iter_mut() {
        *row = reader.record(header.cycle)?;
    }
    if !reader.text.is_empty() {
        return refuse(40, reader.line + 1, 1);
    }
    records[..duties].copy_from_slice(&rows[..duties]);
    Ok(header)
}

// Writing.

struct Writer<'a> {
    out: &'a mut [u8],
    at: usize,
}

impl Writer<'_> {
    fn bytes(&mut self, bytes: &[u8]) {
        self.out[self.at..self.at + bytes.len()].copy_from_slice(bytes);
        self.at += bytes.len();
    }

    fn number(&mut self, value: u32, width: usize) {
        let field = &mut self.out[self.at..self.at + width];
        let mut left = value;
        for (i, place) in field.iter_mut().rev().enumerate() {
            *place = if left == 0 && i > 0 { b' ' } else { b'0' + (left % 10) as u8 };
            left /= 10;
        }
        self.at += width;
    }
}

fn write_plan(header: &Header, records: &[Record], out: &mut [u8]) -> Result<usize, Fault> {
    let duties = header.duties as usize;
    if records.len() < duties {
        return refuse(11, 1, 10);
    }
    let records = &records[..duties];
    if let Some(i) = records.iter().position(|r| !is_duty_of(r, header.cycle)) {
        return refuse(32, i + 2, 25);
    }
    if out.len() < 21 + 36 * duties {
        return refuse(12, 0, 0);
    }
    let mut writer = Writer { out, at: 0 };
    writer.bytes(b"PLAN ");
    writer.bytes(match header.letter {
        Letter::Density => b"D",
        Letter::Slope => b"S",
        Letter::Exact => b"E",
    });
    writer.number(header.boards as u32, 3);
    writer.number(header.duties as u32, 3);
    writer.number(header.cycle, 8);
    writer.bytes(b"\n");
    for record in records {
        writer.bytes(&record.name);
        writer.number(record.timing.cost, 8);
        writer.number(record.timing.deadline, 8);
        writer.number(record.timing.spacing, 8);
        writer.number(record.board as u32, 3);
        writer.bytes(b"\n");
    }
    Ok(writer.at)
}

#[inline(never)]
fn plan_once(text: &[u8], out: &mut [u8]) -> Result<usize, Fault> {
    let mut records = [Record::default(); MOST_DUTIES];
    let mut scratch = [Lined::default(); MOST_DUTIES];
    let header = read_table(text, &mut records)?;
    place(&header, &mut records, &mut scratch)?;
    write_plan(&header, &records, out)
}

fn repeat_plan(text: &[u8], repeats: u32) -> std::io::Result<()> {
    let mut out = vec![0; LONGEST_PLAN];
    for _ in 1..repeats {
        let _ = black_box(plan_once(black_box(text), &mut out));
    }
    match plan_once(text, &mut out) {
        Ok(count) => std::io::stdout().write_all(&out[..count]),
        Err(f) => writeln!(std::io::stdout(), "REFUSED{:>3}{:>3}{:>3}", f.number, f.line, f.column),
    }
}

type Way = fn(&[Timing], u32, &mut u64) -> bool;

fn repeat_exact(text: &[u8], way: Way, repeats: u32) {
    let mut records = [Record::default(); MOST_DUTIES];
    let header = read_table(text, &mut records).expect("a table");
    let duties: Vec<Timing> = records[..header.duties as usize].iter().map(|r| r.timing).collect();
    let mut seen = 0;
    let mut verdict = false;
    for _ in 0..repeats {
        seen = 0;
        verdict = way(black_box(&duties), black_box(header.cycle), &mut seen);
    }
    println!("{verdict} {seen}");
}

fn main() -> std::io::Result<()> {
    let args: Vec<String> = std::env::args().skip(1).collect();
    let words: Vec<&str> = args.iter().map(String::as_str).collect();
    let mut text = Vec::new();
    std::io::stdin().take(LONGEST_TABLE as u64 + 1).read_to_end(&mut text)?;
    let (way, repeats): (Option<Way>, &str) = match words[..] {
        [] => (None, "1"),
        [n] => (None, n),
        ["scan", n] => (Some(scan), n),
        ["instants", n] => (Some(every_instant), n),
        ["deadlines", n] => (Some(every_deadline), n),
        _ => panic!("usage: plan [scan|instants|deadlines] [N]"),
    };
    let repeats = repeats.parse().expect("a number");
    match way {
        None => repeat_plan(&text, repeats),
        Some(way) => {
            repeat_exact(&text, way, repeats);
            Ok(())
        }
    }
}
