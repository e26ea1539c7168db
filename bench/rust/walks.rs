//! Follows a recording of units that mark events and exchange messages.
//!
//! Standard input holds a pattern (a finite automaton), a relabelling (the labels of the
//! recording in terms of the labels of the pattern) and a recording, back to back. For each mark
//! of the recording one line tells which states the pattern can be in after it. The first thing
//! that is wrong with the input ends the output with a fault line.

#![forbid(unsafe_code)]

use std::cmp::Ordering;
use std::fs::File;
use std::io::{self, Read, Write};
use std::os::fd::AsFd;

const INPUT_MAX: usize = 65_536;
const UNITS_MAX: usize = 16;
const STATES_MAX: usize = 64;
const LABELS_MAX: usize = 64;

const PATTERN: u8 = 0x20;
const RELABELLING: u8 = 0x30;

const END: u8 = 0x00;
const SEND: u8 = 0x01;
const RECEIVE: u8 = 0x02;
const MARK: u8 = 0x03;
const MAKE: u8 = 0x10;

const HEADER: &[u8] = b"unit mark preds states some all\n";

/// What is wrong with the input: the part that found it, the question, and the place.
struct Fault {
    part: char,
    number: u8,
    place: usize,
}

fn fault<T>(part: char, number: u8, place: usize) -> Result<T, Fault> {
    Err(Fault { part, number, place })
}

/// A set of states, bit q for state q.
type States = u64;

/// The pattern as read; `next` is a view into the input.
struct Pattern<'a> {
    labels: usize,
    start: States,
    finals: States,
    next: &'a [u8],
}

impl<'a> Pattern<'a> {
    /// Reads the pattern; also returns the place after it.
    fn read(input: &'a [u8]) -> Result<(Self, usize), Fault> {
        let end = input.len();
        let Some((head, rest)) = input.split_first_chunk::<12>() else {
            return fault('P', 13, end);
        };
        let [kind, states, labels, start, final_bytes @ ..] = *head;
        let finals = States::from_le_bytes(final_bytes);
        if kind != PATTERN {
            return fault('P', 14, 0);
        }
        if !(1..=STATES_MAX).contains(&usize::from(states)) {
            return fault('P', 15, 1);
        }
        if !(1..=LABELS_MAX).contains(&usize::from(labels)) {
            return fault('P', 16, 2);
        }
        if start >= states {
            return fault('P', 17, 3);
        }
        let known = States::MAX >> (STATES_MAX - usize::from(states));
        if finals & !known != 0 {
            return fault('P', 18, 4);
        }
        let labels = usize::from(labels);
        let Some(next) = rest.get(..usize::from(states) * labels) else {
            return fault('P', 19, end);
        };
        if let Some(i) = next.iter().position(|&q| q >= states) {
            return fault('P', 20, head.len() + i);
        }
        let pattern = Pattern { labels, start: 1 << start, finals, next };
        Ok((pattern, head.len() + next.len()))
    }

    /// Where each state goes under one label, as a set of that one state.
    fn step_under(&self, label: usize) -> Step {
        let mut step = [0; STATES_MAX];
        for (to, row) in step.iter_mut().zip(self.next.chunks_exact(self.labels)) {
            *to = 1 << row[label];
        }
        step
    }
}

/// For each state the set of its next state, under one label.
type Step = [States; STATES_MAX];

/// The union of the next states of all members of `from`.
fn step_all(step: &Step, from: States) -> States {
    let mut left = from;
    let mut to = 0;
    while left != 0 {
        to |= step[left.trailing_zeros() as usize];
        left &= left - 1;
    }
    to
}

/// Reads the relabelling, which stands at `at`: the pattern's steps, one for each label of the
/// recording. Also returns the place after it.
fn read_relabelling(
    input: &[u8],
    at: usize,
    pattern: &Pattern,
) -> Result<(Vec<Step>, usize), Fault> {
    if input.get(at) != Some(&RELABELLING) {
        return fault('L', 22, at);
    }
    let Some(&count) = input.get(at + 1) else {
        return fault('L', 19, input.len());
    };
    let count = usize::from(count);
    if !(1..=LABELS_MAX).contains(&count) {
        return fault('L', 16, at + 1);
    }
    let first = at + 2;
    let Some(entries) = input.get(first..first + count) else {
        return fault('L', 19, input.len());
    };
    if let Some(i) = entries.iter().position(|&l| usize::from(l) >= pattern.labels) {
        return fault('L', 20, first + i);
    }
    let steps = entries.iter().map(|&l| pattern.step_under(l.into())).collect();
    Ok((steps, first + count))
}

/// What a unit knows, or a message carries: one cell for each unit of the board. Cells beyond the
/// last unit stay as new.
#[derive(Clone, Default)]
struct Row {
    values: [States; UNITS_MAX],
    clocks: [u16; UNITS_MAX],
    /// Bit j is the flag of cell j. A cell's value only counts where its flag is set: elsewhere it
    /// stands for the start set, whatever is stored.
    flags: u16,
}

impl Row {
    fn merge(&mut self, from: &Row) {
        for j in 0..UNITS_MAX {
            let flag = 1 << j;
            match from.clocks[j].cmp(&self.clocks[j]) {
                Ordering::Greater => {
                    self.clocks[j] = from.clocks[j];
                    self.values[j] = from.values[j];
                    self.flags = self.flags & !flag | from.flags & flag;
                }
                Ordering::Equal => self.flags &= from.flags | !flag,
                Ordering::Less => {}
            }
        }
    }

    /// The union of the flagged values, or the start set if there are none.
    fn joined(&self, start: States) -> States {
        if self.flags == 0 {
            return start;
        }
        let mut left = self.flags;
        let mut union = 0;
        while left != 0 {
            union |= self.values[left.trailing_zeros() as usize % UNITS_MAX];
            left &= left - 1;
        }
        union
    }
}

#[derive(Clone, Copy, PartialEq)]
enum Way {
    NotSent,
    Sent,
    Received,
}

#[derive(Clone)]
struct Message {
    row: Row,
    way: Way,
}

/// What one mark has to tell.
struct Marked {
    clock: u16,
    preds: u16,
    states: States,
}

/// All units and messages. Its operations refuse with the number of the question that failed.
struct Board {
    units: Vec<Row>,
    messages: Vec<Message>,
}

impl Board {
    fn make(units: u8, messages: u8) -> Result<Board, u8> {
        let units = usize::from(units);
        if !(1..=UNITS_MAX).contains(&units) {
            return Err(1);
        }
        let message = Message { row: Row::default(), way: Way::NotSent };
        Ok(Board { units: vec![Row::default(); units], messages: vec![message; messages.into()] })
    }

    fn send(&mut self, unit: u8, message: u8) -> Result<(), u8> {
        let row = self.units.get(usize::from(unit)).ok_or(4)?;
        let message = self.messages.get_mut(usize::from(message)).ok_or(5)?;
        if message.way != Way::NotSent {
            return Err(7);
        }
        message.row.clone_from(row);
        message.way = Way::Sent;
        Ok(())
    }

    fn receive(&mut self, unit: u8, message: u8) -> Result<(), u8> {
        let row = self.units.get_mut(usize::from(unit)).ok_or(4)?;
        let message = self.messages.get_mut(usize::from(message)).ok_or(5)?;
        match message.way {
            Way::NotSent => return Err(8),
            Way::Received => return Err(9),
            Way::Sent => {}
        }
        row.merge(&message.row);
        message.way = Way::Received;
        Ok(())
    }

    fn mark(&mut self, unit: u8, label: u8, steps: &[Step], start: States) -> Result<Marked, u8> {
        let row = self.units.get_mut(usize::from(unit)).ok_or(4)?;
        let step = steps.get(usize::from(label)).ok_or(6)?;
        let own = usize::from(unit) % UNITS_MAX;
        let clock = row.clocks[own].checked_add(1).ok_or(10)?;
        let preds = row.flags;
        let states = step_all(step, row.joined(start));
        row.clocks[own] = clock;
        row.values[own] = states;
        row.flags = 1 << own;
        Ok(Marked { clock, preds, states })
    }

    /// How many messages are sent and not yet received.
    fn on_their_way(&self) -> usize {
        self.messages.iter().filter(|m| m.way == Way::Sent).count()
    }
}

/// The bytes of a line that are always there: states, the two answers, and the line's end.
const TAIL: usize = 16 + 5;

/// The most bytes a mark's line takes: unit, own clock and preds, each with a space, and the tail.
const LINE_MAX: usize = 3 + 6 + 6 + TAIL;

type Line = [u8; LINE_MAX];

/// The header and the lines of the marks, in one buffer that has room for all of them.
struct Lines {
    bytes: Vec<u8>,
    len: usize,
}

impl Lines {
    fn with_room_for(marks: usize) -> Lines {
        let mut bytes = vec![0; HEADER.len() + marks * LINE_MAX];
        bytes[..HEADER.len()].copy_from_slice(HEADER);
        Lines { bytes, len: HEADER.len() }
    }

    fn written(mut self) -> Vec<u8> {
        self.bytes.truncate(self.len);
        self.bytes
    }

    fn push_mark(&mut self, unit: u8, marked: &Marked, finals: States) {
        let some = marked.states & finals != 0;
        let all = marked.states & !finals == 0;
        let line = self.bytes[self.len..].first_chunk_mut().expect("room for every mark");
        let at = put_decimal(line, 0, unit.into());
        let at = put_decimal(line, at, marked.clock);
        let at = put_decimal(line, at, marked.preds);
        let tail: &mut [u8; TAIL] = line[at..].first_chunk_mut().expect("room for the tail");
        tail[..16].copy_from_slice(&hex(marked.states));
        tail[16..].copy_from_slice(&[b' ', b'0' + some as u8, b' ', b'0' + all as u8, b'\n']);
        self.len += at + TAIL;
    }
}

/// Writes a text into a line at `at` and returns the place after it.
fn put<const N: usize>(line: &mut Line, at: usize, text: [u8; N]) -> usize {
    line[at..at + N].copy_from_slice(&text);
    at + N
}

/// Puts a number and a space.
#[inline(always)]
fn put_decimal(line: &mut Line, at: usize, n: u16) -> usize {
    let pair = |n: u16| DECIMAL_PAIRS[usize::from(n)];
    let digit = |n: u16| b'0' + n as u8;
    match n {
        0..10 => put(line, at, [digit(n), b' ']),
        10..100 => {
            let [a, b] = pair(n);
            put(line, at, [a, b, b' '])
        }
        100..1000 => {
            let [b, c] = pair(n % 100);
            put(line, at, [digit(n / 100), b, c, b' '])
        }
        1000..10_000 => {
            let [a, b] = pair(n / 100);
            let [c, d] = pair(n % 100);
            put(line, at, [a, b, c, d, b' '])
        }
        10_000.. => {
            let [b, c] = pair(n / 100 % 100);
            let [d, e] = pair(n % 100);
            put(line, at, [digit(n / 10_000), b, c, d, e, b' '])
        }
    }
}

/// The sixteen lower-case hex digits of a number.
fn hex(n: u64) -> [u8; 16] {
    let mut digits = [0; 16];
    for (pair, byte) in digits.chunks_exact_mut(2).zip(n.to_be_bytes()) {
        pair.copy_from_slice(&HEX_PAIRS[usize::from(byte)]);
    }
    digits
}

static DECIMAL_PAIRS: [[u8; 2]; 100] = digit_pairs(10);
static HEX_PAIRS: [[u8; 2]; 256] = digit_pairs(16);

/// The two digits of each number that has two, in a base of at most 16.
const fn digit_pairs<const N: usize>(base: usize) -> [[u8; 2]; N] {
    let digits = b"0123456789abcdef";
    let mut pairs = [[0; 2]; N];
    let mut n = 0;
    while n < N {
        pairs[n] = [digits[n / base], digits[n % base]];
        n += 1;
    }
    pairs
}

/// Reads the first command of the recording, which makes the board. Also returns the commands
/// after it.
fn read_make(input: &[u8], at: usize) -> Result<(Board, &[u8]), Fault> {
    match &input[at..] {
        [MAKE, units, messages, rest @ ..] => match Board::make(*units, *messages) {
            Ok(board) => Ok((board, rest)),
            Err(number) => fault('B', number, at),
        },
        [END, ..] | [SEND | RECEIVE | MARK, _, _, ..] => fault('R', 26, at),
        [MAKE | SEND | RECEIVE | MARK, ..] => fault('R', 25, at),
        [_, ..] => fault('R', 24, at),
        [] => fault('R', 23, at),
    }
}

/// Follows the recording, which stands at `at`, and writes the marks' lines. Returns the number
/// of messages that are left on their way. Not inlined: on its own, its loop has more registers.
#[inline(never)]
fn follow(
    input: &[u8],
    at: usize,
    pattern: &Pattern,
    steps: &[Step],
    lines: &mut Lines,
) -> Result<usize, Fault> {
    let (mut board, mut commands) = read_make(input, at)?;
    loop {
        let at = input.len() - commands.len();
        let (done, rest) = match *commands {
            [MARK, unit, label, ref rest @ ..] => {
                let marked = board.mark(unit, label, steps, pattern.start);
                (marked.map(|marked| lines.push_mark(unit, &marked, pattern.finals)), rest)
            }
            [SEND, unit, message, ref rest @ ..] => (board.send(unit, message), rest),
            [RECEIVE, unit, message, ref rest @ ..] => (board.receive(unit, message), rest),
            [END] => return Ok(board.on_their_way()),
            [END, ..] => return fault('R', 28, at + 1),
            [MAKE, _, _, ..] => return fault('R', 27, at),
            [MAKE | SEND | RECEIVE | MARK, ..] => return fault('R', 25, at),
            [_, ..] => return fault('R', 24, at),
            [] => return fault('R', 23, at),
        };
        if let Err(number) = done {
            return fault('B', number, at);
        }
        commands = rest;
    }
}

/// Writes the header and the marks' lines to `output`; the last line is left to the caller.
fn walk(input: &[u8], output: &mut Vec<u8>) -> Result<usize, Fault> {
    if input.len() > INPUT_MAX {
        return fault('I', 29, INPUT_MAX);
    }
    let (pattern, at) = Pattern::read(input)?;
    let (steps, at) = read_relabelling(input, at, &pattern)?;
    let mut lines = Lines::with_room_for((input.len() - at) / 3);
    let result = follow(input, at, &pattern, &steps, &mut lines);
    *output = lines.written();
    result
}

/// Reads standard input to its end, or to one byte more than is allowed. Without a buffer in
/// between, so that nothing more than that is taken from it.
fn read_input() -> io::Result<Vec<u8>> {
    let mut input = Vec::with_capacity(INPUT_MAX + 1);
    let stdin = File::from(io::stdin().as_fd().try_clone_to_owned()?);
    stdin.take(INPUT_MAX as u64 + 1).read_to_end(&mut input)?;
    Ok(input)
}

fn main() -> io::Result<()> {
    let input = read_input()?;
    let mut output = Vec::new();
    match walk(&input, &mut output) {
        Ok(left) => writeln!(output, "left {left}")?,
        Err(Fault { part, number, place }) => writeln!(output, "fault {part} {number} {place}")?,
    }
    io::stdout().lock().write_all(&output)
}
