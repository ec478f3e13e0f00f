//! Compares the C entries with a second opinion, on random boxes: the plain interpreter for what is opened and what bundles do, record.rs for
//! records, marks.rs for the check. Whole answers are compared: the number, both memories, and every byte of the output.
//! Build: rustc --edition 2021 -O compare.rs -L DIRECTORY -l static=entries -l static=open_entry -l static=check_entry
//! Use: compare [PROGRAMS [SEED [FIRST]]]
//! PROGRAMS random programs from number FIRST on, each with its boxes, damaged records and markings; the same arguments try the same ones.
//! The last line is 'compare: N programs, M runs, no difference'. At the first difference it prints a case file that shows it, for the
//! case program, and ends with status 1.

#[path = "marks.rs"]
mod marks;
#[path = "plain.rs"]
mod plain;
#[path = "record.rs"]
mod record;

use marks::Marking;
use plain::{Answer, Machine, Method};
use record::{Stopped, Under};

#[repr(C)]
struct Checked {
    answer: u32,
    address: u32,
    rule: u32,
}

#[rustfmt::skip]
extern "C" {
    fn laqemdit_longest(words: u32) -> u32;
    fn laqemdit_open(code: *const u8, code_len: usize, main: *const u8, main_len: usize, local: *const u8, local_len: usize,
        out: *mut u8, out_len: usize, entry: u32,
        words: u32, lo: u32, hi: u32, on: u32, blocks: u32, bytes: u32) -> u32;
    fn laqemdit_step(record: *const u8, record_len: usize, code: *const u8, code_len: usize, main: *mut u8, main_len: usize,
        local: *mut u8, local_len: usize, out: *mut u8, out_len: usize,
        list: *const u8, list_len: usize, table: *const u8, table_len: usize,
        words: u32, lo: u32, hi: u32, on: u32, blocks: u32, bytes: u32) -> u32;
    fn laqemdit_run(record: *const u8, record_len: usize, code: *const u8, code_len: usize, main: *mut u8, main_len: usize,
        local: *mut u8, local_len: usize, out: *mut u8, out_len: usize,
        list: *const u8, list_len: usize, table: *const u8, table_len: usize, budget: u32,
        words: u32, lo: u32, hi: u32, on: u32, blocks: u32, bytes: u32) -> u32;
    fn laqemdit_check(code: *const u8, code_len: usize, registers: u32, predicates: u32, others: u32, main_len: usize, local_len: usize,
        words: u32, lo: u32, hi: u32, on: u32, blocks: u32, bytes: u32) -> Checked;
}

// ---------------------------------------------------------------- calls

#[derive(Clone, Debug)]
struct Settings {
    words: u32,
    lo: u32,
    hi: u32,
    on: u32,
    blocks: u32,
    bytes: u32,
}

/// What is handed in beside the record: code, memories, interrupts and handlers, settings.
#[derive(Clone)]
struct Given {
    code: Vec<u8>,
    list: Vec<u8>,
    table: Vec<u8>,
    main: Vec<u8>,
    local: Vec<u8>,
    set: Settings,
}

/// An opening at an entry, which takes no record, a run with a budget, or a step.
#[derive(Clone, Copy, Debug)]
enum Call {
    Open(u32),
    Run(u32),
    Step,
}

/// What a call leaves.
#[derive(Clone, PartialEq)]
struct Left {
    answer: u32,
    main: Vec<u8>,
    local: Vec<u8>,
    out: Vec<u8>,
}

const OLD: u8 = 0xA5;
const GUARD: usize = 48;

/// A copy of a buffer with a guard on both sides.
fn guarded(bytes: &[u8]) -> Vec<u8> {
    let mut g = vec![0x5A; bytes.len() + 2 * GUARD];
    g[GUARD..GUARD + bytes.len()].copy_from_slice(bytes);
    g
}

/// The buffer, if its guards are as they were.
fn unguarded(g: &[u8]) -> Option<&[u8]> {
    let n = g.len() - GUARD;
    let whole = g[..GUARD] == [0x5A; GUARD] && g[n..] == [0x5A; GUARD];
    whole.then(|| &g[GUARD..n])
}

/// The call through C; an error where bytes outside the buffers, or of what is only read, were touched.
fn through_c(g: &Given, record: &[u8], room: usize, call: Call) -> Result<Left, String> {
    let s = &g.set;
    let (r, c, i, t) = (guarded(record), guarded(&g.code), guarded(&g.list), guarded(&g.table));
    let (mut m, mut l, mut o) = (guarded(&g.main), guarded(&g.local), guarded(&vec![OLD; room]));
    let (rp, cp, ip, tp) = (r[GUARD..].as_ptr(), c[GUARD..].as_ptr(), i[GUARD..].as_ptr(), t[GUARD..].as_ptr());
    let (mp, lp, op) = (m[GUARD..].as_mut_ptr(), l[GUARD..].as_mut_ptr(), o[GUARD..].as_mut_ptr());
    let (rn, cn, mn, ln) = (record.len(), g.code.len(), g.main.len(), g.local.len());
    let (n, tn) = (g.list.len(), g.table.len());
    // Every pointer is valid for its length, and the buffers are apart.
    let answer = unsafe {
        match call {
            Call::Open(e) => laqemdit_open(cp, cn, mp, mn, lp, ln, op, room, e, s.words, s.lo, s.hi, s.on, s.blocks, s.bytes),
            Call::Step => {
                laqemdit_step(rp, rn, cp, cn, mp, mn, lp, ln, op, room, ip, n, tp, tn, s.words, s.lo, s.hi, s.on, s.blocks, s.bytes)
            }
            Call::Run(k) => {
                laqemdit_run(rp, rn, cp, cn, mp, mn, lp, ln, op, room, ip, n, tp, tn, k, s.words, s.lo, s.hi, s.on, s.blocks, s.bytes)
            }
        }
    };
    if unguarded(&r) != Some(record) || unguarded(&c) != Some(&g.code) {
        return Err("record or code was written to".into());
    }
    if unguarded(&i) != Some(&g.list) || unguarded(&t) != Some(&g.table) {
        return Err("list or table was written to".into());
    }
    match (unguarded(&m), unguarded(&l), unguarded(&o)) {
        (Some(main), Some(local), Some(out)) => Ok(Left { answer, main: main.to_vec(), local: local.to_vec(), out: out.to_vec() }),
        _ => Err("bytes outside the buffers were written to".into()),
    }
}

fn method(s: &Settings) -> Method {
    Method { on: s.on != 0, blocks: s.blocks, bytes: s.bytes }
}

fn settings_ok(g: &Given) -> bool {
    let s = &g.set;
    plain::admitted(g.code.len(), g.main.len(), g.local.len(), s.words, s.lo, s.hi, method(s))
}

fn under(g: &Given) -> Under<'_> {
    Under { words: g.set.words as usize, code: &g.code, on: g.set.on != 0, blocks: g.set.blocks, bytes: g.set.bytes }
}

/// The machine that a call begins with, or the number of the refusal: 1, then 14, then 2 of an entry.
fn begun(g: &Given, record: &[u8], room: usize, call: Call) -> Result<Machine, u32> {
    let s = &g.set;
    if !settings_ok(g) {
        return Err(1);
    }
    if room < record::longest(s.words as usize) {
        return Err(14);
    }
    if let Call::Open(entry) = call {
        return Machine::open(g.code.clone(), g.main.clone(), g.local.clone(), s.words, s.lo, s.hi, method(s), entry);
    }
    let stopped = record::read(record, &under(g)).ok_or(14u32)?;
    let mut m = record::machine_of(&stopped, &g.code, &g.main, &g.local, s.lo, s.hi, method(s));
    m.list.clone_from(&g.list);
    m.table.clone_from(&g.table);
    Ok(m)
}

/// What the call has to leave, by the second opinion.
fn due(g: &Given, record: &[u8], room: usize, call: Call) -> Left {
    let untouched = |answer| Left { answer, main: g.main.clone(), local: g.local.clone(), out: vec![OLD; room] };
    let mut m = match begun(g, record, room, call) {
        Ok(m) => m,
        Err(answer) => return untouched(answer),
    };
    let answer = match call {
        Call::Open(_) => Answer::Done,
        Call::Run(budget) => m.run(budget),
        Call::Step => m.step(),
    };
    if answer == Answer::Refused(15) {
        return untouched(15);
    }
    let mut out = record::write(&record::stopped_of(&m));
    out.resize(room, OLD);
    let answer = match answer {
        Answer::Done => 0,
        Answer::Ended => 256,
        Answer::Spent => 257,
        Answer::Refused(k) => k,
    };
    Left { answer, main: m.main, local: m.local, out }
}

// ---------------------------------------------------------------- what is told of a difference

fn hex(words: &[u32]) -> String {
    words.iter().map(|w| format!(" {:08X}", w)).collect()
}

fn words_of(bytes: &[u8]) -> Vec<u32> {
    bytes.chunks(4).map(|b| b.iter().chain(&[0; 3]).take(4).fold(0, |w, &b| w << 8 | b as u32)).collect()
}

/// The lines of a case for list and table.
fn replay_lines(g: &Given) -> String {
    let mut t = String::new();
    for record in words_of(&g.list).chunks(2) {
        t += &format!("interrupt {} {}\n", record[0], record.get(1).unwrap_or(&0));
    }
    for (vector, handler) in words_of(&g.table).iter().enumerate().take(32) {
        t += &format!("handler {} {}\n", vector, handler);
    }
    t + &format!("listbytes {}\ntablebytes {}\n", g.list.len(), g.table.len())
}

/// The lines of a case for what a step or a run takes beside code and settings.
fn stopped_lines(g: &Given, record: &[u8]) -> String {
    let mut t = replay_lines(g);
    for (name, memory) in [("main", &g.main), ("local", &g.local)] {
        for (i, b) in memory.chunks(4).enumerate() {
            if b.iter().any(|&b| b != 0) {
                let mark = if b.len() < 4 { "# not a whole word: " } else { "" };
                t += &format!("{}{}word {} {}\n", mark, name, 4 * i, b.iter().map(|b| format!("{:02X}", b)).collect::<String>());
            }
        }
    }
    for words in words_of(record).chunks(16) {
        t += &format!("record{}\n", hex(words));
    }
    t + &format!("recordbytes {}\n", record.len())
}

/// The call as a case of the case program.
fn case_of(g: &Given, record: &[u8], room: usize, call: Call) -> String {
    let s = &g.set;
    let mut t = String::from("case difference\n");
    for words in words_of(&g.code).chunks(16) {
        t += &format!("code{}\n", hex(words));
    }
    t += &format!("main {}\nlocal {}\nstack {} {} {}\n", g.main.len(), g.local.len(), s.words, s.lo, s.hi);
    if s.on != 0 {
        t += &format!("method {} {}\n", s.blocks, s.bytes);
    }
    t + &match call {
        Call::Open(entry) => format!("entry {}\n# an output of {} bytes\nsave\n", entry, room),
        Call::Run(k) => format!("{}resume {} {}\n", stopped_lines(g, record), k, room),
        Call::Step => format!("{}restep {}\n", stopped_lines(g, record), room),
    }
}

fn first_difference(a: &[u8], b: &[u8]) -> Option<usize> {
    (0..a.len().max(b.len())).find(|&i| a.get(i) != b.get(i))
}

fn tell(name: &str, due: &[u8], came: &[u8]) {
    if let Some(i) = first_difference(due, came) {
        println!("{} differs first at byte {}", name, i);
        println!("  due {}", hex(&words_of(due)));
        println!("  came{}", hex(&words_of(came)));
    }
}

/// What is added to the answers of the check and of openings where answers are counted.
const CHECKS: u32 = 1000;
const OPENINGS: u32 = 2000;

/// Counts of what was tried, and where a difference is told.
struct Bench {
    seed: u64,
    program: u64,
    runs: u64,
    bundles: u64,
    answers: std::collections::BTreeMap<u32, u64>,
}

impl Bench {
    fn stop(&self, why: &str) -> ! {
        println!("compare: DIFFERENCE: {} (again: compare 1 {} {})", why, self.seed, self.program);
        std::process::exit(1);
    }

    fn call(&mut self, g: &Given, record: &[u8], room: usize, call: Call) -> Left {
        let due = due(g, record, room, call);
        let came = through_c(g, record, room, call).unwrap_or_else(|why| {
            println!("{}", case_of(g, record, room, call));
            self.stop(&why)
        });
        if due != came {
            println!("{}", case_of(g, record, room, call));
            println!("answer: due {}, came {}", due.answer, came.answer);
            tell("main", &due.main, &came.main);
            tell("local", &due.local, &came.local);
            tell("out", &due.out, &came.out);
            self.stop("the call of the case above leaves something else");
        }
        self.runs += 1;
        let kind = if matches!(call, Call::Open(_)) { OPENINGS } else { 0 };
        *self.answers.entry(kind + came.answer).or_default() += 1;
        if kind == 0 {
            self.bundles += self.written(g, &came).map_or(0, |s| s.counts[0]);
        }
        came
    }

    /// The record at the beginning of an output, read again.
    fn written(&self, g: &Given, l: &Left) -> Option<Stopped> {
        if [1, 14, 15].contains(&l.answer) {
            return None;
        }
        let length = record_length(&l.out);
        record::read(&l.out[..length], &under(g))
    }
}

/// The length of the record that a buffer begins with.
fn record_length(out: &[u8]) -> usize {
    (0..record::SECTIONS).fold(0, |at, _| at + 4 + 4 * words_of(&out[at..at + 4])[0] as usize)
}

// ---------------------------------------------------------------- random boxes

/// Numbers, and whether they make tame programs, which go on longer: no access far off, no transfer in a delay slot, no broken window.
struct Random {
    state: u64,
    tame: bool,
}

impl Random {
    fn next(&mut self) -> u32 {
        self.state ^= self.state << 13;
        self.state ^= self.state >> 7;
        self.state ^= self.state << 17;
        (self.state.wrapping_mul(0x2545F4914F6CDD1D) >> 32) as u32
    }

    /// Below n.
    fn below(&mut self, n: u32) -> u32 {
        (self.next() as u64 * n as u64 >> 32) as u32
    }

    /// True so many times of a hundred.
    fn chance(&mut self, percent: u32) -> bool {
        self.below(100) < percent
    }

    fn pick(&mut self, from: &[u32]) -> u32 {
        from[self.below(from.len() as u32) as usize]
    }

    /// A value as programs have them: an address, a small number, a limit, or anything.
    fn value(&mut self, code: u32) -> u32 {
        match self.below(10) {
            0 => self.next(),
            1 => self.pick(&[0, 1, 0x7FFFFFFF, 0x80000000, 0xFFFFFFFF, 0xFFFFFFFC]),
            2 => self.below(300),
            3..=5 => 4 * self.below(code / 4 + 1),
            _ => 4 * self.below(80),
        }
    }

    fn register(&mut self) -> u32 {
        if self.chance(85) { self.below(8) } else { self.below(32) }
    }

    fn guard(&mut self) -> u32 {
        if self.chance(75) { 0 } else { self.below(16) << 27 }
    }

    /// One of the six formats that both slots may hold.
    fn alu(&mut self) -> u32 {
        let fields = self.register() << 17 | self.register() << 12 | self.register() << 7;
        let alu = [0, 1, 2, 3, 4, 5, 6, 7, 11, 12, 13];
        self.guard()
            | match self.below(10) {
                0..=3 => self.below(8) << 22 | fields & 0x3FF000 | if self.chance(70) { self.below(64) } else { self.below(4096) },
                4..=6 => 8 << 22 | fields | self.pick(&alu),
                7 => 8 << 22 | fields | self.pick(&[3, 6]) << 4 | self.below(7),
                8 => 8 << 22 | self.next() & 0x3FFF80 | 4 << 4 | self.pick(&[6, 7, 10]),
                _ => 8 << 22 | fields | 5 << 4 | self.below(16),
            }
    }

    /// Slot one of the bundle at a word's place in code of n words, whose blocks have these bases.
    fn first(&mut self, at: u32, n: u32, bases: &[u32], words: u32) -> u32 {
        let g = self.guard();
        let base = if self.tame || self.chance(60) { 0 } else { self.register() << 12 };
        let near = if self.tame { self.below(8) } else if self.chance(80) { self.below(20) } else { self.below(128) };
        let kind = if self.tame && self.chance(70) { 1 + self.below(3) } else { self.below(4) };
        match self.below(if self.tame { 98 } else { 100 }) {
            0..=37 => self.alu(),
            38..=44 => g | 8 << 22 | self.register() << 12 | self.register() << 7 | 2 << 4 | self.below(2),
            45..=47 => {
                let special = if !self.tame && self.chance(8) { self.pick(&[5, 6]) } else { self.pick(&[0, 2, 3, 7, 8, 9, 10]) };
                g | 9 << 22 | self.register() << 12 | 2 << 4 | special
            }
            48..=53 => g | 9 << 22 | self.register() << 17 | 3 << 4 | self.pick(&[0, 2, 3, 5, 6, 7, 8, 9, 10]),
            54..=65 => g | 10 << 22 | self.register() << 17 | base | self.below(5) << 9 | kind << 7 | near,
            66..=76 => g | 11 << 22 | self.below(3) << 19 | kind << 17 | base | self.register() << 7 | near,
            77..=87 => {
                let few = if self.tame || self.chance(90) { self.below(7) } else { self.below(words + 3) };
                if !self.tame && self.chance(15) {
                    g | 12 << 22 | self.pick(&[1, 3]) << 20 | 1 << 18 | self.register() << 12
                } else {
                    g | 12 << 22 | self.below(4) << 20 | few
                }
            }
            88..=97 => {
                let target = if bases.is_empty() || self.chance(5) { self.below(n + 1) } else { self.pick(bases) / 4 };
                let delayed = self.below(2) << 22;
                g | match self.below(if self.tame { 17 } else { 20 }) {
                    0..=4 => 18 << 22 | delayed | (self.below(n + 1).wrapping_sub(at) & 0x3FFFFF),
                    5..=8 => 16 << 22 | delayed | target,
                    9..=10 => 20 << 22 | delayed | target,
                    11..=12 => 24 << 22 | delayed,
                    13..=14 => 24 << 22 | delayed | 1,
                    15..=16 => 22 << 22 | if self.chance(95) { self.below(32) } else { self.pick(&[32, 33, 64, 0x3FFFFF]) },
                    17 => 24 << 22 | delayed | self.register() << 12 | self.pick(&[4, 5]),
                    18 => 24 << 22 | delayed | self.register() << 12 | self.register() << 7 | 10,
                    _ => 23 << 22 | self.below(32),
                }
            }
            98 => self.next() & 0x7FFFFFFF,
            _ => g | 1 << 22, // subi r0 r0 0 under a guard
        }
    }

    /// Code words; with a method cache the code is divided into blocks, each behind its size, and their bases are told.
    fn code(&mut self, on: bool, words: u32) -> (Vec<u32>, Vec<u32>) {
        let n = if self.chance(10) { 1 + self.below(6) } else { 8 + self.below(90) };
        let mut sizes = Vec::new();
        let mut bases = Vec::new();
        let mut at = 0;
        while on && at + 2 <= n {
            let size = (1 + self.below(14)).min(n - at - 1);
            sizes.push((at, if self.chance(97) { 4 * size } else { self.value(4 * n) }));
            bases.push(4 * at + 4);
            at += 1 + size;
        }
        let mut code: Vec<u32> = Vec::new();
        while (code.len() as u32) < n {
            let at = code.len() as u32;
            // In a tame program a transfer is followed by ALU words.
            let flow = |w: &u32| w >> 25 & 3 == 2 || w >> 23 & 15 == 12;
            let slot = self.tame && code.iter().rev().take(3).any(flow);
            if let Some(&(_, size)) = sizes.iter().find(|s| s.0 == at) {
                code.push(size);
            } else if slot {
                code.push(self.alu());
            } else if self.chance(4) {
                let func = self.pick(&[0, 1, 2, 3, 4, 5, 6, 7, 11, 12, 13]);
                code.push(self.guard() | 0x80000000 | 31 << 22 | self.register() << 17 | self.register() << 12 | func);
                code.push(self.value(4 * n));
            } else if self.chance(15) {
                code.push(self.first(at, n, &bases, words) | 0x80000000);
                code.push(if self.chance(98) { self.alu() } else { self.next() });
            } else {
                code.push(self.first(at, n, &bases, words));
            }
        }
        code.truncate(n as usize);
        (code, bases)
    }

    fn memory(&mut self) -> Vec<u8> {
        let n = match self.below(10) {
            0 if !self.tame => self.below(9),
            1 => 2048 + self.below(3000),
            _ => 64 + self.below(400),
        };
        (0..n).map(|_| if self.chance(50) { 0 } else { self.next() as u8 }).collect()
    }

    /// A list whose numbers do not fall, some of them equal.
    fn list(&mut self) -> Vec<u8> {
        let mut number = 0;
        let mut words = Vec::new();
        for _ in 0..if self.chance(25) { 0 } else { self.below(12) } {
            number += match self.below(10) {
                0..=2 => 0,
                3..=8 => self.below(12),
                _ => self.below(300),
            };
            words.extend([number, self.below(32)]);
        }
        if self.chance(5) {
            words.extend([0xFFFFFFFF, self.below(32)]);
        }
        plain::bytes_of(&words)
    }

    /// A table of handlers: most of them blocks, where there are blocks, or words of the code.
    fn table(&mut self, code: u32, bases: &[u32]) -> Vec<u8> {
        let few = if self.tame { 2 } else { 12 };
        let mut handler = || match self.chance(few) {
            true => self.pick(&[0, 0, 2, 6, code, code + 4, 0xFFFFFFFC]),
            false if bases.is_empty() => 4 + 4 * self.below(code / 4),
            false => self.pick(bases),
        };
        let words: Vec<u32> = (0..32).map(|_| handler()).collect();
        plain::bytes_of(&words)
    }

    /// A list or a table that may be refused: cut, lengthened, or with a word changed.
    fn unlisted(&mut self, g: &Given) -> Given {
        let mut g = g.clone();
        let words = g.list.len() as u32 / 4;
        match self.below(6) {
            0 => g.list.truncate(self.below(g.list.len() as u32 + 1) as usize),
            1 => g.list.extend((0..self.below(20)).map(|_| self.pick(&[0, 31, 255]) as u8)),
            2 => g.table.truncate(self.pick(&[0, 4, 124, 127, 128]) as usize),
            3 => g.table.resize(self.pick(&[129, 132, 256]) as usize, 0),
            _ if words > 0 => {
                let at = 4 * self.below(words) as usize;
                let value = if self.chance(50) { self.pick(&[0, 31, 32, 33, 0xFFFFFFFF]) } else { self.below(40) };
                g.list[at..at + 4].copy_from_slice(&value.to_be_bytes());
            }
            _ => {}
        }
        g
    }

    /// Code, memories, interrupts and settings that are accepted, and the bases of the blocks.
    fn given(&mut self) -> (Given, Vec<u32>) {
        let on = self.chance(50);
        let words = if self.chance(85) { self.pick(&[4, 4, 8, 16]) } else { self.pick(&[32, 64, 128, 256, 512]) };
        let (code, bases) = self.code(on, words);
        let list = self.list();
        let table = self.table(4 * code.len() as u32, &bases);
        let main = self.memory();
        let local = self.memory();
        let most = main.len() as u32 / 4;
        let hi = if self.tame || self.chance(70) { most } else { self.below(most + 1) };
        let lo = if self.tame || self.chance(70) { hi / 2 } else { self.below(hi + 1) };
        let set = Settings {
            words,
            lo: 4 * lo,
            hi: 4 * hi,
            on: if !on { 0 } else if self.chance(80) { 1 } else { self.next() | 1 << 31 },
            blocks: if on { 1 + if self.chance(80) { self.below(4) } else { self.below(16) } } else { self.next() },
            bytes: if on { 64 + if self.chance(80) { self.below(100) } else { self.below(16321) } } else { self.next() },
        };
        (Given { code: plain::bytes_of(&code), list, table, main, local, set }, bases)
    }

    /// Handler mark, list place and bundles done of a box.
    fn replay(&mut self, g: &Given) -> [u32; 3] {
        let records = g.list.len() as u32 / 8;
        let place = if self.chance(90) { self.below(records + 2) } else { self.pick(&[0x7FFFFFFF, 0x80000000, 0xFFFFFFFF]) };
        let done = if self.chance(90) { self.below(100) } else { 0xFFFFFFFF - self.below(4) };
        [self.chance(30) as u32, place, done]
    }

    /// A box that is well formed, with any counts.
    fn stopped(&mut self, g: &Given, bases: &[u32]) -> Stopped {
        let code = g.code.len() as u32;
        let s = &g.set;
        let place = |r: &mut Random| if r.chance(92) { 4 * r.below(code / 4 + 1) } else { r.value(code) };
        let fetch = place(self);
        let base = if bases.is_empty() { place(self) } else { self.pick(bases) };
        let mut regs = [0; 32];
        for r in regs.iter_mut().skip(1) {
            *r = self.value(code);
        }
        let mut specials = [0; 8];
        for p in specials.iter_mut() {
            *p = self.value(code);
        }
        if self.chance(85) {
            // A window inside the stack area or near it.
            let window = self.below(s.words + 1).min((s.hi - s.lo) / 4);
            let ss = s.hi - 4 * self.below((s.hi - s.lo) / 4 - window + 1);
            specials[2] = ss;
            specials[3] = ss - 4 * window;
        }
        if self.chance(70) && !bases.is_empty() {
            specials[4] = self.pick(bases);
            specials[5] = 4 * self.below(12);
            specials[6] = self.pick(bases);
            specials[7] = 4 * self.below(12);
        }
        let mut stopped = Stopped {
            fetch,
            base,
            regs,
            preds: self.below(256) | 1,
            specials,
            cache: (0..s.words).map(|_| self.next()).collect(),
            transfer: vec![],
            load: None,
            products: vec![],
            counts: [0; 6],
            held: vec![],
            replay: self.replay(g),
        };
        if self.chance(25) {
            let kind = self.below(4);
            let target = if bases.is_empty() { place(self) } else { self.pick(bases) };
            stopped.transfer = vec![kind, 1 + self.below(3), target];
            if kind >= 2 {
                stopped.transfer.push(self.value(code));
            }
        }
        if self.chance(30) {
            stopped.load = Some((self.below(32), self.value(code)));
        }
        for wait in 1..3 {
            if self.chance(30) {
                stopped.products.push([wait, self.next(), self.next()]);
            }
        }
        for c in stopped.counts.iter_mut() {
            *c = if self.chance(50) { self.below(100) as u64 } else { (self.next() as u64) << 32 | self.next() as u64 };
        }
        for _ in 0..self.below(4) {
            if !bases.is_empty() {
                stopped.held.push(self.pick(bases));
            }
        }
        while !stopped.held.is_empty() && record::read(&record::write(&stopped), &under(g)).is_none() {
            stopped.held.pop();
        }
        stopped
    }

    /// The record with some damage, which may leave it a record.
    fn damaged(&mut self, record: &[u8], code: u32) -> Vec<u8> {
        let mut r = record.to_vec();
        if r.is_empty() {
            return r;
        }
        for _ in 0..1 + self.below(2) {
            let words = r.len() as u32 / 4;
            if words == 0 {
                break;
            }
            let word = 4 * self.below(words) as usize;
            let value = if self.chance(50) { self.value(code) } else { self.pick(&[0, 1, 2, 3, 4, 5, 6, 12, 16, 31, 32, 255, 256, 257]) };
            match self.below(12) {
                0 => r[word] ^= 1 << self.below(8),
                1 => r[word + 3] ^= 1 << self.below(8),
                2 => r[word..word + 4].copy_from_slice(&value.to_be_bytes()),
                3 => r.truncate(self.below(r.len() as u32) as usize),
                4 => r.extend((0..1 + self.below(9)).map(|_| value as u8)),
                5 => drop(r.drain(word..word + 4)),
                6 => drop(r.splice(word..word, value.to_be_bytes())),
                // The tail of the record, where things are absent or there: a word changed, put in or taken out, its section's count with it.
                _ => {
                    let Some(mut all) = record::sections(&r) else { continue };
                    let some = record::SECTIONS as u32;
                    match self.below(9) {
                        0 => {
                            let (i, j) = (self.below(some) as usize, self.below(some) as usize);
                            all.swap(i, j);
                        }
                        k @ 1..=2 => all[k as usize].iter_mut().take(1).for_each(|w| *w = value),
                        3 => all[5] = (0..self.below(6)).map(|_| self.below(5)).collect(),
                        4 => all[6] = (0..self.below(4)).map(|_| self.below(34)).collect(),
                        5 => all[7] = (0..self.pick(&[0, 2, 3, 3, 4, 6, 6, 6, 9])).map(|_| self.below(4)).collect(),
                        6 => {
                            let n = all[9].len() as u32;
                            let again = if n > 0 && self.chance(30) { all[9][self.below(n) as usize] } else { 4 * self.below(code / 4 + 2) };
                            all[9].insert(self.below(n + 1) as usize, again);
                        }
                        7 => all[10] = (0..self.pick(&[0, 1, 2, 3, 3, 3, 3, 4])).map(|_| self.pick(&[0, 1, 2, 256, value])).collect(),
                        _ => {
                            let i = self.below(some) as usize;
                            let n = all[i].len() as u32;
                            let any = self.below(40);
                            let length = self.pick(&[n + 1, n.saturating_sub(1), 2 * n, n / 2, any]);
                            all[i].resize(length as usize, value);
                        }
                    }
                    r = all.iter().flat_map(|s| std::iter::once(s.len() as u32).chain(s.iter().copied())).flat_map(u32::to_be_bytes).collect();
                }
            }
        }
        r
    }

    /// An entry inside the code: a block's base, where there are blocks, or any word.
    fn entry(&mut self, code: u32, bases: &[u32]) -> u32 {
        if bases.is_empty() || self.chance(20) { 4 * self.below(code / 4) } else { self.pick(bases) }
    }

    /// An entry that may be refused.
    fn any_entry(&mut self, code: u32) -> u32 {
        match self.below(4) {
            0 => 4 * self.below(code / 4 + 3),
            1 => self.below(code + 8),
            2 => self.pick(&[1, 2, 3, code, code.saturating_sub(4), code + 1, 65536, 0x80000000, 0xFFFFFFFC]),
            _ => self.value(code),
        }
    }

    /// An output's length near that of the longest record or of a fresh one, or any below.
    fn room(&mut self, words: u32) -> usize {
        let longest = record::longest(words as usize);
        match self.below(4) {
            0 => longest + self.below(40) as usize,
            1 => longest + 1 - self.below(3) as usize,
            2 => 4 * (69 + words as usize) + self.below(5) as usize,
            _ => self.below(longest as u32) as usize,
        }
    }

    /// Settings that may be refused: one number changed.
    fn unsettled(&mut self, g: &Given) -> Given {
        let mut g = g.clone();
        let s = &mut g.set;
        match self.below(9) {
            0 => s.words = self.pick(&[0, 1, 2, 3, 4, 5, 6, 8, 16, 511, 512, 513, 1024, 0x80000000]),
            1 => s.lo = self.value(300),
            2 => s.hi = self.value(300),
            3 => s.on ^= 1,
            4 => s.blocks = self.pick(&[0, 1, 2, 16, 17, 0xFFFFFFFF]),
            5 => s.bytes = self.pick(&[0, 63, 64, 65, 16384, 16385, 0xFFFFFFFF]),
            6 => g.code.truncate(self.below(g.code.len() as u32 + 1) as usize),
            7 => g.main.resize(self.pick(&[0, 4, 100, 65535, 65536, 65537]) as usize, 0),
            _ => g.local.resize(self.pick(&[0, 4, 65536, 65537]) as usize, 0),
        }
        g
    }
}

// ---------------------------------------------------------------- what is tried on a program

/// Runs of m and of n bundles through C are a run of m + n: answer, memories, state, and the sum of the counts.
fn in_parts(b: &mut Bench, g: &Given, record: &[u8], m: u32, n: u32) {
    let room = record::longest(g.set.words as usize);
    let whole = b.call(g, record, room, Call::Run(m + n));
    let first = b.call(g, record, room, Call::Run(m));
    let between = b.written(g, &first);
    let (last, mut counts) = match between {
        Some(s) if first.answer == 257 => {
            let mut rest = g.clone();
            rest.main.clone_from(&first.main);
            rest.local.clone_from(&first.local);
            (b.call(&rest, &first.out[..record_length(&first.out)], room, Call::Run(n)), s.counts)
        }
        _ => (first, [0; 6]),
    };
    let (Some(w), Some(mut l)) = (b.written(g, &whole), b.written(g, &last)) else {
        if whole != last {
            b.stop("a run in two parts");
        }
        return;
    };
    for (c, d) in counts.iter_mut().zip(l.counts) {
        *c += d;
    }
    l.counts = counts;
    if w != l || whole.answer != last.answer || whole.main != last.main || whole.local != last.local {
        println!("{}", case_of(g, record, room, Call::Run(m)));
        b.stop(&format!("runs of {} and {} bundles are not one of {}", m, n, m + n));
    }
}

fn check(b: &mut Bench, r: &mut Random, g: &Given) {
    let mut mask = |most: u32| if r.chance(40) { 0 } else { r.next() & r.next() & r.next() & most };
    let m = Marking { registers: mask(!1), predicates: mask(!1), others: mask(!0) };
    let m = Marking { registers: m.registers | r.chance(2) as u32, predicates: m.predicates | r.chance(2) as u32, ..m };
    let s = &g.set;
    let due = match settings_ok(g) {
        true => marks::check(&g.code, m),
        false => marks::Found { answer: 1, address: 0, letters: 0 },
    };
    // The code is valid for its length.
    let came = unsafe {
        laqemdit_check(
            g.code.as_ptr(),
            g.code.len(),
            m.registers,
            m.predicates,
            m.others,
            g.main.len(),
            g.local.len(),
            s.words,
            s.lo,
            s.hi,
            s.on,
            s.blocks,
            s.bytes,
        )
    };
    let letter = if due.answer == 9 { (65..70).contains(&came.rule) && due.letters >> (came.rule - 65) & 1 == 1 } else { came.rule == 0 };
    if came.answer != due.answer || came.address != due.address || !letter {
        println!("code{}\n{:?}\n{:?}", hex(&words_of(&g.code)), s, m);
        println!("due {:?}, came {} at {} rule {}", due, came.answer, came.address, came.rule);
        b.stop("the check");
    }
    b.runs += 1;
    *b.answers.entry(CHECKS + came.answer).or_default() += 1;
}

/// Openings that may be refused, for their settings, their output, their entry, or several of these.
fn openings(b: &mut Bench, r: &mut Random, g: &Given) {
    for _ in 0..2 {
        let room = r.room(g.set.words);
        let mut given = if r.chance(60) { g.clone() } else { r.unsettled(g) };
        if r.chance(2) {
            given.code.resize(r.pick(&[0, 4, 65532, 65536, 65537, 65540]) as usize, 0);
        }
        let entry = r.any_entry(given.code.len() as u32);
        b.call(&given, &[], room, Call::Open(entry));
    }
}

fn program(b: &mut Bench, r: &mut Random) {
    let (mut g, bases) = r.given();
    let code = g.code.len() as u32;
    let longest = record::longest(g.set.words as usize);
    // The library's figure, of this and of other sizes.
    let words = if r.chance(50) { g.set.words } else { r.below(1200) };
    let size = [4, 8, 16, 32, 64, 128, 256, 512].contains(&words);
    if unsafe { laqemdit_longest(words) } as usize != if size { record::longest(words as usize) } else { 0 } {
        b.stop(&format!("longest {}", words));
    }
    openings(b, r, &g);
    let entry = r.entry(code, &bases);
    let opened = b.call(&g, &[], longest, Call::Open(entry)).out;
    for box_number in 0..3 {
        // The first box is the one that was opened, the others are anywhere.
        let record = match box_number {
            0 => opened[..record_length(&opened)].to_vec(),
            _ => record::write(&r.stopped(&g, &bases)),
        };
        let m = r.below(30);
        let n = if r.chance(70) { r.below(30) } else { r.below(2000) };
        in_parts(b, &g, &record, m, n);
        let room = longest + r.below(40) as usize;
        b.call(&g, &record, room, Call::Run(if r.chance(50) { n } else { r.below(3) }));
        // Bundle by bundle, each from the record of the one before.
        let mut now = record.clone();
        let before = (g.main.clone(), g.local.clone());
        for _ in 0..12 {
            let l = b.call(&g, &now, longest, Call::Step);
            if l.answer != 0 {
                break;
            }
            now = l.out[..record_length(&l.out)].to_vec();
            g.main = l.main;
            g.local = l.local;
        }
        (g.main, g.local) = before;
        // Damaged ones, of both ends of the way.
        for _ in 0..8 {
            let bad = if r.chance(50) { r.damaged(&record, code) } else { r.damaged(&now, code) };
            let call = if r.chance(30) { Call::Step } else { Call::Run(r.below(4)) };
            b.call(&g, &bad, longest, call);
        }
        // Outputs and settings at their limits.
        let room = (longest + 1).saturating_sub(r.below(3) as usize);
        b.call(&g, &record, room, Call::Run(n));
        let room = r.below(longest as u32 + 4) as usize;
        b.call(&g, &record, room, Call::Step);
        let bad = r.unsettled(&g);
        let given = if r.chance(70) { record.clone() } else { r.damaged(&record, code) };
        b.call(&bad, &given, 8192, if r.chance(50) { Call::Step } else { Call::Run(m) });
        // Lists and tables that may be refused, over a good record and a damaged one.
        let listed = r.unlisted(&g);
        b.call(&listed, &given, longest, if r.chance(50) { Call::Step } else { Call::Run(m) });
        let listed = r.unlisted(&g);
        b.call(&listed, &now, longest, Call::Run(r.below(3)));
        check(b, r, &g);
        check(b, r, &bad);
    }
}

fn main() {
    let args: Vec<String> = std::env::args().collect();
    let number = |i: usize, absent: u64| args.get(i).map_or(Some(absent), |a| a.parse().ok());
    let (Some(programs), Some(seed), Some(first)) = (number(1, 15000), number(2, 1), number(3, 0)) else {
        eprintln!("usage: compare [PROGRAMS [SEED [FIRST]]]");
        std::process::exit(2);
    };
    let mut b = Bench { seed, program: 0, runs: 0, bundles: 0, answers: Default::default() };
    for k in first..first.saturating_add(programs) {
        b.program = k;
        // Each program has numbers of its own, so that one can be tried again alone.
        let mut r = Random { state: (seed << 32 ^ k).wrapping_mul(0x9E3779B97F4A7C15) | 1, tame: k % 2 == 0 };
        for _ in 0..4 {
            r.next();
        }
        program(&mut b, &mut r);
    }
    let tally = |kind: u32| -> String {
        let of_kind = b.answers.range(kind..kind + 1000);
        of_kind.map(|(a, n)| format!(" {}: {}", a - kind, n)).collect::<Vec<_>>().join(",")
    };
    println!("compare: {} bundles; answers of step and run{}; of check{}; of open{}", b.bundles, tally(0), tally(CHECKS), tally(OPENINGS));
    println!("compare: {} programs, {} runs, no difference", programs, b.runs);
}
