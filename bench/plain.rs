//! A plain interpreter of the Patmos core of document 01, with the late products, the method cache and the interrupts of document 02
//! (ii), (iii) and (vi), to compare speed with.
//! Build: rustc -O plain.rs        Use: plain WORKLOAD BUDGET MAINLEN W
//! compare.rs has it as a module: what is pub is what that program sets and reads.
//! WORKLOAD is loop, calls, memory, products, methods, interrupts or all.
//!
//! Settings of a workload: the code words below, main memory of MAINLEN bytes, local
//! memory of 1024 bytes, stack area from (MAINLEN / 2) to MAINLEN, both rounded down to
//! a multiple of 4, all memory zero, fresh state. methods: entry 4 and a method cache of
//! 4 blocks and 96 bytes; the others: entry 0, and the method cache is off. interrupts: a
//! list of 131,072 records, one for every hundred bundles, with two handlers; the others:
//! an empty list and no handlers.
#![allow(dead_code)]

const LOOP: &[u32] = &[
    0x87C20000, 0x12345678, 0x00040000, 0x00C6100D, 0x02021182, 0x81061011, 0x00042001, 0x02021182,
    0x00C61005, 0x82021182, 0x02062234, 0x020211E6, 0x0C800004, 0x02001120, 0x024A0032, 0x020C6280,
    0x820E708C, 0x0210110B, 0x4A129180, 0x02048032, 0x14C00005, 0x02141105, 0x8216A087, 0x021813D2,
    0x004C6009, 0x82081546, 0x021AC68D, 0x04FFFFE8, 0x001CE001, 0x209CE0FF,
];

const CALLS: &[u32] = &[
    0x0006008C, 0x03000002, 0x0440000D, 0x02C00200, 0x000A5001, 0x00400000, 0x03100002, 0x028C0000,
    0x80084003, 0x020E7282, 0x04FFFFF6, 0x03200002, 0x02084300, 0x03000004, 0x02500037, 0x02520038,
    0x02C00400, 0x02C00481, 0x02C00182, 0x00463001, 0x02023060, 0x4C00000D, 0x03100004, 0x02900000,
    0x02920001, 0x02960002, 0x02408027, 0x02409028, 0x06400000, 0x03200004, 0x0218C580, 0x00400000,
];

const MEMORY: &[u32] = &[
    0x03000004, 0x87C20000, 0x89ABCDEF, 0x00040000, 0x00060000, 0x02C00080, 0x02C80083, 0x02D00089,
    0x02C22080, 0x02CA2083, 0x02D22089, 0x02C62080, 0x02CE2083, 0x02D62089, 0x02C42083, 0x02CC2088,
    0x02D42095, 0x82940000, 0x02063800, 0x02960203, 0x82980409, 0x02063500, 0x029A0603, 0x829C0809,
    0x02063600, 0x829E2080, 0x02063680, 0x02A02283, 0x82A22489, 0x02063780, 0x02942683, 0x82962889,
    0x02063880, 0x82982180, 0x02063500, 0x029A2383, 0x829C2589, 0x02063600, 0x029E2783, 0x82A02989,
    0x02063700, 0x82A22100, 0x02063780, 0x02942303, 0x82962509, 0x02063880, 0x02982703, 0x829A2909,
    0x02063580, 0x82021182, 0x00042004, 0x01C420FC, 0x04FFFFD1, 0x0202118C, 0x00084001,
];

const PRODUCTS: &[u32] = &[
    0x87C20000, 0x12345678, 0x87C40000, 0x9ABCDEF1, 0x02001120, 0x020020A1, 0x820030A0, 0x02084080,
    0x024A0032, 0x824C0033, 0x02084282, 0x02021282, 0x02005320, 0x02042302, 0x020211E6, 0x0A001320,
    0x4A006121, 0x024E0032, 0x02405023, 0x82500033, 0x02063380, 0x02063402, 0x04FFFFEE, 0x02003120,
    0x00129001,
];

const METHODS: &[u32] = &[
    0x0000003C, 0x04000011, 0x00021001, 0x04400017, 0x02084082, 0x020A128C, 0x020C6280, 0x04000011,
    0x04000020, 0x020E4280, 0x04000023, 0x04000011, 0x0400002A, 0x04FFFFF4, 0x00108001, 0x02129402,
    0x00000014, 0x0214A080, 0x06400000, 0x0216B502, 0x0018C003, 0x00400000, 0x00000014, 0x021A168C,
    0x0540001D, 0x001CE001, 0x021EF702, 0x00400000, 0x00000008, 0x02210780, 0x06000000, 0x00000008,
    0x00231005, 0x06000000, 0x00000018, 0x02252882, 0x02273900, 0x06400000, 0x02293A0C, 0x00400000,
    0x00400000, 0x00000008, 0x022B5A01, 0x06000000,
];

// A loop that is interrupted every hundred bundles: vector 1 (the mat) at 48, vector 2 (the photo cell) at 72.
const INTERRUPTS: &[u32] = &[
    0x87C20000, 0x12345678, 0x00040001, 0x02063082, 0x00042001, 0x0108101F, 0x0202120C, 0x820A5180,
    0x020C6082, 0x04FFFFFA, 0x020E7280, 0x02108382, 0x00294001, 0x026A003A, 0x06400001, 0x022D6A8C,
    0x02C20A00, 0x022F7082, 0x02B00080, 0x02339102, 0x0235AC00, 0x06000001,
];
const INTERRUPT_RECORDS: u32 = 131_072;

/// The list of the workload interrupts: numbers 100, 200, .. and vectors 1, 2, 1, 2, ..
fn interrupt_list() -> Vec<u8> {
    let record = |i: u32| [100 * (i + 1), 1 + i % 2];
    bytes_of(&(0..INTERRUPT_RECORDS).flat_map(record).collect::<Vec<_>>())
}

/// Its table of handlers.
fn interrupt_table() -> Vec<u8> {
    let mut table = [0; 32];
    table[1] = 48;
    table[2] = 72;
    bytes_of(&table)
}

// ---------------------------------------------------------------- machine

#[derive(Clone, Copy, PartialEq)]
enum Kind {
    Stack,
    Local,
    Main,
}

#[derive(Clone, Copy, PartialEq, Debug)]
pub enum Due {
    Br,
    Call,
    Block(u32),
    /// A trap, which never waits: its target is the handler.
    Trap,
    Xret(u32),
}

#[derive(Clone, Copy, PartialEq, Debug)]
pub struct Waiting {
    pub due: Due,
    pub target: u32,
    pub wait: u32,
}

#[derive(Clone, Copy, PartialEq, Debug)]
pub enum Answer {
    Done,
    Ended,
    Spent,
    Refused(u32),
}

#[derive(Clone, Copy, Default, PartialEq, Debug)]
pub struct Counts {
    pub bundles: u64,
    pub cycles: u64,
    pub spilled: u64,
    pub filled: u64,
    pub misses: u64,
    pub fetched: u64,
}

/// The method cache's switch and capacity.
#[derive(Clone, Copy, Default, Debug)]
pub struct Method {
    pub on: bool,
    pub blocks: u32,
    pub bytes: u32,
}

/// What taking a record changes, as it was before: it comes back where the bundle is refused.
#[derive(Clone, Default)]
pub struct Before {
    fetch: u32,
    base: u32,
    sxb: u32,
    sxo: u32,
    held: Vec<u32>,
    counts: Counts,
}

#[derive(Clone)]
pub struct Machine {
    pub code: Vec<u8>,
    /// The interrupts to be replayed, two words each, and the table of 32 handlers.
    pub list: Vec<u8>,
    pub table: Vec<u8>,
    pub main: Vec<u8>,
    pub local: Vec<u8>,
    pub cache: Vec<u32>,
    pub lo: u32,
    pub hi: u32,
    pub method: Method,
    pub regs: [u32; 32],
    pub preds: [bool; 8],
    pub sl: u32,
    pub sh: u32,
    pub ss: u32,
    pub st: u32,
    pub srb: u32,
    pub sro: u32,
    pub sxb: u32,
    pub sxo: u32,
    pub fetch: u32,
    pub base: u32,
    pub transfer: Option<Waiting>,
    pub load: Option<(u32, u32)>,
    /// The products under way, sl and sh of each: one lands in the next bundle, one in the bundle after it.
    pub soon: Option<(u32, u32)>,
    pub later: Option<(u32, u32)>,
    /// The bases of the blocks in the method cache, oldest first.
    pub held: Vec<u32>,
    /// Whether a handler is active, the records taken, and the bundles done in the replay.
    pub active: bool,
    pub taken: u32,
    pub replayed: u32,
    /// The number of the record that comes next, which no bundle count reaches where none is left. A step and a run look it up when
    /// they begin.
    pub next: u64,
    pub before: Before,
    pub counts: Counts,
}

/// What slot two will write.
enum Second {
    Nothing,
    Reg(usize, u32),
    Pred(usize, bool),
}

fn read_be(mem: &[u8], at: usize, width: u32) -> u32 {
    match width {
        4 => u32::from_be_bytes([mem[at], mem[at + 1], mem[at + 2], mem[at + 3]]),
        2 => u16::from_be_bytes([mem[at], mem[at + 1]]) as u32,
        _ => mem[at] as u32,
    }
}

fn write_be(mem: &mut [u8], at: usize, width: u32, v: u32) {
    match width {
        4 => mem[at..at + 4].copy_from_slice(&v.to_be_bytes()),
        2 => mem[at..at + 2].copy_from_slice(&(v as u16).to_be_bytes()),
        _ => mem[at] = v as u8,
    }
}

#[inline]
fn kind_of(n: u32) -> Kind {
    match n & 3 {
        0 => Kind::Stack,
        1 => Kind::Local,
        _ => Kind::Main, // cached and main are one memory
    }
}

/// Table 2.1.
#[inline]
fn alu(func: u32, a: u32, b: u32) -> Option<u32> {
    Some(match func {
        0 => a.wrapping_add(b),
        1 => a.wrapping_sub(b),
        2 => a ^ b,
        3 => a << (b & 31),
        4 => a >> (b & 31),
        5 => ((a as i32) >> (b & 31)) as u32,
        6 => a | b,
        7 => a & b,
        11 => !(a | b),
        12 => (a << 1).wrapping_add(b),
        13 => (a << 2).wrapping_add(b),
        _ => return None,
    })
}

/// Table 2.3.
#[inline]
fn compare(func: u32, a: u32, b: u32) -> Option<bool> {
    Some(match func {
        0 => a == b,
        1 => a != b,
        2 => (a as i32) < b as i32,
        3 => a as i32 <= b as i32,
        4 => a < b,
        5 => a <= b,
        6 => a >> (b & 31) & 1 == 1,
        _ => return None,
    })
}

#[inline]
fn rd(w: u32) -> usize {
    (w >> 17 & 31) as usize
}

#[inline]
fn rs1(w: u32) -> usize {
    (w >> 12 & 31) as usize
}

#[inline]
fn rs2(w: u32) -> usize {
    (w >> 7 & 31) as usize
}

/// Whether settings are inside their limits: the lengths of code, main and local memory are among them.
pub fn admitted(code: usize, main: usize, local: usize, w: u32, lo: u32, hi: u32, method: Method) -> bool {
    (4..=65536).contains(&code)
        && code % 4 == 0
        && main <= 65536
        && local <= 65536
        && w.is_power_of_two()
        && (4..=512).contains(&w)
        && lo % 4 == 0
        && hi % 4 == 0
        && lo <= hi
        && hi as usize <= main
        && (!method.on || ((1..=16).contains(&method.blocks) && (64..=16384).contains(&method.bytes)))
}

impl Machine {
    /// The fresh state at an entry, or the number of the refusal.
    pub fn open(
        code: Vec<u8>,
        main: Vec<u8>,
        local: Vec<u8>,
        w: u32,
        lo: u32,
        hi: u32,
        method: Method,
        entry: u32,
    ) -> Result<Machine, u32> {
        if !admitted(code.len(), main.len(), local.len(), w, lo, hi, method) {
            return Err(1);
        }
        if entry % 4 != 0 || entry as usize >= code.len() {
            return Err(2);
        }
        let mut preds = [false; 8];
        preds[0] = true;
        let sro = code.len() as u32;
        Ok(Machine {
            code,
            list: vec![],
            table: vec![0; 128],
            main,
            local,
            cache: vec![0; w as usize],
            lo,
            hi,
            method,
            regs: [0; 32],
            preds,
            sl: 0,
            sh: 0,
            ss: hi,
            st: hi,
            srb: 0,
            sro,
            sxb: 0,
            sxo: 0,
            fetch: entry,
            base: entry,
            transfer: None,
            load: None,
            soon: None,
            later: None,
            held: Vec::with_capacity(16),
            active: false,
            taken: 0,
            replayed: 0,
            next: u64::MAX,
            before: Before::default(),
            counts: Counts::default(),
        })
    }

    fn well_formed(&self) -> bool {
        self.regs[0] == 0
            && self.preds[0]
            && self.load.map_or(true, |l| l.0 <= 31)
            && self.transfer.map_or(true, |t| (1..=3).contains(&t.wait))
            && self.held_ok()
    }

    fn held_ok(&self) -> bool {
        if !self.method.on {
            return self.held.is_empty();
        }
        let single = |(i, &b): (usize, &u32)| !self.bad_block(b) && !self.held[..i].contains(&b);
        self.held.iter().enumerate().all(single)
            && self.held.len() <= self.method.blocks as usize
            && self.bytes_held() <= self.method.bytes
    }

    /// The size of the block at a base of at least 4 and inside the code or at its end.
    #[inline]
    fn size_at(&self, base: u32) -> u32 {
        read_be(&self.code, base as usize - 4, 4)
    }

    /// Whether a lookup of this base is refused with 13.
    #[inline]
    fn bad_block(&self, base: u32) -> bool {
        let length = self.code.len() as u32;
        if base < 4 || base > length || base % 4 != 0 {
            return true;
        }
        let size = self.size_at(base);
        size == 0 || size % 4 != 0 || size > length - base || size > self.method.bytes
    }

    /// The bytes of the blocks held, where none of them is bad: at most 16 times the code.
    #[inline]
    fn bytes_held(&self) -> u32 {
        self.held.iter().map(|&b| self.size_at(b)).sum()
    }

    /// Whether list and table can be replayed: 15 where they cannot.
    fn replay_ok(&self) -> bool {
        let mut least = 0;
        self.list.len() % 8 == 0
            && self.table.len() == 128
            && self.list.chunks_exact(8).all(|r| {
                let (number, vector) = (read_be(r, 0, 4), read_be(r, 4, 4));
                let fine = number >= least && vector <= 31;
                least = number;
                fine
            })
    }

    /// The number of the record that comes next.
    fn next_number(&self) -> u64 {
        match self.list.get(8 * self.taken as usize..) {
            Some(rest) if !rest.is_empty() => read_be(rest, 0, 4) as u64,
            _ => u64::MAX,
        }
    }

    fn handler(&self, vector: u32) -> u32 {
        read_be(&self.table, 4 * vector as usize, 4)
    }

    /// The record that is due is taken: 17 and 13 are judged, and nothing is changed then.
    #[cold]
    fn take(&mut self) -> Result<(), u32> {
        let handler = self.handler(read_be(&self.list, 8 * self.taken as usize + 4, 4));
        if handler == 0 {
            return Err(17);
        }
        self.before.held.clone_from(&self.held);
        self.before.counts = self.counts;
        if self.method.on {
            self.look_up(Waiting { due: Due::Call, target: handler, wait: 0 })?;
        }
        (self.before.fetch, self.before.base) = (self.fetch, self.base);
        (self.before.sxb, self.before.sxo) = (self.sxb, self.sxo);
        self.enter(handler, self.fetch);
        self.taken += 1;
        self.next = self.next_number();
        Ok(())
    }

    /// The bundle was refused, and so is the taking.
    #[cold]
    fn put_back(&mut self) {
        (self.fetch, self.base) = (self.before.fetch, self.before.base);
        (self.sxb, self.sxo) = (self.before.sxb, self.before.sxo);
        self.held.clone_from(&self.before.held);
        self.counts = self.before.counts;
        self.active = false;
        self.taken -= 1;
        self.next = self.next_number();
    }

    /// A handler becomes active; xret will lead back to an address.
    fn enter(&mut self, handler: u32, back: u32) {
        self.sxb = self.base;
        self.sxo = back.wrapping_sub(self.base);
        self.base = handler;
        self.fetch = handler;
        self.active = true;
    }

    /// The lookup of a call, brcf, ret, trap or xret, or of a handler, by its new base: none where it goes to the code's end.
    #[inline]
    fn look_up(&mut self, t: Waiting) -> Result<(), u32> {
        let base = match t.due {
            Due::Br => return Ok(()),
            Due::Call | Due::Trap => t.target,
            Due::Block(b) | Due::Xret(b) => b,
        };
        if t.target as usize == self.code.len() {
            return Ok(());
        }
        if self.bad_block(base) {
            return Err(13);
        }
        if self.held.contains(&base) {
            return Ok(());
        }
        let size = self.size_at(base);
        let mut bytes = self.bytes_held();
        let mut out = 0;
        while self.held.len() - out + 1 > self.method.blocks as usize || bytes + size > self.method.bytes {
            bytes -= self.size_at(self.held[out]);
            out += 1;
        }
        self.held.drain(..out);
        self.held.push(base);
        self.counts.misses += 1;
        self.counts.fetched += size as u64 / 4;
        Ok(())
    }

    #[inline]
    fn ended(&self) -> bool {
        self.fetch as usize == self.code.len() && self.transfer.is_none()
    }

    #[inline]
    fn pred(&self, p: u32) -> bool {
        self.preds[(p & 7) as usize] != (p & 8 != 0)
    }

    #[inline]
    fn guard(&self, w: u32) -> bool {
        self.pred(w >> 27)
    }

    #[inline]
    fn set_reg(&mut self, r: usize, v: u32) {
        self.regs[r] = v;
        self.regs[0] = 0;
    }

    #[inline]
    fn set_pred(&mut self, p: usize, v: bool) {
        self.preds[p] = v;
        self.preds[0] = true;
    }

    #[inline]
    fn land(&mut self) {
        if let Some((r, v)) = self.load.take() {
            self.set_reg((r & 31) as usize, v);
        }
        if let Some((low, high)) = self.soon {
            self.sl = low;
            self.sh = high;
        }
        self.soon = self.later.take();
    }

    #[inline]
    fn word(&self, at: usize) -> Option<u32> {
        let b = self.code.get(at..at + 4)?;
        Some(u32::from_be_bytes([b[0], b[1], b[2], b[3]]))
    }

    #[inline]
    fn window_bad(&self) -> bool {
        (self.ss | self.st) % 4 != 0 || self.st > self.ss || self.ss - self.st > 4 * self.cache.len() as u32
    }

    /// Address of an access, judged.
    #[inline]
    fn address(&self, kind: Kind, width: u32, w: u32) -> Result<u32, u32> {
        let mut a = self.regs[rs1(w)].wrapping_add((w & 127) * width);
        if kind == Kind::Stack {
            a = self.st.wrapping_add(a);
        }
        if a & (width - 1) != 0 {
            return Err(5);
        }
        let end = a as u64 + width as u64;
        match kind {
            Kind::Stack => {
                if self.window_bad() {
                    return Err(7);
                }
                if a < self.st || end > self.ss as u64 {
                    return Err(6);
                }
            }
            Kind::Local => {
                if end > self.local.len() as u64 {
                    return Err(6);
                }
            }
            Kind::Main => {
                if end > self.main.len() as u64 || (a < self.hi && end > self.lo as u64) {
                    return Err(6);
                }
            }
        }
        Ok(a)
    }

    #[inline]
    fn place(&self, a: u32) -> usize {
        (a / 4) as usize & (self.cache.len() - 1)
    }

    /// The `k` words below `ss` go to main memory, the topmost first.
    fn spill(&mut self, k: u32) -> Result<(), u32> {
        if k == 0 {
            return Ok(());
        }
        // the words are those of [ss - 4k, ss)
        if self.ss > self.hi || self.ss < 4 * k || self.ss - 4 * k < self.lo {
            return Err(8);
        }
        for _ in 0..k {
            self.ss -= 4;
            let v = self.cache[self.place(self.ss)];
            write_be(&mut self.main, self.ss as usize, 4, v);
        }
        self.counts.spilled += k as u64;
        Ok(())
    }

    fn fill(&mut self, k: u32) -> Result<(), u32> {
        if k == 0 {
            return Ok(());
        }
        if self.ss < self.lo || self.ss as u64 + 4 * k as u64 > self.hi as u64 {
            return Err(8);
        }
        for _ in 0..k {
            let p = self.place(self.ss);
            self.cache[p] = read_be(&self.main, self.ss as usize, 4);
            self.ss += 4;
        }
        self.counts.filled += k as u64;
        Ok(())
    }

    /// op as in table 2.7, n in words.
    fn stack_control(&mut self, op: u32, n: u32) -> Result<(), u32> {
        if self.window_bad() {
            return Err(7);
        }
        let w = self.cache.len() as u32;
        match op {
            0 => {
                if n > w || self.st < 4 * n {
                    return Err(7);
                }
                let st = self.st - 4 * n;
                self.spill(((self.ss - st) / 4).saturating_sub(w))?;
                self.st = st;
            }
            1 => {
                if n > w {
                    return Err(7);
                }
                self.fill(n.saturating_sub((self.ss - self.st) / 4))?;
            }
            2 => {
                let st = self.st.checked_add(4 * n).ok_or(7u32)?;
                self.st = st;
                self.ss = self.ss.max(st);
            }
            _ => self.spill(n.min((self.ss - self.st) / 4))?,
        }
        Ok(())
    }

    fn special(&mut self, n: u32) -> Option<&mut u32> {
        Some(match n {
            2 => &mut self.sl,
            3 => &mut self.sh,
            5 => &mut self.ss,
            6 => &mut self.st,
            7 => &mut self.srb,
            8 => &mut self.sro,
            9 => &mut self.sxb,
            10 => &mut self.sxo,
            _ => return None,
        })
    }

    fn load_value(&self, w: u32) -> Result<u32, u32> {
        let kind = kind_of(w >> 7);
        let (width, signed) = match w >> 9 & 7 {
            0 => (4, false),
            1 => (2, true),
            2 => (1, true),
            3 => (2, false),
            _ => (1, false),
        };
        let a = self.address(kind, width, w)?;
        let v = match kind {
            Kind::Stack => {
                let word = self.cache[self.place(a)].to_be_bytes();
                read_be(&word, (a % 4) as usize, width)
            }
            Kind::Local => read_be(&self.local, a as usize, width),
            Kind::Main => read_be(&self.main, a as usize, width),
        };
        Ok(match (width, signed) {
            (2, true) => v as u16 as i16 as i32 as u32,
            (1, true) => v as u8 as i8 as i32 as u32,
            _ => v,
        })
    }

    fn store(&mut self, w: u32) -> Result<(), u32> {
        let kind = kind_of(w >> 17);
        let width = 4 >> (w >> 19 & 3);
        let a = self.address(kind, width, w)?;
        let v = self.regs[rs2(w)];
        match kind {
            Kind::Stack => {
                let p = self.place(a);
                let mut word = self.cache[p].to_be_bytes();
                write_be(&mut word, (a % 4) as usize, width, v);
                self.cache[p] = u32::from_be_bytes(word);
            }
            Kind::Local => write_be(&mut self.local, a as usize, width, v),
            Kind::Main => write_be(&mut self.main, a as usize, width, v),
        }
        Ok(())
    }

    /// Slot one of the ALU formats shared with slot two, and all of slot two:
    /// reads only, so that both slots see the state at the start.
    #[inline]
    fn common(&self, w: u32) -> Option<Second> {
        let func = w & 15;
        if w >> 25 & 3 == 0 {
            let v = alu(w >> 22 & 7, self.regs[rs1(w)], w & 0xFFF)?;
            return Some(Second::Reg(rd(w), v));
        }
        if w >> 22 & 31 != 0b01000 {
            return None;
        }
        let pd = rd(w) & 7;
        match w >> 4 & 7 {
            0 => Some(Second::Reg(rd(w), alu(func, self.regs[rs1(w)], self.regs[rs2(w)])?)),
            3 => Some(Second::Pred(pd, compare(func, self.regs[rs1(w)], self.regs[rs2(w)])?)),
            4 => {
                let (a, b) = (self.pred(w >> 12), self.pred(w >> 7));
                match func {
                    6 => Some(Second::Pred(pd, a | b)),
                    7 => Some(Second::Pred(pd, a & b)),
                    10 => Some(Second::Pred(pd, a ^ b)),
                    _ => None,
                }
            }
            5 => {
                let bit = w >> 7 & 31;
                Some(Second::Reg(rd(w), (self.regs[rs1(w)] & (1 << bit)) | ((self.pred(func) as u32) << bit)))
            }
            6 => Some(Second::Pred(pd, compare(func, self.regs[rs1(w)], w >> 7 & 31)?)),
            _ => None,
        }
    }

    #[inline]
    fn put(&mut self, s: Second) {
        match s {
            Second::Reg(r, v) => self.set_reg(r, v),
            Second::Pred(p, v) => self.set_pred(p, v),
            Second::Nothing => {}
        }
    }

    /// Slot one: decodes, judges, reads, lands the waiting load and a product that is due, writes.  A delayed
    /// transfer is left waiting; one without delay is handed back.
    #[inline]
    fn first(&mut self, w: u32) -> Result<Option<Waiting>, u32> {
        let go = self.guard(w);
        match w >> 22 & 31 {
            0b01000 if w >> 4 & 7 == 2 => {
                if w & 15 > 1 {
                    return Err(3);
                }
                let (a, b) = (self.regs[rs1(w)], self.regs[rs2(w)]);
                self.land();
                if go {
                    let v = if w & 1 == 0 { (a as i32 as i64 * b as i32 as i64) as u64 } else { a as u64 * b as u64 };
                    self.later = Some((v as u32, (v >> 32) as u32));
                }
            }
            0b00000..=0b01000 => {
                let s = self.common(w).ok_or(3u32)?;
                self.land();
                if go {
                    self.put(s);
                }
            }
            0b01001 => {
                let n = w & 15;
                if n != 0 && self.special(n).is_none() {
                    return Err(3);
                }
                match w >> 4 & 7 {
                    2 => {
                        let v = self.regs[rs1(w)];
                        self.land();
                        if go {
                            if let Some(s) = self.special(n) {
                                *s = v;
                            } else {
                                for i in 1..8 {
                                    self.preds[i] = v >> i & 1 == 1;
                                }
                            }
                        }
                    }
                    3 => {
                        let v = match self.special(n) {
                            Some(s) => *s,
                            None => self.preds.iter().enumerate().fold(0, |s, (i, &b)| s | (b as u32) << i),
                        };
                        self.land();
                        if go {
                            self.set_reg(rd(w), v);
                        }
                    }
                    _ => return Err(3),
                }
            }
            0b01010 => {
                if w >> 9 & 7 > 4 {
                    return Err(3);
                }
                if go {
                    let v = self.load_value(w)?;
                    self.land();
                    self.load = Some((rd(w) as u32, v));
                } else {
                    self.land();
                }
            }
            0b01011 => {
                if w >> 19 & 7 > 2 {
                    return Err(3);
                }
                if go {
                    self.store(w)?;
                }
                self.land();
            }
            0b01100 => {
                let op = w >> 20 & 3;
                match w >> 18 & 3 {
                    0 => {
                        if go {
                            self.stack_control(op, w & 0x3FFFF)?;
                        }
                    }
                    1 if op & 1 == 1 => {
                        if go {
                            let v = self.regs[rs1(w)];
                            if v % 4 != 0 {
                                return Err(5);
                            }
                            self.stack_control(op, v / 4)?;
                        }
                    }
                    _ => return Err(3),
                }
                self.land();
            }
            0b10000..=0b11001 => return self.control_flow(w, go),
            _ => return Err(3),
        }
        Ok(None)
    }

    #[inline]
    fn control_flow(&mut self, w: u32, go: bool) -> Result<Option<Waiting>, u32> {
        let delayed = w >> 22 & 1 == 1;
        let imm = w & 0x3FFFFF;
        let mut t = if w >> 25 & 3 == 0b10 {
            match w >> 23 & 3 {
                0 => Waiting { due: Due::Call, target: imm << 2, wait: 3 },
                1 => {
                    let distance = ((imm << 10) as i32 >> 8) as u32;
                    Waiting { due: Due::Br, target: self.fetch.wrapping_add(distance), wait: 2 }
                }
                2 => Waiting { due: Due::Block(imm << 2), target: imm << 2, wait: 3 },
                _ if delayed => return Err(3),
                _ => Waiting { due: Due::Trap, target: 0, wait: 3 },
            }
        } else {
            match w & 15 {
                0 => Waiting { due: Due::Block(self.srb), target: self.srb.wrapping_add(self.sro), wait: 3 },
                1 => Waiting { due: Due::Xret(self.sxb), target: self.sxb.wrapping_add(self.sxo), wait: 3 },
                4 => Waiting { due: Due::Call, target: self.regs[rs1(w)], wait: 3 },
                5 => Waiting { due: Due::Br, target: self.regs[rs1(w)], wait: 2 },
                10 => {
                    let b = self.regs[rs1(w)];
                    Waiting { due: Due::Block(b), target: b.wrapping_add(self.regs[rs2(w)]), wait: 3 }
                }
                _ => return Err(3),
            }
        };
        if !go {
            self.land();
            return Ok(None);
        }
        if t.due == Due::Trap {
            t.target = self.trap(imm)?;
        }
        if self.transfer.is_some() {
            return Err(4);
        }
        if self.method.on {
            self.look_up(t)?;
        }
        self.land();
        if delayed {
            self.transfer = Some(t);
            return Ok(None);
        }
        Ok(Some(t))
    }

    /// Where a trap goes, judged.
    fn trap(&self, vector: u32) -> Result<u32, u32> {
        if self.active {
            return Err(16);
        }
        if vector > 31 || self.handler(vector) == 0 {
            return Err(17);
        }
        Ok(self.handler(vector))
    }

    #[inline]
    fn carry_out(&mut self, w: Waiting, following: u32) {
        match w.due {
            Due::Br => {}
            Due::Call => {
                self.srb = self.base;
                self.sro = following.wrapping_sub(self.base);
                self.base = w.target;
            }
            Due::Block(b) => self.base = b,
            Due::Trap => self.enter(w.target, following),
            Due::Xret(b) => {
                self.base = b;
                self.active = false;
            }
        }
        self.fetch = w.target;
    }

    /// The next bundle of a well formed state that has not ended, in a replay: a record that is due is taken as part of it.
    #[inline]
    fn attempt(&mut self) -> Result<(), u32> {
        let due = self.replayed as u64 >= self.next && self.transfer.is_none() && !self.active;
        if due {
            self.take()?;
        }
        let done = self.bundle();
        if due && done.is_err() {
            self.put_back();
        }
        done
    }

    /// One bundle at the fetch address.
    #[inline]
    fn bundle(&mut self) -> Result<(), u32> {
        if self.fetch % 4 != 0 {
            return Err(2);
        }
        let at = self.fetch as usize;
        let waiting = self.transfer;
        let w = self.word(at).ok_or(2u32)?;
        let (due, words) = if w >> 31 == 0 {
            (self.first(w)?, 1)
        } else {
            let x = self.word(at + 4).ok_or(2u32)?;
            if w >> 22 & 31 == 31 {
                if w >> 4 & 7 != 0 {
                    return Err(3);
                }
                let v = alu(w & 15, self.regs[rs1(w)], x).ok_or(3u32)?;
                self.land();
                if self.guard(w) {
                    self.set_reg(rd(w), v);
                }
                (None, 2)
            } else {
                if x >> 31 == 1 {
                    return Err(3);
                }
                let mut second = self.common(x).ok_or(3u32)?;
                if !self.guard(x) {
                    second = Second::Nothing;
                }
                let due = self.first(w)?;
                self.put(second);
                (due, 2)
            }
        };
        let following = self.fetch.wrapping_add(4 * words);
        self.fetch = following;
        let mut cycles = 1;
        if let Some(t) = due {
            cycles = t.wait as u64 + 1;
            self.carry_out(t, following);
        } else if let Some(t) = waiting {
            if t.wait == 1 {
                self.transfer = None;
                self.carry_out(t, following);
            } else {
                self.transfer = Some(Waiting { wait: t.wait - 1, ..t });
            }
        }
        self.replayed = self.replayed.saturating_add(1);
        self.counts.bundles += 1;
        self.counts.cycles += cycles;
        Ok(())
    }

    /// What a step or a run begins with: 11 and 15 are judged once.
    fn begin(&mut self) -> Result<(), u32> {
        self.counts = Counts::default();
        if !self.well_formed() {
            return Err(11);
        }
        if !self.replay_ok() {
            return Err(15);
        }
        self.next = self.next_number();
        Ok(())
    }

    pub fn step(&mut self) -> Answer {
        if let Err(k) = self.begin() {
            return Answer::Refused(k);
        }
        if self.ended() {
            return Answer::Ended;
        }
        match self.attempt() {
            Ok(()) => Answer::Done,
            Err(k) => Answer::Refused(k),
        }
    }

    pub fn run(&mut self, budget: u32) -> Answer {
        if let Err(k) = self.begin() {
            return Answer::Refused(k);
        }
        loop {
            if self.ended() {
                return Answer::Ended;
            }
            if self.counts.bundles == budget as u64 {
                return Answer::Spent;
            }
            if let Err(k) = self.attempt() {
                return Answer::Refused(k);
            }
        }
    }

    /// Rotate left by one and xor, over r0 to r31.
    fn checksum(&self) -> u32 {
        self.regs.iter().fold(0u32, |h, &r| h.rotate_left(1) ^ r)
    }
}

fn answer_text(a: Answer) -> String {
    match a {
        Answer::Done => "done".into(),
        Answer::Ended => "ended".into(),
        Answer::Spent => "spent".into(),
        Answer::Refused(k) => format!("refused {}", k),
    }
}

pub fn bytes_of(words: &[u32]) -> Vec<u8> {
    words.iter().flat_map(|w| w.to_be_bytes()).collect()
}

fn workload(name: &str, code: &[u32], entry: u32, method: Method, budget: u32, mainlen: usize, w: u32) {
    let lo = (mainlen / 2) as u32 & !3;
    let hi = mainlen as u32 & !3;
    let mut m = match Machine::open(bytes_of(code), vec![0; mainlen], vec![0; 1024], w, lo, hi, method, entry) {
        Ok(m) => m,
        Err(k) => {
            println!("{} open refused {}", name, k);
            return;
        }
    };
    if name == "interrupts" {
        m.list = interrupt_list();
        m.table = interrupt_table();
    }
    let a = m.run(budget);
    print!(
        "{} {} bundles {} cycles {} spilled {} filled {}",
        name,
        answer_text(a),
        m.counts.bundles,
        m.counts.cycles,
        m.counts.spilled,
        m.counts.filled
    );
    if method.on {
        print!(" misses {} fetched {}", m.counts.misses, m.counts.fetched);
    }
    println!(" checksum {:08x}", m.checksum());
}

fn main() {
    let args: Vec<String> = std::env::args().collect();
    let off = Method::default();
    let on = Method { on: true, blocks: 4, bytes: 96 };
    let all = [
        ("loop", LOOP, 0, off),
        ("calls", CALLS, 0, off),
        ("memory", MEMORY, 0, off),
        ("products", PRODUCTS, 0, off),
        ("methods", METHODS, 4, on),
        ("interrupts", INTERRUPTS, 0, off),
    ];
    let parsed = if args.len() == 5 {
        match (args[2].parse::<u32>(), args[3].parse::<usize>(), args[4].parse::<u32>()) {
            (Ok(b), Ok(m), Ok(w)) => Some((b, m, w)),
            _ => None,
        }
    } else {
        None
    };
    let Some((budget, mainlen, w)) = parsed else {
        eprintln!("usage: plain loop|calls|memory|products|methods|interrupts|all BUDGET MAINLEN W");
        std::process::exit(2);
    };
    for (name, code, entry, method) in all {
        if args[1] == name || args[1] == "all" {
            workload(name, code, entry, method, budget, mainlen, w);
        }
    }
}
