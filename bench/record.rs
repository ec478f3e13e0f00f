//! The record of a stopped box, read and written from the documents alone: a second opinion on the library's.
//! Document 02 (iv) and (vi) give the sections and their order, docs/RECORD.md what stands inside them.

use crate::plain::{Before, Counts, Due, Machine, Method, Waiting};

/// A box and the counts of its last run, as a record has them: any values.
#[derive(Clone, PartialEq, Debug)]
pub struct Stopped {
    pub fetch: u32,
    pub base: u32,
    pub regs: [u32; 32],
    /// p0 in bit 0.
    pub preds: u32,
    /// sl, sh, ss, st, srb, sro, sxb, sxo.
    pub specials: [u32; 8],
    pub cache: Vec<u32>,
    /// Nothing; 0, wait, target of a br; 1, wait, target of a call; 2, wait, target, base of a brcf or ret; 3 and the same of an xret.
    pub transfer: Vec<u32>,
    /// Register and value.
    pub load: Option<(u32, u32)>,
    /// Wait, low and high word of each.
    pub products: Vec<[u32; 3]>,
    /// Bundles, cycles, spilled, filled, misses, fetched.
    pub counts: [u64; 6],
    /// Bases, the oldest first.
    pub held: Vec<u32>,
    /// 1 where a handler is active, the list place, the bundles done in the replay.
    pub replay: [u32; 3],
}

/// What a record is judged under beside its own words.
pub struct Under<'a> {
    pub words: usize,
    pub code: &'a [u8],
    pub on: bool,
    pub blocks: u32,
    pub bytes: u32,
}

/// The bytes of the longest record: a transfer with its base, a load, two products and 16 blocks held.
pub fn longest(words: usize) -> usize {
    let sections = [2, 32, 1, 8, words, 4, 2, 6, 12, 16, 3];
    4 * (sections.len() + sections.iter().sum::<usize>())
}

pub fn write(s: &Stopped) -> Vec<u8> {
    let mut sections: Vec<Vec<u32>> = Vec::new();
    sections.push(vec![s.fetch, s.base]);
    sections.push(s.regs.to_vec());
    sections.push(vec![s.preds]);
    sections.push(s.specials.to_vec());
    sections.push(s.cache.clone());
    sections.push(s.transfer.clone());
    sections.push(s.load.iter().flat_map(|&(r, v)| [r, v]).collect());
    sections.push(s.products.iter().flatten().copied().collect());
    sections.push(s.counts.iter().flat_map(|&c| [(c >> 32) as u32, c as u32]).collect());
    sections.push(s.held.clone());
    sections.push(s.replay.to_vec());
    let mut bytes = Vec::new();
    for section in &sections {
        bytes.extend((section.len() as u32).to_be_bytes());
        for w in section {
            bytes.extend(w.to_be_bytes());
        }
    }
    bytes
}

/// The sections of a record.
pub const SECTIONS: usize = 11;

/// The sections of a record, if its bytes are so many sections and nothing more.
pub fn sections(bytes: &[u8]) -> Option<Vec<Vec<u32>>> {
    if bytes.len() % 4 != 0 {
        return None;
    }
    let mut words = bytes.chunks(4).map(|b| u32::from_be_bytes([b[0], b[1], b[2], b[3]]));
    let mut all = Vec::new();
    for _ in 0..SECTIONS {
        let n = words.next()?;
        if n as usize > words.len() {
            return None;
        }
        all.push(words.by_ref().take(n as usize).collect());
    }
    match words.next() {
        None => Some(all),
        Some(_) => None,
    }
}

/// What a record holds, or nothing where 14 describes it.
pub fn read(bytes: &[u8], under: &Under) -> Option<Stopped> {
    let all = sections(bytes)?;
    let [place, regs, preds, specials, cache, transfer, load, products, counts, held, replay] = &all[..] else { return None };
    let lengths = place.len() == 2
        && regs.len() == 32
        && preds.len() == 1
        && specials.len() == 8
        && cache.len() == under.words
        && counts.len() == 12
        && replay.len() == 3;
    if !lengths || regs[0] != 0 || preds[0] > 255 || preds[0] % 2 == 0 || replay[0] > 1 {
        return None;
    }
    match transfer[..] {
        [] => {}
        [0 | 1, wait, _] | [2 | 3, wait, _, _] if wait >= 1 && wait <= 3 => {}
        _ => return None,
    }
    let load = match load[..] {
        [] => None,
        [r, v] if r < 32 => Some((r, v)),
        _ => return None,
    };
    // Two under way land one after the other, so their waits are 1 and 2.
    let products = match products[..] {
        [] => vec![],
        [w, a, b] if w == 1 || w == 2 => vec![[w, a, b]],
        [1, a, b, 2, c, d] => vec![[1, a, b], [2, c, d]],
        _ => return None,
    };
    if !held_fit(held, under) {
        return None;
    }
    let mut numbers = [0; 6];
    for (n, pair) in numbers.iter_mut().zip(counts.chunks(2)) {
        *n = (pair[0] as u64) << 32 | pair[1] as u64;
    }
    Some(Stopped {
        fetch: place[0],
        base: place[1],
        regs: regs[..].try_into().ok()?,
        preds: preds[0],
        specials: specials[..].try_into().ok()?,
        cache: cache.clone(),
        transfer: transfer.clone(),
        load,
        products,
        counts: numbers,
        held: held.clone(),
        replay: replay[..].try_into().ok()?,
    })
}

/// Whether these blocks can be held together, in this code: document 02 (iii), the sentences on 11 and 13.
fn held_fit(held: &[u32], under: &Under) -> bool {
    if !under.on {
        return held.is_empty();
    }
    let length = under.code.len() as u64;
    let mut total = 0;
    for (i, &base) in held.iter().enumerate() {
        let at = base as u64;
        if at < 4 || at > length || at % 4 != 0 || held[..i].contains(&base) {
            return false;
        }
        let b = &under.code[at as usize - 4..at as usize];
        let size = u32::from_be_bytes([b[0], b[1], b[2], b[3]]) as u64;
        if size == 0 || size % 4 != 0 || at + size > length {
            return false;
        }
        total += size;
    }
    held.len() as u64 <= under.blocks as u64 && total <= under.bytes as u64
}

/// The plain interpreter's machine with this box in it, to replay an empty list; the record was read, so its values are a state's.
pub fn machine_of(s: &Stopped, code: &[u8], main: &[u8], local: &[u8], lo: u32, hi: u32, method: Method) -> Machine {
    let mut preds = [false; 8];
    for (i, p) in preds.iter_mut().enumerate() {
        *p = s.preds >> i & 1 == 1;
    }
    let product = |wait| s.products.iter().find(|p| p[0] == wait).map(|p| (p[1], p[2]));
    let [sl, sh, ss, st, srb, sro, sxb, sxo] = s.specials;
    Machine {
        code: code.to_vec(),
        list: vec![],
        table: vec![0; 128],
        main: main.to_vec(),
        local: local.to_vec(),
        cache: s.cache.clone(),
        lo,
        hi,
        method,
        regs: s.regs,
        preds,
        sl,
        sh,
        ss,
        st,
        srb,
        sro,
        sxb,
        sxo,
        fetch: s.fetch,
        base: s.base,
        transfer: match s.transfer[..] {
            [0, wait, target] => Some(Waiting { due: Due::Br, target, wait }),
            [1, wait, target] => Some(Waiting { due: Due::Call, target, wait }),
            [2, wait, target, base] => Some(Waiting { due: Due::Block(base), target, wait }),
            [3, wait, target, base] => Some(Waiting { due: Due::Xret(base), target, wait }),
            _ => None,
        },
        load: s.load,
        soon: product(1),
        later: product(2),
        held: s.held.clone(),
        active: s.replay[0] == 1,
        taken: s.replay[1],
        replayed: s.replay[2],
        next: 0,
        before: Before::default(),
        counts: Counts::default(),
    }
}

pub fn stopped_of(m: &Machine) -> Stopped {
    let c = m.counts;
    let transfer = m.transfer.map_or(vec![], |t| match t.due {
        Due::Br => vec![0, t.wait, t.target],
        Due::Call => vec![1, t.wait, t.target],
        Due::Block(b) => vec![2, t.wait, t.target, b],
        Due::Xret(b) => vec![3, t.wait, t.target, b],
        Due::Trap => unreachable!("a trap never waits"),
    });
    let under_way = [(1, m.soon), (2, m.later)];
    Stopped {
        fetch: m.fetch,
        base: m.base,
        regs: m.regs,
        preds: (0..8).map(|i| (m.preds[i] as u32) << i).sum(),
        specials: [m.sl, m.sh, m.ss, m.st, m.srb, m.sro, m.sxb, m.sxo],
        cache: m.cache.clone(),
        transfer,
        load: m.load,
        products: under_way.iter().filter_map(|&(w, p)| p.map(|(low, high)| [w, low, high])).collect(),
        counts: [c.bundles, c.cycles, c.spilled, c.filled, c.misses, c.fetched],
        held: m.held.clone(),
        replay: [m.active as u32, m.taken, m.replayed],
    }
}
