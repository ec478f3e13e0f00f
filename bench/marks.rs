//! The check of document 01, read from the document alone: which rules a bundle breaks under a marking.

/// What is private: masks as the C entry has them.
#[derive(Clone, Copy, Debug)]
pub struct Marking {
    pub registers: u32,
    pub predicates: u32,
    pub others: u32,
}

/// What a check may answer: its number, the bundle's address, and the letters that are right (bit 0 is A).
#[derive(Debug, PartialEq)]
pub struct Found {
    pub answer: u32,
    pub address: u32,
    pub letters: u32,
}

const A: u32 = 1;
const B: u32 = 2;
const C: u32 = 4;
const D: u32 = 8;
const E: u32 = 16;

impl Marking {
    fn reg(&self, n: u32) -> bool {
        self.registers >> (n & 31) & 1 == 1
    }

    /// A predicate, by its three or four bits.
    fn pred(&self, n: u32) -> bool {
        self.predicates >> (n & 7) & 1 == 1
    }

    fn other(&self, n: u32) -> bool {
        self.others >> n & 1 == 1
    }

    /// The memory of an access: stack, local, or main (cached and main).
    fn store(&self, kind: u32) -> bool {
        match kind & 3 {
            0 => self.other(4),
            1 => self.other(3),
            _ => self.other(2),
        }
    }

    fn to_reg(&self, n: u32, private: bool) -> u32 {
        if n & 31 != 0 && !self.reg(n) && private { B } else { 0 }
    }

    fn to_pred(&self, n: u32, private: bool) -> u32 {
        if n & 7 != 0 && !self.pred(n) && private { B } else { 0 }
    }

    /// The six formats that both slots may hold; nothing where the word is none of them.
    fn alu(&self, w: u32) -> Option<u32> {
        let (rd, rs1, rs2) = (w >> 17 & 31, w >> 12 & 31, w >> 7 & 31);
        let guard = self.pred(w >> 27);
        let func = w & 15;
        if w >> 25 & 3 == 0 {
            return Some(self.to_reg(rd, guard || self.reg(rs1)));
        }
        if w >> 22 & 31 != 8 {
            return None;
        }
        match w >> 4 & 7 {
            0 if is_alu(func) => Some(self.to_reg(rd, guard || self.reg(rs1) || self.reg(rs2))),
            3 if func <= 6 => Some(self.to_pred(rd, guard || self.reg(rs1) || self.reg(rs2))),
            4 if func == 6 || func == 7 || func == 10 => Some(self.to_pred(rd, guard || self.pred(rs1) || self.pred(rs2))),
            5 => Some(self.to_reg(rd, guard || self.reg(rs1) || self.pred(func))),
            6 if func <= 6 => Some(self.to_pred(rd, guard || self.reg(rs1))),
            _ => None,
        }
    }

    fn first(&self, w: u32) -> Option<u32> {
        let (rd, rs1, rs2) = (w >> 17 & 31, w >> 12 & 31, w >> 7 & 31);
        let guard = self.pred(w >> 27);
        let a = if guard { A } else { 0 };
        let control = |private: bool| a | if private { E } else { 0 };
        match w >> 22 & 31 {
            8 if w >> 4 & 7 == 2 => {
                let public = !self.other(0) || !self.other(1);
                let private = guard || self.reg(rs1) || self.reg(rs2);
                if w & 15 > 1 {
                    return None;
                }
                Some(if public && private { B } else { 0 })
            }
            0..=8 => self.alu(w),
            9 => {
                let n = w & 15;
                if ![0, 2, 3, 5, 6, 7, 8, 9, 10].contains(&n) {
                    return None;
                }
                let private = guard || self.reg(rs1);
                let b = |public: bool| if public && private { B } else { 0 };
                match (w >> 4 & 7, n) {
                    (2, 0) => Some((1..8).map(|p| self.to_pred(p, private)).fold(0, |x, y| x | y)),
                    (2, 2) => Some(b(!self.other(0))),
                    (2, 3) => Some(b(!self.other(1))),
                    (2, _) => Some(a | b(true)),
                    (3, 0) => Some(self.to_reg(rd, guard || (0..8).any(|p| self.pred(p)))),
                    (3, 2) => Some(self.to_reg(rd, guard || self.other(0))),
                    (3, 3) => Some(self.to_reg(rd, guard || self.other(1))),
                    (3, _) => Some(self.to_reg(rd, guard)),
                    _ => None,
                }
            }
            10 => {
                if w >> 9 & 7 > 4 {
                    return None;
                }
                let c = if self.reg(rs1) { C } else { 0 };
                Some(c | self.to_reg(rd, guard || self.store(w >> 7)))
            }
            11 => {
                if w >> 19 & 7 > 2 {
                    return None;
                }
                let c = if self.reg(rs1) { C } else { 0 };
                let d = if !self.store(w >> 17) && (guard || self.reg(rs2)) { D } else { 0 };
                Some(c | d)
            }
            12 => match (w >> 18 & 3, w >> 20 & 1) {
                (0, _) => Some(control(false)),
                (1, 1) => Some(control(self.reg(rs1))),
                _ => None,
            },
            16..=22 => Some(control(false)), // 23 would be trap with bit 22
            24 | 25 => match w & 15 {
                0 | 1 => Some(control(false)),
                4 | 5 => Some(control(self.reg(rs1))),
                10 => Some(control(self.reg(rs1) || self.reg(rs2))),
                _ => None,
            },
            _ => None,
        }
    }
}

fn is_alu(func: u32) -> bool {
    func <= 7 || (11..=13).contains(&func)
}

/// The check of code under settings that are accepted.
pub fn check(code: &[u8], m: Marking) -> Found {
    if m.reg(0) || m.pred(0) {
        return Found { answer: 1, address: 0, letters: 0 };
    }
    let words: Vec<u32> = code.chunks(4).map(|b| u32::from_be_bytes([b[0], b[1], b[2], b[3]])).collect();
    let mut i = 0;
    while i < words.len() {
        let w = words[i];
        let address = 4 * i as u32;
        let letters = if w >> 31 == 0 {
            i += 1;
            m.first(w)
        } else {
            let Some(&x) = words.get(i + 1) else { return Found { answer: 2, address, letters: 0 } };
            i += 2;
            if w >> 22 & 31 == 31 {
                let long = w >> 4 & 7 == 0 && is_alu(w & 15);
                long.then(|| m.to_reg(w >> 17, m.pred(w >> 27) || m.reg(w >> 12)))
            } else if x >> 31 == 1 {
                None
            } else {
                m.first(w).zip(m.alu(x)).map(|(a, b)| a | b)
            }
        };
        match letters {
            None => return Found { answer: 3, address, letters: 0 },
            Some(0) => {}
            Some(letters) => return Found { answer: 9, address, letters },
        }
    }
    Found { answer: 0, address: 0, letters: 0 }
}
