//! What the tests share: the stored images, and generated ones, built as bytes without the code under test.
#![allow(dead_code)]

use std::collections::BTreeSet;
use std::path::PathBuf;

/// A file of the repository.
pub fn repository(path: &str) -> Vec<u8> {
    let root = PathBuf::from(env!("CARGO_MANIFEST_DIR")).join("../..");
    std::fs::read(root.join(path)).unwrap()
}

pub fn case(name: &str) -> Vec<u8> {
    repository(&format!("tools/image-text/tests/cases/{name}"))
}

/// The stored images with their labels and outcomes: 0 if accepted, else the fault.
pub fn stored() -> Vec<(String, u8, Vec<u8>)> {
    let (data, lines) = (repository("crates/programs_faults/data/images"), repository("crates/programs_faults/stdout"));
    let lines = String::from_utf8(lines).unwrap();
    let mut rest = &data[..];
    let mut take = |n: usize| {
        let (taken, after) = rest.split_at(n);
        rest = after;
        taken.to_vec()
    };
    let found = lines.lines().map(|line| {
        let length = take(1)[0].into();
        let label = String::from_utf8(take(length)).unwrap();
        let length = u32::from_be_bytes(take(4).try_into().unwrap());
        let outcome = line.strip_prefix(&label).unwrap().trim();
        let fault = outcome.strip_prefix("refused ").map_or(0, |n| n.parse().unwrap());
        (label, fault, take(length as usize))
    });
    found.collect()
}

/// Numbers that look random (splitmix64).
pub struct Random(pub u64);

impl Random {
    pub fn next(&mut self) -> u64 {
        self.0 = self.0.wrapping_add(0x9e37_79b9_7f4a_7c15);
        let mut z = self.0;
        z = (z ^ z >> 30).wrapping_mul(0xbf58_476d_1ce4_e5b9);
        z = (z ^ z >> 27).wrapping_mul(0x94d0_49bb_1331_11eb);
        z ^ z >> 31
    }

    pub fn below(&mut self, n: usize) -> usize {
        (self.next() % n as u64) as usize
    }

    pub fn one_in(&mut self, n: usize) -> bool {
        self.below(n) == 0
    }
}

const NAMES: [&[u8]; 30] = [
    b"x", b"v", b"T", b"std::move", b"__tmp0", b"plain", b"literal", b"static", b"delete", b"noop", b"obj", b"intrinsic", b"size", b"op",
    b"as", b"shape", b"destructor", b"names", b"This", b"a b", b"a::", b"::a", b"1", b"\"", b"\\x41", b"A", b"\n", b"\xc3\xa9", b"\xff\x00", b"//",
];

/// Builds one image free of faults 1 to 11.
pub struct Builder {
    random: Random,
    names: usize,
    types: usize,
    // Types that a receiver may have: not generic, not behind pointers either.
    receivers: Vec<usize>,
    out: Vec<u8>,
    // Nodes that may still be made.
    budget: usize,
}

pub fn generated(seed: u64) -> Vec<u8> {
    let mut random = Random(seed);
    let budget = [5, 20, 40, 40, 40, 80, 80, 100, 200, 3000][random.below(10)];
    let mut b = Builder { random, names: 0, types: 0, receivers: vec![], out: vec![0, 0, 0, 0, 1], budget };
    b.tables();
    b.entry();
    b.block(1);
    let length = (b.out.len() - 4) as u32;
    b.out[..4].copy_from_slice(&length.to_be_bytes());
    assert!(b.out.len() <= 65_536);
    b.out
}

impl Builder {
    fn short(&mut self, n: usize) {
        self.out.extend((n as u16).to_be_bytes());
    }

    fn span(&mut self) {
        let span = match self.random.below(4) {
            0 => 0,
            1 => u32::MAX - self.random.below(3) as u32,
            _ => self.random.below(2000) as u32,
        };
        self.out.extend(span.to_be_bytes());
    }

    fn shape(&mut self) {
        let shape = [0, 1, 2, 65_535][self.random.below(4)];
        self.short(shape);
    }

    fn name(&mut self) {
        let name = self.random.below(self.names);
        self.short(name);
    }

    fn ty(&mut self) {
        let ty = if self.random.one_in(3) { 0 } else { self.random.below(self.types) };
        self.short(ty);
    }

    fn name_list(&mut self) -> Vec<Vec<u8>> {
        let count = if self.random.one_in(50) { 512 } else { 1 + self.random.below(12) };
        let mut list = vec![b"this".to_vec()];
        while list.len() < count {
            let most = if self.random.one_in(8) { 64 } else { 4 };
            let length = 1 + self.random.below(most);
            let bytes = match self.random.below(3) {
                0 => NAMES[self.random.below(NAMES.len())].to_vec(),
                1 => (0..length).map(|_| b"ab_:1 "[self.random.below(6)]).collect(),
                _ => (0..length).map(|_| self.random.below(256) as u8).collect(),
            };
            if !list.contains(&bytes) {
                list.push(bytes);
            }
        }
        list
    }

    fn tables(&mut self) {
        let names = self.name_list();
        self.names = names.len();
        self.short(names.len());
        for name in &names {
            self.out.push(name.len() as u8);
            self.out.extend(name);
        }
        self.type_table();
        self.structs(&names);
        let globals = self.some_names(names.len().min(5));
        self.short(globals.len());
        for name in globals {
            self.short(name);
            self.span();
        }
    }

    fn type_table(&mut self) {
        let count = if self.random.one_in(50) { 256 } else { 1 + self.random.below(12) };
        self.short(count);
        let mut generic = vec![];
        for number in 0..count {
            let kind = if number == 0 { 0 } else { self.random.below(5) };
            let inner = self.random.below(number.max(1));
            self.out.push(kind as u8);
            match kind {
                0 => {}
                1 => self.name(),
                2 => {
                    self.name();
                    self.shape();
                }
                _ => self.short(inner),
            }
            generic.push(kind == 2 || kind == 4 && generic[inner]);
        }
        self.types = count;
        self.receivers = (0..count).filter(|n| !generic[*n]).collect();
    }

    // Numbers of up to that many names, none twice.
    fn some_names(&mut self, most: usize) -> Vec<usize> {
        let wanted = self.random.below(most + 1);
        let set: BTreeSet<usize> = (0..wanted).map(|_| self.random.below(self.names)).collect();
        let mut list: Vec<usize> = set.into_iter().collect();
        let turn = self.random.below(list.len().max(1));
        list.rotate_left(turn);
        list
    }

    fn structs(&mut self, names: &[Vec<u8>]) {
        let mut list = self.some_names(5);
        list.sort_by(|a, b| names[*a].cmp(&names[*b]));
        self.short(list.len());
        for name in list {
            self.short(name);
            let flag = self.random.below(2) as u8;
            self.out.push(flag);
            self.shape();
            let methods = self.some_names(4);
            self.short(methods.len());
            for method in methods {
                self.short(method);
                let modifier = self.random.below(4) as u8;
                self.out.push(modifier);
            }
        }
    }

    fn entry(&mut self) {
        let receiver = self.random.below(5) as u8;
        self.out.push(receiver);
        if receiver >= 2 {
            self.ty();
        }
        let count = self.random.below(17);
        self.short(count);
        for _ in 0..count {
            self.name();
            self.ty();
        }
    }

    fn block(&mut self, depth: usize) {
        self.span();
        let count = self.random.below(if depth == 1 { 12 } else { 5 });
        let count = if depth == 1 && self.budget >= 3000 { 300 } else { count };
        self.short(count);
        (0..count).for_each(|_| self.statement(depth));
    }

    fn statement(&mut self, depth: usize) {
        self.budget = self.budget.saturating_sub(1);
        let tag = loop {
            let tag = 1 + self.random.below(10);
            if !matches!(tag, 1 | 7 | 8) || depth < 12 && self.budget > 0 {
                break tag;
            }
        };
        self.out.push(tag as u8);
        if tag == 1 {
            return self.block(depth + 1);
        }
        self.span();
        let flag = self.random.below(2) as u8;
        match tag {
            2 => {
                self.out.push(flag);
                (0..flag).for_each(|_| self.expr(1, false));
                self.ty();
            }
            3 => self.expr(1, false),
            4 | 5 => {
                self.name();
                self.ty();
                self.expr(1, false);
            }
            6 => {
                self.expr(1, false);
                self.expr(1, false);
                self.ty();
            }
            7 => {
                self.expr(1, false);
                self.block(depth + 1);
                self.out.push(flag);
                (0..flag).for_each(|_| self.block(depth + 1));
            }
            8 => {
                self.expr(1, false);
                self.block(depth + 1);
            }
            _ => {}
        }
    }

    // In a callee no type is generic.
    fn expr(&mut self, depth: usize, callee: bool) {
        self.budget = self.budget.saturating_sub(1);
        let leaf = depth == 24 || self.budget == 0;
        let tag = if leaf { [1, 2, 13, 15][self.random.below(4)] } else { 1 + self.random.below(15) };
        self.out.push(tag as u8);
        self.span();
        match (tag, callee) {
            (10, _) => self.short(0),
            (_, true) => {
                let ty = self.receivers[self.random.below(self.receivers.len())];
                self.short(ty);
            }
            _ => self.ty(),
        }
        let operator = if self.random.one_in(2) { 0 } else { self.random.below(5) as u8 };
        match tag {
            1 => self.name(),
            3 => {
                self.out.push(operator);
                self.expr(depth + 1, callee);
            }
            4 | 8 | 10 => self.expr(depth + 1, callee),
            5 | 12 => {
                self.expr(depth + 1, callee);
                self.expr(depth + 1, callee);
            }
            6 => {
                self.expr(depth + 1, true);
                self.items(depth, callee);
            }
            7 | 9 => self.items(depth, callee),
            11 => {
                self.expr(depth + 1, callee);
                self.name();
            }
            14 => {
                self.name();
                self.items(depth, callee);
            }
            _ => {}
        }
    }

    fn items(&mut self, depth: usize, callee: bool) {
        let count = self.random.below(5);
        self.short(count);
        (0..count).for_each(|_| self.expr(depth + 1, callee));
    }
}
