//! How long the library's entries take, in one run beside the Rust as published and the Rust with its file answered from memory.
use crate::adapter::{self, Marks, Numbers, ToHir};
use crate::answer;
use crate::boundaries;
use crate::build::*;
use crate::image::{self, Block, Image, Name, SpanNo, Stmt, Ty, TyNo};
use crate::ours::{self, Lent};
use crate::random::Random;
use crate::speed::statements;
use oracle::atlas_c::atlas_hir::arena::HirArena;
use oracle::atlas_c::atlas_hir::ownership_pass::HirOwnershipPass;
use oracle::{ownership_probe, probe};
use std::time::Instant;

/// Medians for one body, in nanoseconds.
#[derive(Clone, Copy, Default)]
struct Times {
    pass: f64,
    room: f64,
    page: f64,
    published: f64,
    memory: f64,
}

/// Bodies of each size with each number of locals.
const BODIES: u64 = 3;

pub fn beside(runs: usize) {
    println!("ours beside the Rust, {BODIES} bodies of each kind, {runs} runs of each; nanoseconds for each statement, medians");
    let columns = [
        "locals",
        "bytes",
        "bytes out",
        "statements",
        "pass",
        "room",
        "page",
        "published",
        "from memory",
        "published/pass",
        "memory/pass",
        "page/pass",
    ];
    println!("{}", columns.map(|c| format!("{c:>16}")).concat());
    let mut all = vec![];
    for bytes in [200, 2_000, 20_000, 60_000] {
        for locals in [4, 16, 64] {
            all.extend(row(bytes, locals, runs));
        }
    }
    println!("with returns that grow it past 65,536 bytes:");
    for locals in [4, 16, 64] {
        line(locals, &[grown(60_000, locals)], runs);
    }
    let over = |f: fn(&Times) -> f64| median(all.iter().map(f).collect());
    let least = |f: fn(&Times) -> f64| all.iter().map(f).fold(f64::INFINITY, f64::min);
    println!(
        "over all {} bodies, medians: published/pass {:.1}, memory/pass {:.1}, room/pass {:.2}; least published/pass {:.1}, memory/pass {:.1}",
        all.len(),
        over(|t| t.published / t.pass),
        over(|t| t.memory / t.pass),
        over(|t| t.room / t.pass),
        least(|t| t.published / t.pass),
        least(|t| t.memory / t.pass),
    );
    for (half, locals) in [(10_000, 4), (10_000, 16), (10_000, 64), (30_000, 4), (30_000, 16), (30_000, 64)] {
        twice(half, locals, runs);
    }
    for (what, i) in boundaries::many_entries() {
        let mut m = Memory::new(&i);
        let [pass, page] = [Memory::pass, Memory::page].map(|f| median((0..runs).map(|_| f(&mut m)).collect()));
        println!("{what}, {} bytes: pass {:.3} ms, page {:.3} ms, {:.2}", m.image.len(), pass / 1e6, page / 1e6, page / pass);
    }
    for (what, i) in drops() {
        let mut m = Memory::new(&i);
        let pass = median((0..runs).map(|_| m.pass()).collect());
        println!("{what}, {} bytes: pass {:.1} us", m.image.len(), pass / 1e3);
    }
    let mut slow = Memory::new(&deep_types(58_000));
    let [pass, room] = [Memory::pass, Memory::room].map(|f| median((0..runs).map(|_| f(&mut slow)).collect()));
    println!("64 locals of a type as deep as may be, {} bytes: pass {:.2} ms, room {:.2} ms", slow.image.len(), pass / 1e6, room / 1e6);
}

/// The pass of an earlier library and this one's, each body by both in turn: the generated bodies, and those that spend their time on drops.
#[cfg(before)]
pub fn before(runs: usize) -> i32 {
    println!("{:>52}{:>8}{:>10}{:>14}{:>14}{:>8}", "body", "bytes", "bytes out", "before, us", "now, us", "ratio");
    for bytes in [200, 2_000, 20_000, 60_000] {
        for locals in [4, 16, 64] {
            beside_before(&format!("generated, {bytes} bytes, {locals} locals"), &generated(bytes, locals, 0), runs);
        }
    }
    for (what, i) in drops() {
        beside_before(&what, &i, runs);
    }
    beside_before("64 locals of a type as deep as may be", &deep_types(58_000), runs);
    0
}

#[cfg(before)]
fn beside_before(what: &str, i: &Image, runs: usize) {
    let mut m = Memory::new(i);
    let (mut old, mut new) = (vec![], vec![]);
    for run in 0..runs {
        // each comes first in every second run
        if run % 2 == 0 {
            old.push(m.timed(ours::pass_before));
        }
        new.push(m.pass());
        if run % 2 == 1 {
            old.push(m.timed(ours::pass_before));
        }
    }
    let (old, new) = (median(old), median(new));
    println!("{what:>52}{:>8}{:>10}{:>14.2}{:>14.2}{:>8.2}", m.image.len(), m.output.len(), old / 1e3, new / 1e3, new / old);
}

/// Bodies that are mostly drops (document 02, (b)): returns with 64 locals of which some live, and blocks of one local in one with 63 that live.
fn drops() -> Vec<(String, Image)> {
    let mut list = vec![];
    for (live, times) in [(1, 4_000), (8, 4_000), (64, 1_000)] {
        list.push((format!("64 locals, {live} live, {times} returns of a value"), living(64, live, times, || give(40, literal()))));
    }
    for live in [1, 8, 64] {
        list.push((format!("64 locals, {live} live, 4000 bare returns"), living(64, live, 4_000, || back(40))));
    }
    let own = || Stmt::Block(block(41, vec![set(42, V, T, literal())]));
    list.push(("63 live locals, 2000 blocks of one more".into(), living(63, 63, 2_000, own)));
    list
}

/// So many locals, of which some live, as far apart as can be; then a statement many times.
fn living(locals: usize, live: usize, times: usize, statement: impl Fn() -> Stmt) -> Image {
    let mut i = tables();
    let first = i.names.len() as Name;
    i.names.extend((0..locals).map(|k| format!("l{k}").into_bytes()));
    i.body.statements = (0..locals).map(|k| set(30, first + k as Name, T, literal())).collect();
    let gone = (0..locals).filter(|k| k % (locals / live) != 0);
    i.body.statements.extend(gone.map(|k| deletion(31, first + k as Name)));
    i.body.statements.extend((0..times).map(|_| statement()));
    i
}

/// The bodies of four sizes with 4 locals, the one of deep types and those of drops, a file each, for `reading.rs` and counts of instructions.
pub fn write_bodies(folder: &std::path::Path) -> i32 {
    let write = |name: String, i: &Image| std::fs::write(folder.join(name), image::write(i).bytes).unwrap();
    for bytes in [200, 2_000, 20_000, 60_000] {
        write(format!("generated-{bytes}"), &generated(bytes, 4, 0));
    }
    write("deep-types".into(), &deep_types(58_000));
    for (k, (_, i)) in drops().iter().enumerate() {
        write(format!("drops-{k}"), i);
    }
    0
}

/// 64 locals of a type that is inline arrays as deep as they go; then an assignment, an unused result and a bare return in turn.
fn deep_types(bytes: usize) -> Image {
    let mut i = tables();
    while i.types.len() < 256 {
        i.types.push(Ty::Array(if i.types.len() == 3 { T } else { i.types.len() as TyNo - 1 }));
    }
    let (first, deep) = (i.names.len() as Name, 255);
    i.names.extend((0..64).map(|k| format!("l{k}").into_bytes()));
    i.body.statements = (0..64).map(|k| set(30, first + k, deep, literal())).collect();
    let mut k = 0;
    while image::write(&i).bytes.len() < bytes {
        let some = (0..50).flat_map(|_| {
            k += 1;
            [assign(31, ident(32, first + k % 64), literal()), run(33, call(34, deep, literal(), vec![])), back(35)]
        });
        i.body.statements.extend(some);
    }
    i
}

// Time at twice the size over the time, both in each run.
fn twice(half: usize, locals: usize, runs: usize) {
    let memory = |bytes| (0..BODIES).map(|seed| Memory::new(&generated(bytes, locals, seed))).collect::<Vec<_>>();
    let (mut once, mut double) = (memory(half), memory(2 * half));
    let (mut pass, mut room) = (vec![], vec![]);
    for _ in 0..runs {
        for (a, b) in once.iter_mut().zip(&mut double) {
            pass.push(b.pass() / a.pass());
            room.push(b.room() / a.room());
        }
    }
    println!("{} bytes over {half}, {locals} locals: pass {:.2}, room {:.2}", 2 * half, median(pass), median(room));
}

fn row(bytes: usize, locals: usize, runs: usize) -> Vec<Times> {
    let bodies: Vec<_> = (0..BODIES).map(|seed| generated(bytes, locals, seed)).collect();
    line(locals, &bodies, runs)
}

fn line(locals: usize, bodies: &[Image], runs: usize) -> Vec<Times> {
    let all: Vec<_> = bodies.iter().map(|i| times(i, runs)).collect();
    let count: usize = bodies.iter().map(|i| statements(&i.body)).sum();
    let [bytes, out] = [0, 1].map(|k| bodies.iter().map(|i| lengths(i)[k]).sum::<usize>() / bodies.len());
    let sum = |f: fn(&Times) -> f64| all.iter().map(f).sum::<f64>();
    let each = |f: fn(&Times) -> f64| format!("{:>16.0}", sum(f) / count as f64);
    let (pass, published, memory) = (sum(|t| t.pass), sum(|t| t.published), sum(|t| t.memory));
    println!(
        "{locals:>16}{bytes:>16}{out:>16}{:>16}{}{}{}{}{}{:>16.1}{:>16.1}{:>16.2}",
        count / bodies.len(),
        each(|t| t.pass),
        each(|t| t.room),
        each(|t| t.page),
        each(|t| t.published),
        each(|t| t.memory),
        published / pass,
        memory / pass,
        sum(|t| t.page) / pass
    );
    all
}

// Bytes of the image and of the one given back.
fn lengths(i: &Image) -> [usize; 2] {
    let bytes = image::write(i).bytes;
    [bytes.len(), answer::of_bytes(&bytes).unwrap().unwrap().output.len()]
}

// Each run takes all four in turn.
fn times(image: &Image, runs: usize) -> Times {
    let names = answer::texts(image);
    let arena = HirArena::new();
    let numbers = Numbers::of(image, &names, &arena);
    let signature = adapter::signature(image, &numbers, &arena);
    let params = adapter::params(image, &numbers);
    let hir = || ToHir { numbers: &numbers, marks: Marks::default() }.block(&image.body);
    let mut lent = Memory::new(image);
    let mut lists = [const { vec![] }; 5];
    for _ in 0..runs {
        lists[0].push(lent.pass());
        lists[1].push(lent.room());
        lists[4].push(lent.page());
        let (mut pass, mut body) = (HirOwnershipPass::new(&arena, &signature), hir());
        let start = Instant::now();
        pass.body(&mut body, &params);
        lists[2].push(start.elapsed().as_nanos() as f64);
        let (mut pass, mut body) = (ownership_probe::HirOwnershipPass::new(&arena, &signature), hir());
        let start = Instant::now();
        pass.body(&mut body, &params);
        lists[3].push(start.elapsed().as_nanos() as f64);
        probe::taken();
    }
    let [pass, room, published, memory, page] = lists.map(median);
    Times { pass, room, page, published, memory }
}

fn median(mut list: Vec<f64>) -> f64 {
    list.sort_by(f64::total_cmp);
    list[list.len() / 2]
}

/// An image, and memory enough for its answer.
struct Memory {
    image: Vec<u8>,
    output: Vec<u8>,
    lists: [Vec<u32>; 3],
    page: Vec<u8>,
}

impl Memory {
    fn new(tree: &Image) -> Self {
        let image = image::write(tree).bytes;
        let mut room = 0;
        assert_eq!(ours::room(None, &image, &mut room), 0);
        Memory { image, output: vec![0; room as usize], lists: [1 << 20; 3].map(|n| vec![0; n]), page: vec![0; 1 << 26] }
    }

    fn pass(&mut self) -> f64 {
        self.timed(|image, lent| ours::pass(None, image, lent))
    }

    fn timed(&mut self, pass: fn(&[u8], Lent<'_>) -> u32) -> f64 {
        let mut totals = [0; 4];
        let [errors, warnings, left] = &mut self.lists;
        let lent = Lent { output: &mut self.output, errors, warnings, left, totals: &mut totals };
        let start = Instant::now();
        let answer = pass(&self.image, lent);
        let time = start.elapsed().as_nanos() as f64;
        assert_eq!(answer, 0);
        time
    }

    fn page(&mut self) -> f64 {
        let mut written = 0;
        let start = Instant::now();
        let answer = ours::page(None, &self.image, &mut self.page, &mut written);
        let time = start.elapsed().as_nanos() as f64;
        assert_eq!(answer, 0);
        time
    }

    fn room(&mut self) -> f64 {
        let mut room = 0;
        let start = Instant::now();
        let answer = ours::room(None, &self.image, &mut room);
        let time = start.elapsed().as_nanos() as f64;
        assert_eq!(answer, 0);
        time
    }
}

/// A body of about so many bytes with so many locals, parameters among them: uses, moves, consuming calls, deletes and assignments,
/// branches and loops three deep. What a branch gives up is assigned again after it, so few errors come of it.
struct Body {
    random: Random,
    first: Name,
    locals: usize,
    span: SpanNo,
    /// the locals that are given up
    gone: Vec<Name>,
}

fn generated(bytes: usize, locals: usize, seed: u64) -> Image {
    let mut i = tables();
    let first = i.names.len() as Name;
    i.names.extend((0..locals).map(|k| format!("l{k}").into_bytes()));
    i.entry.params = (0..locals.min(16)).map(|k| (first + k as Name, T)).collect();
    let mut body = Body { random: Random::new(seed), first, locals, span: 100, gone: vec![] };
    i.body.statements = (16..locals).map(|k| set(body.at(), first + k as Name, T, literal())).collect();
    let mut length = image::write(&i).bytes.len();
    while length < bytes {
        let more = body.statements(0);
        length += image::write(&Image { body: block(0, more.clone()), ..Image::default() }).bytes.len() - EMPTY;
        i.body.statements.extend(more);
    }
    i
}

/// The bytes of an image of nothing.
const EMPTY: usize = 22;

// With a return of a local in many branches.
fn grown(bytes: usize, locals: usize) -> Image {
    let mut i = generated(bytes - 2_000, locals, 0);
    let first = i.names.len() as Name - locals as Name;
    let returns = |k: usize| when(20, block(21, vec![give(22, ident(23, first + (k % locals) as Name))]), None);
    i.body.statements.extend((0..40).map(returns));
    while answer::of_bytes(&image::write(&i).bytes).unwrap().unwrap().output.len() <= 65_536 {
        i.body.statements.extend((0..5).map(returns));
    }
    i
}

impl Body {
    fn at(&mut self) -> SpanNo {
        self.span += 1;
        self.span
    }

    fn name(&mut self) -> Name {
        self.first + self.random.below(self.locals) as Name
    }

    /// A local that is held.
    fn held(&mut self) -> Name {
        let names: Vec<_> = (0..4).map(|_| self.name()).collect();
        names.iter().copied().find(|n| !self.gone.contains(n)).unwrap_or(names[0])
    }

    fn used(&mut self) -> crate::image::Expr {
        let (at, name) = (self.at(), self.held());
        ident(at, name)
    }

    fn statements(&mut self, depth: usize) -> Vec<Stmt> {
        let at = self.at();
        match self.random.below(100) {
            0..40 => {
                let args = (0..self.random.between(1, 3)).map(|_| self.used()).collect();
                vec![run(at, call(at, PLAIN, literal(), args))]
            }
            40..55 => {
                let target = self.used();
                vec![run(at, call(at, PLAIN, field(at, target, W), vec![literal()]))]
            }
            55..63 => vec![assign(at, field(at, this(at), W), literal())],
            63..75 => self.given_up(at),
            75..85 => self.taken_back(at),
            85..95 if depth < 3 => self.branch(at, depth),
            95..97 if depth < 3 => {
                let body = self.block(at, depth);
                let given = self.gone.clone();
                self.all_back(vec![repeat(at, body)], &given)
            }
            97 => vec![run(at, call(at, T, literal(), vec![]))],
            98 if depth > 1 => vec![give(at, literal())],
            _ => vec![run(at, call(at, PLAIN, literal(), vec![self.used()]))],
        }
    }

    fn given_up(&mut self, at: SpanNo) -> Vec<Stmt> {
        let name = self.held();
        if self.gone.contains(&name) {
            return self.taken_back(at);
        }
        self.gone.push(name);
        vec![match self.random.below(4) {
            0 => deletion(at, name),
            1 => run(at, call(at, PLAIN, field(at, ident(at, name), TAKE), vec![])),
            _ => moving(at, ident(at, name)),
        }]
    }

    fn taken_back(&mut self, at: SpanNo) -> Vec<Stmt> {
        match self.gone.pop() {
            Some(name) => vec![assign(at, ident(at, name), literal())],
            None => vec![run(at, call(at, PLAIN, literal(), vec![self.used()]))],
        }
    }

    fn branch(&mut self, at: SpanNo, depth: usize) -> Vec<Stmt> {
        let before = self.gone.clone();
        let then = self.block(at, depth);
        let mut given = std::mem::replace(&mut self.gone, before);
        let other = self.random.chance(50).then(|| self.block(at, depth));
        given.extend(&self.gone);
        self.all_back(vec![when(at, then, other)], &given)
    }

    fn block(&mut self, at: SpanNo, depth: usize) -> Block {
        block(at, (0..self.random.between(1, 4)).flat_map(|_| self.statements(depth + 1)).collect())
    }

    // Everything given up is assigned, so that a later join gathers no ninth place.
    fn all_back(&mut self, mut list: Vec<Stmt>, given: &[Name]) -> Vec<Stmt> {
        let mut names: Vec<_> = given.iter().chain(&self.gone).copied().collect();
        names.sort();
        names.dedup();
        for name in names {
            let at = self.at();
            list.push(assign(at, ident(at, name), literal()));
        }
        self.gone.clear();
        list
    }
}
