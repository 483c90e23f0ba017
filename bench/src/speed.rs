//! How long the Rust pass takes: as published, reading a file at each use of a tracked name, and with the file answered from memory.
//! The adapter's work is not in it.
use crate::adapter::{self, Marks, Numbers, ToHir};
use crate::build::*;
use crate::image::{Image, SpanNo, Stmt};
use crate::{answer, generator};
use oracle::atlas_c::atlas_hir::arena::HirArena;
use oracle::atlas_c::atlas_hir::ownership_pass::HirOwnershipPass;
use oracle::{ownership_probe, probe};
use std::time::Instant;

pub fn speed(runs: usize) {
    println!("the Rust pass, {runs} runs of each body; nanoseconds for each statement: median, worst");
    println!("{:>28} {:>12} {:>22} {:>22}", "body", "statements", "as published", "file from memory");
    for n in [10, 100, 1000, 4000] {
        line(&format!("{n} statements, 8 locals"), &straight(n, 8), runs);
    }
    for locals in [1, 16, 64] {
        line(&format!("1000 statements, {locals} locals"), &straight(1000, locals), runs);
    }
    for depth in [1, 4, 11] {
        line(&format!("branches {depth} deep"), &branches(depth), runs);
    }
    let medium = (0..).map(generator::image).find(|i| (100..200).contains(&statements(&i.body)) && answer::of_image(i).is_ok()).unwrap();
    line("a generated body", &medium, runs);
}

fn line(label: &str, image: &Image, runs: usize) {
    let count = statements(&image.body);
    let show = |(median, worst): (f64, f64)| format!("{:.0}, {:.0}", median / count as f64, worst / count as f64);
    let names = answer::texts(image);
    let arena = HirArena::new();
    let numbers = Numbers::of(image, &names, &arena);
    let signature = adapter::signature(image, &numbers, &arena);
    let params = adapter::params(image, &numbers);
    let hir = || ToHir { numbers: &numbers, marks: Marks::default() }.block(&image.body);
    let published = times(runs, || {
        let (mut pass, mut body) = (HirOwnershipPass::new(&arena, &signature), hir());
        let start = Instant::now();
        pass.body(&mut body, &params);
        start.elapsed().as_nanos() as f64
    });
    let memory = times(runs, || {
        let (mut pass, mut body) = (ownership_probe::HirOwnershipPass::new(&arena, &signature), hir());
        let start = Instant::now();
        pass.body(&mut body, &params);
        let time = start.elapsed().as_nanos() as f64;
        probe::taken();
        time
    });
    println!("{label:>28} {count:>12} {:>22} {:>22}", show(published), show(memory));
}

// Median and worst.
fn times(runs: usize, mut run: impl FnMut() -> f64) -> (f64, f64) {
    let mut list: Vec<f64> = (0..runs).map(|_| run()).collect();
    list.sort_by(f64::total_cmp);
    (list[runs / 2], list[runs - 1])
}

pub fn statements(block: &crate::image::Block) -> usize {
    let inner = |s: &Stmt| match s {
        Stmt::Block(b) | Stmt::While { body: b, .. } => statements(b),
        Stmt::IfElse { then, other, .. } => statements(then) + other.as_ref().map_or(0, statements),
        _ => 0,
    };
    block.statements.iter().map(|s| 1 + inner(s)).sum()
}

// So many locals with names of their own, then uses, moves and assignments of them in turn.
fn straight(n: usize, locals: usize) -> Image {
    let mut i = tables();
    let first = i.names.len() as u16;
    i.names.extend((0..locals).map(|k| format!("local{k}").into_bytes()));
    let name = |k: usize| first + (k % locals) as u16;
    let statement = |k: usize| {
        let at = 100 + k as SpanNo;
        match k % 4 {
            _ if k < locals => set(at, name(k), T, literal()),
            0 | 1 => run(at, call(at, PLAIN, literal(), vec![ident(at, name(k))])),
            2 => moving(at, ident(at, name(k))),
            _ => assign(at, ident(at, name(k - 1)), literal()),
        }
    };
    i.body.statements = (0..n).map(statement).collect();
    i
}

// Branches in branches, with 8 locals to copy and join.
fn branches(depth: usize) -> Image {
    let mut i = straight(8, 8);
    let mut inner = vec![run(50, ident(51, 8))];
    for d in 0..depth {
        let at = 60 + d as SpanNo;
        inner = vec![when(at, block(at, inner), Some(block(at, vec![moving(at, ident(at, 8 + (d % 8) as u16))]))), run(at, ident(at, 8))];
    }
    i.body.statements.extend(inner);
    i
}
