//! Images at the limits of document 01, and one past each.
use crate::build::*;
use crate::image::*;

pub fn all() -> Vec<(String, Image)> {
    let mut list: Vec<(String, Image)> = vec![];
    let mut add = |label: String, image: Image| list.push((label, image));
    for n in [64, 65] {
        add(format!("{n} locals"), body(&[], locals(n)));
        add(format!("{n} locals in two frames"), body(&[], [locals(n - 1), vec![Stmt::Block(block(20, locals(1)))]].concat()));
        add(format!("{n} locals and this and parameters"), {
            let mut i = body(&[V; 16], locals(n - 17));
            (i.entry.receiver, i.entry.this) = (4, T);
            i
        });
        add(format!("{n} locals after a frame was closed"), body(&[], [vec![Stmt::Block(block(20, locals(40)))], locals(n)].concat()));
        add(format!("{n} locals after a return"), body(&[], [vec![back(20)], locals(n)].concat()));
    }
    for n in [8, 9] {
        add(format!("{n} places by ifs"), body(&[V], [chain(n), vec![run(90, ident(91, V))]].concat()));
        add(format!("{n} places by a tree"), body(&[V], vec![tree(n, 100), run(90, ident(91, V))]));
        add(format!("{n} places consumed"), body(&[V], [consumed(n), vec![run(90, ident(91, V))]].concat()));
        add(format!("{n} places in a loop"), body(&[V], vec![repeat(20, block(21, chain(n)))]));
        add(
            format!("{n} places in a branch that returns"),
            body(&[V], vec![when(20, block(21, [chain(n), vec![back(22)]].concat()), None)]),
        );
        add(format!("{n} places before 65 locals"), body(&[V], [chain(n), locals(64)].concat()));
        add(format!("65 locals before {n} places"), body(&[V], [locals(64), chain(n)].concat()));
    }
    // the ninth place comes where a branch returns, so no join is made of it
    add(
        "8 places and a ninth, returning: no else".into(),
        body(&[V], [chain(8), vec![when(20, block(21, vec![moving(22, ident(23, V)), back(24)]), None)]].concat()),
    );
    let moved = |returns: bool| block(21, [vec![moving(22, ident(70, V))], vec![back(23); returns as usize]].concat());
    let kept = |returns: bool| block(24, vec![back(25); returns as usize]);
    for (label, then, other) in [
        ("then", moved(true), kept(false)),
        ("else", kept(false), moved(true)),
        ("both", moved(true), kept(true)),
        ("neither", moved(false), kept(false)),
    ] {
        let last = when(20, then, Some(other));
        add(format!("8 places and a ninth, returning: {label}"), body(&[V], [chain(8), vec![last]].concat()));
    }
    add("8 places, one again".into(), body(&[V], [chain(8), chain(8), vec![run(90, ident(91, V))]].concat()));
    for n in [12, 13] {
        add(format!("blocks {n} deep"), Image { body: nested(n), ..tables() });
        add(format!("loops {n} deep"), Image { body: looped(n), ..tables() });
    }
    for n in [24, 25] {
        add(format!("expressions {n} deep"), body(&[V], vec![run(20, deep(n, ident(21, V)))]));
        add(format!("unused result {n} deep"), body(&[V], vec![run(20, deep_call(n))]));
    }
    for n in [256, 257] {
        add(format!("{n} errors"), body(&[V], [vec![deletion(20, V)], (0..n).map(|i| run(21, ident(i as SpanNo, V))).collect()].concat()));
        add(format!("{n} warnings"), body(&[], (0..n).map(|i| run(i as SpanNo, call(21, T, literal(), vec![]))).collect()));
        add(format!("{n} left behind"), body(&[V], (0..n).map(|i| back(i as SpanNo)).collect()));
        let breaks = (0..n).map(|i| Stmt::Break(i as SpanNo)).collect();
        add(format!("{n} left behind by breaks"), body(&[], vec![repeat(20, block(21, [locals(1), breaks].concat()))]));
    }
    let births = |spans: &[SpanNo]| spans.iter().map(|span| set(*span, V, T, literal())).chain([back(20)]).collect::<Vec<_>>();
    add("births 0, 1 and 4,294,967,295".into(), body(&[V], births(&[0, 1, SpanNo::MAX])));
    add("64 births of one name".into(), body(&[], births(&(100..164).collect::<Vec<_>>())));
    add(
        "257 errors and too long".into(),
        body(&[], [locals(64), vec![moving(21, ident(22, V)); 258], vec![give(20, literal()); 1000]].concat()),
    );
    for total in [65_535, 65_536, 65_537] {
        add(format!("{total} bytes"), long(total));
    }
    // a block of some locals in one with the rest of 64: at its end the outer ones are masked off, all of them where it has none
    for own in [0, 1, 2, 32, 63, 64] {
        let inner = Stmt::Block(block(23, locals(own)));
        let last = Stmt::Block(block(24, [locals(own), vec![back(25)]].concat()));
        add(
            format!("{own} of 64 locals in a block"),
            body(&[], [locals(64 - own), vec![inner.clone(), deletion(26, V), inner, last]].concat()),
        );
    }
    // as many in a loop: those outside it are masked off at a break or continue, and all of them behind it
    for own in [0, 1, 2, 32, 63, 64] {
        let last = vec![Stmt::Break(25), Stmt::Block(block(26, vec![Stmt::Continue(27)]))];
        let inner = repeat(22, block(23, [locals(own), last].concat()));
        add(
            format!("{own} of 64 locals in a loop"),
            body(&[], [locals(64 - own), vec![inner.clone(), deletion(28, V), inner, Stmt::Break(29)]].concat()),
        );
    }
    // 64 locals and so many returns: 64 deletes before each
    let returns = |n| body(&[], [locals(64), vec![give(20, literal()); n]].concat());
    add("65,535 statements or fewer out".into(), returns((65_535 - 64) / 65));
    add("over 65,535 statements out".into(), returns((65_535 - 64) / 65 + 1));
    for total in [65_535, 65_536, 65_537] {
        add(format!("{total} bytes out"), grown(total));
    }
    list
}

/// Around the sizes of the memory that the library has of its own: for images of at most 512 bytes 1,024 bytes, 8 errors, 17 entries of the
/// other lists and rows for 32 joined states; for images of at most 2,048 bytes 4,096 bytes, 32 entries a list and rows for 128; for images
/// of at most 16,384 bytes 32,768 bytes, 256 entries and rows for 512; for longer ones 65,536 bytes, 512 entries and rows for 1,472. Where
/// one does not reach, the next is tried.
pub fn own_memory() -> Vec<(String, Image)> {
    let mut list: Vec<(String, Image)> = vec![];
    for total in (510..515).chain(2_046..2_051).chain(16_382..16_387) {
        list.push((format!("{total} bytes"), long(total)));
    }
    // 16 parameters of one name, given up in two branches, so that each has two places; then ifs with else in one another
    for deep in 0..12 {
        let gone = |span| when(20, block(21, vec![deletion(span, V)]), None);
        let mut inner = vec![deletion(24, V)];
        for _ in 0..deep {
            inner = vec![when(25, block(26, vec![deletion(27, V)]), Some(block(28, inner)))];
        }
        list.push((format!("joined states, ifs {deep} deep"), body(&[V; 16], [vec![gone(22), gone(23)], inner].concat())));
    }
    for n in [7, 8, 9, 16, 17, 18, 31, 32, 33, 255, 256, 257, 511, 512, 513] {
        let errors = (0..n).map(|i| run(21, ident(i as SpanNo, V))).collect();
        list.push((format!("{n} errors, own memory"), body(&[V], [vec![deletion(20, V)], errors].concat())));
        let warnings = (0..n).map(|i| run(i as SpanNo, call(21, T, literal(), vec![]))).collect();
        list.push((format!("{n} warnings, own memory"), body(&[], warnings)));
        list.push((format!("{n} left behind, own memory"), body(&[V], (0..n).map(|i| back(i as SpanNo)).collect())));
    }
    // 32 locals and returns of a literal: 32 deletes before each
    for total in (4_090..4_102).chain(32_762..32_774) {
        let returns = if total < 8_192 { 3 } else { 40 };
        let mut i = body(&[], [locals(32), vec![give(20, literal()); returns]].concat());
        let length = write(&i).bytes.len() + 21 * 32 * (returns + 1);
        i.names.extend((0..(total - length) / 60).map(|n| format!("{n:059}").into_bytes()));
        let rest = (total - length) % 60;
        i.names.extend((rest > 1).then(|| vec![b'x'; rest - 1]));
        list.push((format!("about {total} bytes out"), i));
    }
    list
}

/// The deepest that is accepted: 12 blocks, in each an expression 24 deep, and 64 locals, by each way to nest; short of 2,048 bytes, over
/// them and over 16,384, each of which has memory of its own size, and with a local whose type is inline arrays as deep as they go.
pub fn deepest() -> Vec<(String, Image)> {
    let mut list: Vec<(String, Image)> = vec![];
    for (label, way) in [("blocks", 0), ("then", 1), ("else", 2), ("loops", 3), ("each in turn", 4)] {
        for (size, lets, arrays, more) in [("short", 4, 0, 0), ("long", 64, 0, 0), ("deep type", 64, 253, 0), ("longest", 64, 253, 300)] {
            let mut tables = body(&[V, W], vec![]);
            tables.names.extend((0..more).map(|n| format!("{n:059}").into_bytes()));
            let mut types = tables.types.clone();
            (0..arrays).for_each(|_| types.push(Ty::Array(if types.len() == 3 { T } else { types.len() as TyNo - 1 })));
            let last = set(29, W, if arrays == 0 { T } else { types.len() as TyNo - 1 }, literal());
            let mut inner = block(20, [locals(lets - 3), vec![last, run(20, deep_call(24)), give(21, deep(24, ident(22, V)))]].concat());
            for depth in (1..12).rev() {
                let statement = match if way == 4 { depth % 4 } else { way } {
                    0 => Stmt::Block(inner),
                    1 => Stmt::IfElse { span: 23, condition: deep(24, ident(24, V)), then: inner, other: None },
                    2 => Stmt::IfElse { span: 23, condition: literal(), then: block(25, vec![]), other: Some(inner) },
                    _ => Stmt::While { span: 23, condition: deep(24, ident(24, V)), body: inner },
                };
                inner = block(26, vec![statement]);
            }
            list.push((format!("deepest, {label}, {size}"), Image { types, body: inner, ..tables }));
        }
    }
    list
}

fn locals(n: usize) -> Vec<Stmt> {
    (0..n).map(|i| set(30 + i as SpanNo, if i == 0 { V } else { W }, T, literal())).collect()
}

fn chain(n: usize) -> Vec<Stmt> {
    (0..n).map(|i| when(20, block(21, vec![moving(22, ident(50 + i as SpanNo, V))]), None)).collect()
}

fn consumed(n: usize) -> Vec<Stmt> {
    let take = |i| run(22, call(23, PLAIN, field(50 + i as SpanNo, ident(24, V), TAKE), vec![]));
    (0..n).map(|i| when(20, block(21, vec![take(i)]), None)).collect()
}

// An if and else of n moves at n places.
fn tree(n: usize, first: SpanNo) -> Stmt {
    if n == 1 {
        return moving(22, ident(first, V));
    }
    let half = n / 2;
    when(20, block(21, vec![tree(half, first)]), Some(block(21, vec![tree(n - half, first + half as SpanNo)])))
}

fn nested(n: usize) -> Block {
    let inner = if n == 1 { locals(1) } else { vec![Stmt::Block(nested(n - 1)), set(20, V, T, literal())] };
    block(n as SpanNo, inner)
}

fn looped(n: usize) -> Block {
    let inner = if n == 1 { vec![Stmt::Break(20)] } else { vec![set(20, V, T, literal()), repeat(21, looped(n - 1)), back(22)] };
    block(n as SpanNo, inner)
}

// An expression in casts, n deep in all.
fn deep(n: usize, e: Expr) -> Expr {
    (1..n).fold(e, |e, _| node(22, T, Node::Casting(Box::new(e))))
}

// A call, its argument n deep; its unused result is deleted.
fn deep_call(n: usize) -> Expr {
    call(21, T, literal(), vec![deep(n - 1, ident(22, V))])
}

// An image of a given length.
fn long(total: usize) -> Image {
    let mut i = body(&[V], vec![]);
    let room = total - write(&i).bytes.len();
    // a break takes 5 bytes; 16, 12, 8 and 24 have the other remainders
    i.body.statements = match room % 5 {
        0 => vec![],
        1 => vec![set(20, W, PLAIN, literal())],
        2 => vec![run(20, literal())],
        3 => vec![back(20)],
        _ => vec![back(20), back(21), back(22)],
    };
    let breaks = (total - write(&i).bytes.len()) / 5;
    i.body.statements.extend(vec![Stmt::Break(20); breaks]);
    assert_eq!(write(&i).bytes.len(), total);
    i
}

// An image that grows to a given length: 64 locals, returns of a literal with 64 deletes before each, and breaks.
fn grown(total: usize) -> Image {
    let (returns, deletes) = (40, 64 * 40 + 64);
    let tail = |n: usize| {
        let mut i = body(&[], [locals(64), vec![give(20, literal()); returns]].concat());
        i.names.push(vec![b'x'; n]);
        i
    };
    // a name of 1 to 5 bytes gives the length its remainder by 5
    let start = |n| write(&tail(n)).bytes.len() + 21 * deletes;
    let n = (1..=5).find(|n| (total - start(*n)) % 5 == 0).unwrap();
    let mut i = tail(n);
    i.body.statements.extend(vec![Stmt::Break(20); (total - start(n)) / 5]);
    i
}

/// So many locals, the first of them deleted, and then some statements up to so many times, as far as they fit.
#[cfg(ours)]
fn repeated(locals: Name, most: usize, some: impl Fn(Name) -> Vec<Stmt>) -> Image {
    let mut i = tables();
    let first = i.names.len() as Name;
    i.names.extend((0..locals).map(|k| format!("l{k}").into_bytes()));
    i.body.statements = (0..locals).map(|k| set(30, first + k, T, literal())).collect();
    i.body.statements.push(deletion(31, first));
    let room = (65_000 - write(&i).bytes.len()) / (write(&Image { body: block(0, some(first)), ..Image::default() }).bytes.len() - 22);
    i.body.statements.extend((0..most.min(room)).flat_map(|_| some(first)));
    i
}

/// Bodies with up to 10,080 entries: of locals left behind, of errors, of warnings, of all three.
#[cfg(ours)]
pub fn many_entries() -> Vec<(String, Image)> {
    let unused = |l| run(33, call(34, T, ident(35, l), vec![]));
    vec![
        ("10,080 locals left behind".into(), repeated(64, 160, |_| vec![back(4_000_000_000)])),
        ("1,000 locals left behind".into(), repeated(11, 100, |_| vec![back(35)])),
        ("10,240 locals left behind by breaks".into(), {
            let breaks = (0..160).map(|i| Stmt::Break(4_000_000_000 + i)).collect();
            body(&[], vec![repeat(20, block(21, [locals(64), breaks].concat()))])
        }),
        ("errors".into(), repeated(1, 10_000, |l| vec![run(33, ident(4_000_000_000, l))])),
        ("warnings".into(), repeated(1, 10_000, |_| vec![run(33, call(34, T, literal(), vec![]))])),
        ("all three".into(), repeated(4, 10_000, |l| vec![unused(l), back(36)])),
    ]
}

/// A block that would count over 65,535 statements, with errors and warnings: fault 15 of the pass, and a page.
#[cfg(ours)]
pub fn uncountable() -> (String, Image) {
    let some = |l| vec![run(33, call(34, T, ident(35, l), vec![])), give(36, literal())];
    ("over 65,535 statements and reports".into(), repeated(64, 1_100, some))
}
