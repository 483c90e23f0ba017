// Writes images for each fault from 1 to 11, and the outcome that document 01 demands for each:
//
//     rustc -O --out-dir target tools/fault_images.rs && target/fault_images
//
// at the root of the repository writes crates/programs_faults/data/images and crates/programs_faults/stdout. Each image is built together with its
// outcome. Nothing here reads an image.
use std::convert::TryFrom;
use std::fs;

type Bytes = Vec<u8>;

#[derive(Clone, Copy)]
enum Outcome {
    Accepted,
    Refused(u8),
}
use Outcome::{Accepted, Refused};

// The records and the lines that have to come out.
struct Cases {
    data: Bytes,
    lines: String,
    labels: Vec<String>,
}

impl Cases {
    fn add(&mut self, label: &str, outcome: Outcome, image: Bytes) {
        assert!(!self.labels.iter().any(|l| l == label), "{} twice", label);
        self.labels.push(label.to_string());
        self.data.push(u8::try_from(label.len()).unwrap());
        self.data.extend(label.as_bytes());
        self.data.extend(n4(image.len()));
        self.data.extend(&image);
        let end = match outcome {
            Accepted => format!("accepted {}", image.len()),
            Refused(fault) => format!("refused {fault}"),
        };
        self.lines += &format!("{label} {end}\n");
    }
}

fn n2(n: usize) -> Bytes {
    u16::try_from(n).unwrap().to_be_bytes().to_vec()
}

fn n4(n: usize) -> Bytes {
    u32::try_from(n).unwrap().to_be_bytes().to_vec()
}

fn cat(parts: &[Bytes]) -> Bytes {
    parts.concat()
}

// A count and that many parts.
fn counted(parts: &[Bytes]) -> Bytes {
    cat(&[n2(parts.len()), cat(parts)])
}

// The parts of an image, each in bytes.
#[derive(Clone)]
struct Image {
    version: u8,
    names: Bytes,
    types: Bytes,
    structs: Bytes,
    globals: Bytes,
    entry: Bytes,
    body: Bytes,
}

impl Image {
    fn parts(&self) -> [Bytes; 6] {
        let i = self.clone();
        [i.names, i.types, i.structs, i.globals, i.entry, i.body]
    }

    fn whole(&self) -> Bytes {
        with_length(cat(&[vec![self.version], cat(&self.parts())]))
    }

    // Up to the end of some of its parts, and then these bytes.
    fn upto(&self, parts: usize, rest: &[u8]) -> Bytes {
        with_length(cat(&[vec![self.version], cat(&self.parts()[..parts]), rest.to_vec()]))
    }
}

// The four bytes that say how many follow, and these.
fn with_length(rest: Bytes) -> Bytes {
    cat(&[n4(rest.len()), rest])
}

fn name(bytes: &[u8]) -> Bytes {
    cat(&[vec![u8::try_from(bytes.len()).unwrap()], bytes.to_vec()])
}

fn names(list: &[&[u8]]) -> Bytes {
    counted(&list.iter().map(|b| name(b)).collect::<Vec<_>>())
}

// `this`, and names of 64 bytes, `n` in all, any two alike in their first 62: the dearest to compare.
fn long_names(n: usize) -> Bytes {
    let other = |i: usize| name(&cat(&[vec![b'x'; 62], vec![b'a' + (i / 26) as u8, b'a' + (i % 26) as u8]]));
    let list = (0..n).map(|i| if i == 0 { name(b"this") } else { other(i) });
    counted(&list.collect::<Vec<_>>())
}

// `this`, and names of 64 bytes and one key, `n` in all, alike in their first 46: `Aa` and `BB` have one key.
fn alike_names(n: usize) -> Bytes {
    let pair = |bit: usize| if bit == 0 { b"Aa".to_vec() } else { b"BB".to_vec() };
    let other = |i: usize| name(&cat(&[vec![vec![b'x'; 46]], (0..9).map(|k| pair(i >> k & 1)).collect()].concat()));
    let list = (0..n).map(|i| if i == 0 { name(b"this") } else { other(i) });
    counted(&list.collect::<Vec<_>>())
}

// `this`, and names of two letters, `n` in all.
fn many_names(n: usize) -> Bytes {
    let other = |i: usize| name(&[b'a' + (i / 26) as u8, b'a' + (i % 26) as u8]);
    let list = (0..n).map(|i| if i == 0 { name(b"this") } else { other(i) });
    counted(&list.collect::<Vec<_>>())
}

fn plain() -> Bytes {
    vec![0]
}

fn named(name: usize) -> Bytes {
    cat(&[vec![1], n2(name)])
}

fn generic(name: usize, shape: usize) -> Bytes {
    cat(&[vec![2], n2(name), n2(shape)])
}

fn array(of: usize) -> Bytes {
    cat(&[vec![3], n2(of)])
}

fn pointer(to: usize) -> Bytes {
    cat(&[vec![4], n2(to)])
}

fn method(name: usize, modifier: u8) -> Bytes {
    cat(&[n2(name), vec![modifier]])
}

fn strukt(name: usize, destructor: u8, shape: usize, methods: &[Bytes]) -> Bytes {
    cat(&[n2(name), vec![destructor], n2(shape), counted(methods)])
}

fn global(name: usize, span: usize) -> Bytes {
    cat(&[n2(name), n4(span)])
}

// A parameter, or what else is a name and a type.
fn typed(name: usize, ty: usize) -> Bytes {
    cat(&[n2(name), n2(ty)])
}

fn entry(receiver: &[u8], parameters: &[Bytes]) -> Bytes {
    cat(&[receiver.to_vec(), counted(parameters)])
}

fn block(span: usize, statements: &[Bytes]) -> Bytes {
    cat(&[n4(span), counted(statements)])
}

fn stmt(tag: u8, span: usize, rest: &[Bytes]) -> Bytes {
    cat(&[vec![tag], n4(span), cat(rest)])
}

fn expr(tag: u8, span: usize, ty: usize, rest: &[Bytes]) -> Bytes {
    cat(&[vec![tag], n4(span), n2(ty), cat(rest)])
}

fn literal() -> Bytes {
    expr(15, 1, 0, &[])
}

fn ident(ty: usize) -> Bytes {
    expr(1, 1, ty, &[n2(1)])
}

fn unary(operator: u8, ty: usize, child: Bytes) -> Bytes {
    expr(3, 1, ty, &[vec![operator], child])
}

fn field(target: Bytes) -> Bytes {
    expr(11, 1, 0, &[target, n2(3)])
}

fn call(callee: Bytes, arguments: &[Bytes]) -> Bytes {
    expr(6, 1, 0, &[callee, counted(arguments)])
}

// An expression as a statement.
fn run(expression: Bytes) -> Bytes {
    stmt(3, 1, &[expression])
}

// 28 bytes: one name, one type, no struct, no global, no receiver, no parameter, no statement.
fn smallest() -> Image {
    let (names, types) = (names(&[b"this"]), counted(&[plain()]));
    let (structs, globals) = (counted(&[]), counted(&[]));
    Image { version: 1, names, types, structs, globals, entry: entry(&[0], &[]), body: block(0, &[]) }
}

// Names `this`, `x`, `T`, `f`, and ten types: 2 and 9 are generic, 3 points to 2, 4 to 3, 5 is an array of 2, 6 points to 5, 7 is an
// array of 3, 8 points to the named type 1.
fn base() -> Image {
    let mut i = smallest();
    i.names = names(&[b"this", b"x", b"T", b"f"]);
    let tail = [array(2), pointer(5), array(3), pointer(1), generic(2, 0)];
    i.types = counted(&[&[plain(), named(2), generic(2, 1), pointer(2), pointer(3)][..], &tail[..]].concat());
    i
}

const NAMES: usize = 4;
const TYPES: usize = 10;

// That image with a body of these statements.
fn body(statements: &[Bytes]) -> Bytes {
    let mut i = base();
    i.body = block(1, statements);
    i.whole()
}

// Parameter `x: T`, `delete x;`, `x;`.
fn example() -> Image {
    let x = |span| expr(1, span, 1, &[n2(1)]);
    let delete = expr(10, 12, 0, &[x(13)]);
    Image {
        names: names(&[b"this", b"x", b"T"]),
        types: counted(&[plain(), named(2)]),
        structs: counted(&[strukt(2, 1, 0, &[])]),
        entry: entry(&[0], &[typed(1, 1)]),
        body: block(10, &[stmt(3, 11, &[delete]), stmt(3, 14, &[x(15)])]),
        ..smallest()
    }
}

// An accepted image of a given length, but for the limit on it.
fn long(total: usize) -> Bytes {
    let filler = 1 + (total - smallest().whole().len() - 2) % 5;
    let breaks = (total - smallest().whole().len() - 1 - filler) / 5;
    let mut i = smallest();
    i.names = names(&[b"this", &vec![b'x'; filler]]);
    i.body = block(0, &vec![stmt(9, 0, &[]); breaks]);
    let image = i.whole();
    assert_eq!(image.len(), total);
    image
}

fn heads(c: &mut Cases) {
    c.add("example", Accepted, example().whole());
    c.add("smallest", Accepted, smallest().whole());
    c.add("empty", Refused(1), vec![]);
    c.add("one byte", Refused(1), vec![0]);
    c.add("four bytes", Refused(1), n4(0));
    let good = smallest().whole();
    let relabeled = |n: usize| cat(&[n4(n), good[4..].to_vec()]);
    c.add("length one too small", Refused(1), relabeled(good.len() - 5));
    c.add("length one too large", Refused(1), relabeled(good.len() - 3));
    c.add("length of the whole", Refused(1), relabeled(good.len()));
    c.add("length 0", Refused(1), relabeled(0));
    c.add("length 4294967295", Refused(1), relabeled(0xffff_ffff));
    c.add("length too large by 65536", Refused(1), relabeled(good.len() - 4 + 65536));
    c.add("65536 bytes", Accepted, long(65536));
    c.add("65537 bytes", Refused(1), long(65537));
    for version in [0, 2, 255] {
        let i = Image { version, ..smallest() };
        c.add(&format!("version {version}"), Refused(2), i.whole());
        c.add(&format!("version {version} and no more"), Refused(2), i.upto(0, &[]));
        c.add(&format!("version {version} and wrong length"), Refused(1), cat(&[n4(9), i.whole()[4..].to_vec()]));
        c.add(&format!("version {version} and no names"), Refused(2), Image { names: n2(0), ..i }.whole());
    }
}

fn name_tables(c: &mut Cases) {
    let mut add = |label: &str, outcome, names| c.add(&format!("names: {label}"), outcome, Image { names, ..smallest() }.whole());
    add("none", Refused(3), n2(0));
    add("512", Accepted, many_names(512));
    add("513", Refused(3), many_names(513));
    add("65535 by count", Refused(3), cat(&[n2(65535), name(b"this")]));
    add("an empty one", Refused(3), names(&[b"this", b""]));
    add("the first is empty", Refused(3), names(&[b""]));
    add("one of 1 byte", Accepted, names(&[b"this", b"x"]));
    add("one of 64 bytes", Accepted, names(&[b"this", &[b'x'; 64]]));
    add("one of 65 bytes", Refused(3), names(&[b"this", &[b'x'; 65]]));
    add("one of 255 bytes", Refused(3), names(&[b"this", &[b'x'; 255]]));
    add("this twice", Refused(3), names(&[b"this", b"this"]));
    add("x twice", Refused(3), names(&[b"this", b"x", b"y", b"x"]));
    add("512 of 64 bytes that differ at the end", Accepted, long_names(512));
    let last = |b: &[u8]| cat(&[n2(512), many_names(511)[2..].to_vec(), name(b)]);
    add("the last of 512 as the second", Refused(3), last(b"ab"));
    add("the last of 512 as no other", Accepted, last(b"zz"));
    add("two of 64 bytes that differ at the end", Accepted, names(&[b"this", &[b'x'; 64], &cat(&[vec![b'x'; 63], vec![b'y']])]));
    add("two of one key", Accepted, names(&[b"this", b"Aa", b"BB"]));
    add("two of one key, one of them twice", Refused(3), names(&[b"this", b"Aa", b"BB", b"Aa"]));
    add("512 of 64 bytes and one key", Accepted, alike_names(512));
    add("one begins another", Accepted, names(&[b"this", b"thi", b"thiss", b"x", b"xx"]));
    add("bytes of all values", Accepted, names(&[b"this", &[0], &[255], &[0, 0], &[128, 255]]));
    for first in ["that", "This", "thi", "thiss", "x"] {
        add(&format!("{first} first"), Refused(3), names(&[first.as_bytes()]));
    }
    add("x before this", Refused(3), names(&[b"x", b"this"]));
    for (label, bytes) in [("no count", &[][..]), ("half a count", &[0]), ("no length", &[0, 1]), ("half a name", &[0, 1, 4, b't', b'h'])] {
        c.add(&format!("names: {label}"), Refused(3), smallest().upto(0, bytes));
    }
    let both = Image { names: names(&[b"that"]), types: n2(0), ..smallest() };
    c.add("names before types", Refused(3), both.whole());
}

fn type_tables(c: &mut Cases) {
    let mut add = |label: &str, outcome, types| c.add(&format!("types: {label}"), outcome, Image { types, ..base() }.whole());
    let after_plain = |t: Bytes| counted(&[plain(), t]);
    add("none", Refused(4), n2(0));
    add("256", Accepted, counted(&vec![plain(); 256]));
    add("257", Refused(4), counted(&vec![plain(); 257]));
    add("one of each kind", Accepted, counted(&[plain(), named(3), generic(3, 65535), array(2), pointer(3)]));
    add("kind 5", Refused(4), after_plain(vec![5]));
    add("kind 255", Refused(4), after_plain(vec![255]));
    add("the first is named", Refused(4), counted(&[named(0)]));
    add("the first is generic", Refused(4), counted(&[generic(0, 0)]));
    add("the first is an array", Refused(4), counted(&[array(0)]));
    add("the first is a pointer", Refused(4), counted(&[pointer(0), plain()]));
    add("the first has kind 5", Refused(4), counted(&[vec![5]]));
    add("named, last name", Accepted, after_plain(named(NAMES - 1)));
    add("named, name out of the table", Refused(4), after_plain(named(NAMES)));
    add("generic, last name", Accepted, after_plain(generic(NAMES - 1, 0)));
    add("generic, name out of the table", Refused(4), after_plain(generic(NAMES, 0)));
    add("generic, name 65535", Refused(4), after_plain(generic(65535, 0)));
    add("array of itself", Refused(4), after_plain(array(1)));
    add("pointer to itself", Refused(4), after_plain(pointer(1)));
    add("array of a higher one", Refused(4), counted(&[plain(), array(2), plain()]));
    add("pointer to a higher one", Refused(4), counted(&[plain(), pointer(2), plain()]));
    add("pointer out of the table", Refused(4), after_plain(pointer(65535)));
    add("array and pointer of the one before", Accepted, counted(&[plain(), array(0), pointer(1), array(2)]));
    let chain = |last: usize| [vec![plain()], (1..255).map(|i| pointer(i - 1)).collect(), vec![pointer(last)]].concat();
    add("256, the last points to the one before", Accepted, counted(&chain(254)));
    add("256, the last points to itself", Refused(4), counted(&chain(255)));
    for (label, bytes) in [("no count", &[][..]), ("half a count", &[0]), ("no kind", &[0, 1]), ("one of two", &[0, 2, 0]), ("half a name", &[0, 2, 0, 1, 0])] {
        c.add(&format!("types: {label}"), Refused(4), smallest().upto(1, bytes));
    }
    let both = Image { types: counted(&[plain(), vec![5]]), structs: n2(65), ..smallest() };
    c.add("types before structs", Refused(4), both.whole());
}

fn struct_tables(c: &mut Cases) {
    let many = Image { names: many_names(80), ..smallest() };
    let mut add = |label: &str, outcome, list: &[Bytes]| {
        c.add(&format!("structs: {label}"), outcome, Image { structs: counted(list), ..many.clone() }.whole());
    };
    let rising = |n: usize| (1..=n).map(|i| strukt(i, 0, 0, &[])).collect::<Vec<_>>();
    let methods = |n: usize| (0..n).map(|i| method(i, (i % 4) as u8)).collect::<Vec<_>>();
    let one = |m: &[Bytes]| vec![strukt(1, 1, 65535, m)];
    add("none", Accepted, &[]);
    add("64", Accepted, &rising(64));
    add("65", Refused(5), &rising(65));
    add("32 methods", Accepted, &one(&methods(32)));
    add("33 methods", Refused(5), &one(&methods(33)));
    add("the same method in two", Accepted, &[strukt(1, 0, 1, &methods(2)), strukt(2, 1, 1, &methods(2))]);
    add("last name", Accepted, &[strukt(79, 0, 0, &[])]);
    add("name out of the table", Refused(5), &[strukt(80, 0, 0, &[])]);
    add("name 65535", Refused(5), &[strukt(65535, 0, 0, &[])]);
    add("falling", Refused(5), &[strukt(2, 0, 0, &[]), strukt(1, 0, 0, &[])]);
    add("the last of three falls", Refused(5), &[strukt(1, 0, 0, &[]), strukt(3, 0, 0, &[]), strukt(2, 0, 0, &[])]);
    add("one twice", Refused(5), &[strukt(1, 0, 0, &[]), strukt(1, 0, 0, &[])]);
    add("flag 2", Refused(5), &[strukt(1, 2, 0, &[])]);
    add("flag 255", Refused(5), &[strukt(1, 255, 0, &[])]);
    add("modifier 3", Accepted, &one(&[method(1, 3)]));
    add("modifier 4", Refused(5), &one(&[method(1, 4)]));
    add("modifier 255", Refused(5), &one(&[method(1, 255)]));
    add("a method twice", Refused(5), &one(&[method(2, 0), method(2, 1)]));
    add("the first method again at the end", Refused(5), &one(&[methods(31), vec![method(0, 0)]].concat()));
    add("method with the last name", Accepted, &one(&[method(79, 0)]));
    add("method out of the table", Refused(5), &one(&[method(80, 0)]));
    for (label, bytes) in [("no count", &[][..]), ("half a count", &[0]), ("no name", &[0, 1]), ("no flag", &[0, 1, 0, 0])] {
        c.add(&format!("structs: {label}"), Refused(5), smallest().upto(2, bytes));
    }
    let both = Image { structs: counted(&[strukt(0, 2, 0, &[])]), globals: n2(65), ..smallest() };
    c.add("structs before globals", Refused(5), both.whole());
}

// Structs rise by the bytes of their names, whatever the numbers.
fn struct_order(c: &mut Cases) {
    let pairs: [(&str, &[u8], &[u8]); 6] = [
        ("ab, abc", b"ab", b"abc"),
        ("abc, b", b"abc", b"b"),
        ("B, a", b"B", b"a"),
        ("127, 128", &[127], &[128]),
        ("0, 0 0", &[0], &[0, 0]),
        ("x of 63, of 64", &[b'x'; 63], &[b'x'; 64]),
    ];
    for (label, low, high) in pairs {
        for swapped in [false, true] {
            let list: [&[u8]; 3] = if swapped { [b"this", high, low] } else { [b"this", low, high] };
            let numbers = if swapped { [2, 1] } else { [1, 2] };
            let with = |a: usize, b: usize| Image {
                names: names(&list),
                structs: counted(&[strukt(a, 0, 0, &[]), strukt(b, 0, 0, &[])]),
                ..smallest()
            };
            let order = if swapped { "falling numbers" } else { "rising numbers" };
            c.add(&format!("structs: {label}, {order}"), Accepted, with(numbers[0], numbers[1]).whole());
            c.add(&format!("structs: {label} reversed, {order}"), Refused(5), with(numbers[1], numbers[0]).whole());
        }
    }
}

fn global_tables(c: &mut Cases) {
    let many = Image { names: many_names(80), ..smallest() };
    let mut add = |label: &str, outcome, list: &[Bytes]| {
        c.add(&format!("globals: {label}"), outcome, Image { globals: counted(list), ..many.clone() }.whole());
    };
    let list = |n: usize| (0..n).map(|i| global(79 - i, 0xffff_ffff)).collect::<Vec<_>>();
    add("64", Accepted, &list(64));
    add("65", Refused(6), &list(65));
    add("one twice", Refused(6), &[global(1, 7), global(1, 7)]);
    add("one twice with two spans", Refused(6), &[global(1, 7), global(2, 8), global(1, 9)]);
    add("the first of 64 again at the end", Refused(6), &[list(63), vec![global(79, 0)]].concat());
    add("equal spans", Accepted, &[global(1, 7), global(2, 7)]);
    add("this", Accepted, &[global(0, 0)]);
    add("last name", Accepted, &[global(79, 0)]);
    add("name out of the table", Refused(6), &[global(80, 0)]);
    add("name 65535", Refused(6), &[global(65535, 0)]);
    for (label, bytes) in [("no count", &[][..]), ("half a count", &[0]), ("no name", &[0, 1]), ("half a span", &[0, 1, 0, 0, 0, 0])] {
        c.add(&format!("globals: {label}"), Refused(6), smallest().upto(3, bytes));
    }
    let both = Image { globals: counted(&[global(1, 0)]), entry: entry(&[5], &[]), ..smallest() };
    c.add("globals before the entry", Refused(6), both.whole());
}

fn entries(c: &mut Cases) {
    let mut add = |label: &str, outcome, entry| c.add(&format!("entry: {label}"), outcome, Image { entry, ..base() }.whole());
    let parameters = |n: usize| vec![typed(1, 0); n];
    for receiver in [0, 1] {
        add(&format!("receiver {receiver}"), Accepted, entry(&[receiver], &[typed(1, 1)]));
    }
    for receiver in [2, 3, 4] {
        let with = |ty: usize| entry(&cat(&[vec![receiver], n2(ty)]), &[typed(1, 1)]);
        add(&format!("receiver {receiver}, last type"), Accepted, with(TYPES - 1));
        add(&format!("receiver {receiver}, type out of the table"), Refused(7), with(TYPES));
    }
    add("receiver 5", Refused(7), entry(&[5], &[]));
    add("receiver 5 with a type", Refused(7), entry(&[5, 0, 0], &[]));
    add("receiver 255", Refused(7), entry(&[255], &[]));
    add("16 parameters of one name", Accepted, entry(&[0], &parameters(16)));
    add("17 parameters", Refused(7), entry(&[0], &parameters(17)));
    add("this and 16 parameters", Accepted, entry(&[2, 0, 8], &parameters(16)));
    add("this and 17 parameters", Refused(7), entry(&[2, 0, 8], &parameters(17)));
    add("one parameter name twice", Accepted, entry(&[0], &[typed(1, 1), typed(1, 2)]));
    add("parameter this", Accepted, entry(&[0], &[typed(0, 0)]));
    add("last name and type", Accepted, entry(&[0], &[typed(NAMES - 1, TYPES - 1)]));
    add("parameter name out of the table", Refused(7), entry(&[0], &[typed(NAMES, 0)]));
    add("parameter type out of the table", Refused(7), entry(&[0], &[typed(0, TYPES)]));
    for (label, bytes) in [("no byte", &[][..]), ("no type", &[2]), ("half a type", &[4, 0]), ("no count", &[1]), ("no parameter", &[0, 0, 1])] {
        c.add(&format!("entry: {label}"), Refused(7), smallest().upto(4, bytes));
    }
    let both = Image { entry: entry(&[5], &[]), body: block(0, &[stmt(0, 0, &[])]), ..smallest() };
    c.add("the entry before the body", Refused(7), both.whole());
}

// A name and a type by number; one of them may be out of its table.
fn numbers(c: &mut Cases) {
    let l = literal;
    let forms: [(&str, &dyn Fn(usize, usize) -> Bytes); 8] = [
        ("Let", &|n, t| stmt(4, 1, &[typed(n, t), l()])),
        ("Const", &|n, t| stmt(5, 1, &[typed(n, t), l()])),
        ("Ident", &|n, t| run(expr(1, 1, t, &[n2(n)]))),
        ("FieldAccess", &|n, t| run(expr(11, 1, t, &[l(), n2(n)]))),
        ("Intrinsic", &|n, t| run(expr(14, 1, t, &[n2(n), counted(&[])]))),
        ("Return", &|_, t| stmt(2, 1, &[vec![0], n2(t)])),
        ("Return of a value", &|_, t| stmt(2, 1, &[vec![1], l(), n2(t)])),
        ("Assign", &|_, t| stmt(6, 1, &[l(), l(), n2(t)])),
    ];
    for (at, (label, form)) in forms.iter().enumerate() {
        c.add(&format!("{label}: last of both tables"), Accepted, body(&[form(NAMES - 1, TYPES - 1)]));
        c.add(&format!("{label}: type out of the table"), Refused(8), body(&[form(0, TYPES)]));
        c.add(&format!("{label}: type 65535"), Refused(8), body(&[form(0, 65535)]));
        if at < 5 {
            c.add(&format!("{label}: name out of the table"), Refused(8), body(&[form(NAMES, 0)]));
            c.add(&format!("{label}: name 65535"), Refused(8), body(&[form(65535, 0)]));
        }
    }
}

// What follows the tag, span and type of each kind of expression.
fn kinds() -> Vec<(&'static str, u8, Bytes)> {
    let l = literal;
    vec![
        ("Ident", 1, n2(1)),
        ("This", 2, vec![]),
        ("Unary", 3, cat(&[vec![4], l()])),
        ("Casting", 4, l()),
        ("Binary", 5, cat(&[l(), l()])),
        ("Call", 6, cat(&[l(), counted(&[l(), l()])])),
        ("List", 7, counted(&[l(), l()])),
        ("ListLiteralWithSize", 8, l()),
        ("Obj", 9, counted(&[l()])),
        ("Delete", 10, l()),
        ("FieldAccess", 11, cat(&[l(), n2(2)])),
        ("Indexing", 12, cat(&[l(), l()])),
        ("StaticAccess", 13, vec![]),
        ("Intrinsic", 14, cat(&[n2(3), counted(&[l()])])),
        ("literal", 15, vec![]),
    ]
}

fn expressions(c: &mut Cases) {
    for (label, tag, rest) in kinds() {
        let with = |ty: usize| body(&[run(expr(tag, 1, ty, &[rest.clone()]))]);
        let delete = tag == 10;
        c.add(&format!("{label}: type 0"), Accepted, with(0));
        c.add(&format!("{label}: its type the last"), if delete { Refused(8) } else { Accepted }, with(TYPES - 1));
        c.add(&format!("{label}: its type out of the table"), Refused(8), with(TYPES));
    }
    c.add("Delete: type 1", Refused(8), body(&[run(expr(10, 1, 1, &[ident(1)]))]));
    for tag in [0, 16, 255] {
        c.add(&format!("expression tag {tag}"), Refused(8), body(&[run(expr(tag, 1, 0, &[]))]));
        c.add(&format!("expression tag {tag} below a unary"), Refused(8), body(&[run(unary(0, 0, expr(tag, 1, 0, &[])))]));
    }
    for operator in [0, 1, 2, 3, 4] {
        c.add(&format!("operator {operator}"), Accepted, body(&[run(unary(operator, 0, literal()))]));
    }
    for operator in [5, 255] {
        c.add(&format!("operator {operator}"), Refused(8), body(&[run(unary(operator, 0, literal()))]));
    }
    for (label, tag, before) in [("Call", 6, literal()), ("List", 7, vec![]), ("Obj", 9, vec![]), ("Intrinsic", 14, n2(1))] {
        let with = |count: usize, n: usize| body(&[run(expr(tag, 1, 0, &[before.clone(), n2(count), cat(&vec![literal(); n])]))]);
        c.add(&format!("{label}: none by count, none there"), Accepted, with(0, 0));
        c.add(&format!("{label}: 300 by count, 300 there"), Accepted, with(300, 300));
        c.add(&format!("{label}: 301 by count, 300 there"), Refused(8), with(301, 300));
        c.add(&format!("{label}: 65535 by count, none there"), Refused(8), with(65535, 0));
        c.add(&format!("{label}: none by count, one there"), Refused(10), with(0, 1));
    }
}

fn statements(c: &mut Cases) {
    let l = literal;
    let empty = || block(2, &[]);
    let forms: [(&str, Bytes, Outcome); 13] = [
        ("Block", cat(&[vec![1], empty()]), Accepted),
        ("Return flag 0", stmt(2, 1, &[vec![0], n2(0)]), Accepted),
        ("Return flag 1", stmt(2, 1, &[vec![1], l(), n2(0)]), Accepted),
        ("Return flag 2", stmt(2, 1, &[vec![2], l(), n2(0)]), Refused(8)),
        ("Return flag 255", stmt(2, 1, &[vec![255], n2(0)]), Refused(8)),
        ("IfElse flag 0", stmt(7, 1, &[l(), empty(), vec![0]]), Accepted),
        ("IfElse flag 1", stmt(7, 1, &[l(), empty(), vec![1], empty()]), Accepted),
        ("IfElse flag 2", stmt(7, 1, &[l(), empty(), vec![2], empty()]), Refused(8)),
        ("IfElse flag 255", stmt(7, 1, &[l(), empty(), vec![255]]), Refused(8)),
        ("While", stmt(8, 1, &[l(), empty()]), Accepted),
        ("Assign", stmt(6, 1, &[ident(1), l(), n2(0)]), Accepted),
        ("Break", stmt(9, 1, &[]), Accepted),
        ("Continue", stmt(10, 1, &[]), Accepted),
    ];
    for (label, statement, outcome) in forms {
        c.add(&format!("{label} alone"), outcome, body(&[statement.clone()]));
        c.add(&format!("{label} between two"), outcome, body(&[run(l()), statement, stmt(10, 1, &[])]));
    }
    for tag in [0, 11, 255] {
        c.add(&format!("statement tag {tag}"), Refused(8), body(&[stmt(tag, 1, &[])]));
        c.add(&format!("statement tag {tag} in a While"), Refused(8), body(&[stmt(8, 1, &[l(), block(1, &[stmt(tag, 1, &[])])])]));
    }
}

// An image with each part, each statement and each expression.
fn everything() -> Image {
    let l = literal;
    let all: Vec<Bytes> = kinds().into_iter().map(|(_, tag, rest)| expr(tag, 1, 0, &[rest])).collect();
    let inner = block(3, &[stmt(9, 1, &[]), stmt(10, 1, &[])]);
    let statements = [
        run(expr(9, 1, 0, &[counted(&all)])),
        cat(&[vec![1], block(2, &[run(l())])]),
        stmt(4, 1, &[typed(1, 1), l()]),
        stmt(5, 1, &[typed(1, 1), l()]),
        stmt(6, 1, &[ident(1), l(), n2(1)]),
        stmt(7, 1, &[l(), inner.clone(), vec![0]]),
        stmt(7, 1, &[l(), inner.clone(), vec![1], inner.clone()]),
        stmt(8, 1, &[l(), inner]),
        stmt(2, 1, &[vec![1], l(), n2(1)]),
        stmt(2, 1, &[vec![0], n2(0)]),
    ];
    Image {
        types: counted(&[plain(), named(2), generic(2, 1), array(2), pointer(3)]),
        structs: counted(&[strukt(2, 1, 1, &[method(1, 0), method(3, 3)]), strukt(3, 0, 0, &[])]),
        globals: counted(&[global(1, 1), global(3, 2)]),
        entry: entry(&[2, 0, 4], &[typed(1, 1), typed(3, 2)]),
        body: block(1, &statements),
        ..base()
    }
}

// Cut short at each place, with the length that is left: the fault is that of the part where the bytes run out.
fn cuts(c: &mut Cases) {
    let image = everything();
    let whole = image.whole();
    c.add("everything", Accepted, whole.clone());
    let mut from = 5;
    for (i, part) in image.parts().iter().enumerate() {
        for at in from..from + part.len() {
            let fault = 3 + i as u8;
            c.add(&format!("everything, cut to {at} bytes"), Refused(fault), with_length(whole[4..at].to_vec()));
        }
        from += part.len();
    }
    assert_eq!(from, whole.len());
}

// One place of a child in an expression: its tag, what comes before the child and what comes after.
fn places() -> [(&'static str, u8, Bytes, Bytes); 15] {
    let l = literal;
    [
        ("unary without operator", 3, vec![0], vec![]),
        ("unary", 3, vec![1], vec![]),
        ("cast", 4, vec![], vec![]),
        ("left side", 5, vec![], l()),
        ("right side", 5, l(), vec![]),
        ("callee", 6, vec![], n2(0)),
        ("second argument", 6, cat(&[l(), n2(2), l()]), vec![]),
        ("first of two items", 7, n2(2), l()),
        ("sized item", 8, vec![], vec![]),
        ("second value", 9, cat(&[n2(2), l()]), vec![]),
        ("deleted", 10, vec![], vec![]),
        ("field target", 11, vec![], n2(3)),
        ("index target", 12, vec![], l()),
        ("index", 12, l(), vec![]),
        ("intrinsic argument", 14, cat(&[n2(1), n2(1)]), vec![]),
    ]
}

fn expression_depths(c: &mut Cases) {
    for (label, tag, before, after) in places() {
        let start = |n: usize| cat(&vec![expr(tag, 1, 0, &[before.clone()]); n]);
        let whole = |n: usize| run(cat(&[start(n - 1), literal(), cat(&vec![after.clone(); n - 1])]));
        c.add(&format!("{label}: depth 24"), Accepted, body(&[whole(24)]));
        c.add(&format!("{label}: depth 25"), Refused(9), body(&[whole(25)]));
        c.add(&format!("{label}: no byte at depth 24"), Refused(8), body(&[run(start(23))]));
        c.add(&format!("{label}: no byte at depth 25"), Refused(9), body(&[run(start(24))]));
    }
    let deep = |n: usize, last: Bytes| cat(&[cat(&vec![expr(4, 1, 0, &[]); n - 1]), last]);
    let mut at_24 = |label: &str, fault, last: Bytes| c.add(&format!("depth 24: {label}"), Refused(fault), body(&[run(deep(24, last))]));
    at_24("a Delete of type 1", 8, expr(10, 1, 1, &[literal()]));
    at_24("a Delete of type 1 and no child", 8, expr(10, 1, 1, &[]));
    at_24("operator 5", 8, unary(5, 0, literal()));
    at_24("a cast with its type out of the table", 8, expr(4, 1, TYPES, &[literal()]));
    at_24("a field access with its name out of the table", 9, expr(11, 1, 0, &[literal(), n2(NAMES)]));
    at_24("an intrinsic with its name out of the table", 8, expr(14, 1, 0, &[n2(NAMES), counted(&[literal()])]));
    at_24("an intrinsic with an argument", 9, expr(14, 1, 0, &[n2(0), counted(&[literal()])]));
    at_24("a list of one by count and no item", 9, expr(7, 1, 0, &[n2(1)]));
    at_24("a list without its count", 8, expr(7, 1, 0, &[]));
    at_24("a unary without its operator", 8, expr(3, 1, 0, &[]));
    c.add("depth 24: an empty list", Accepted, body(&[run(deep(24, expr(7, 1, 0, &[n2(0)])))]));
    c.add("depth 25: unknown tag", Refused(9), body(&[run(deep(25, vec![0]))]));
    let too_deep = || deep(25, literal());
    c.add("Let: name out of the table before depth", Refused(8), body(&[stmt(4, 1, &[typed(NAMES, 0), too_deep()])]));
    c.add("Return: depth before type out of the table", Refused(9), body(&[stmt(2, 1, &[vec![1], too_deep(), n2(TYPES)])]));
    c.add("Assign: depth before type out of the table", Refused(9), body(&[stmt(6, 1, &[literal(), too_deep(), n2(TYPES)])]));
    c.add("depth before a tag in the next statement", Refused(9), body(&[run(too_deep()), stmt(0, 1, &[])]));
    c.add("a tag before depth in the next statement", Refused(8), body(&[stmt(0, 1, &[]), run(too_deep())]));
    c.add("depth before a byte left over", Refused(9), grown(body(&[run(too_deep())]), 1));
}

// The image with some bytes more.
fn grown(image: Bytes, more: usize) -> Bytes {
    with_length(cat(&[image[4..].to_vec(), vec![0; more]]))
}

fn block_depths(c: &mut Cases) {
    let l = literal;
    let places = [
        ("block", vec![1], vec![]),
        ("then", stmt(7, 1, &[l()]), vec![0]),
        ("else", stmt(7, 1, &[l(), block(1, &[]), vec![1]]), vec![]),
        ("while", stmt(8, 1, &[l()]), vec![]),
    ];
    let with = |body: Bytes| Image { body, ..base() }.whole();
    let deepest = cat(&[cat(&vec![unary(1, 0, vec![]); 23]), l()]);
    for (label, before, after) in places {
        let start = |n: usize| cat(&vec![cat(&[n4(1), n2(1), before.clone()]); n]);
        let whole = |n: usize, last: Bytes| with(cat(&[start(n - 1), last, cat(&vec![after.clone(); n - 1])]));
        c.add(&format!("{label}: block depth 12"), Accepted, whole(12, block(1, &[])));
        c.add(&format!("{label}: block depth 13"), Refused(9), whole(13, block(1, &[])));
        c.add(&format!("{label}: expression depth 24 at block depth 12"), Accepted, whole(12, block(1, &[run(deepest.clone())])));
        c.add(&format!("{label}: no byte at block depth 12"), Refused(8), with(start(11)));
        c.add(&format!("{label}: no byte at block depth 13"), Refused(9), with(start(12)));
    }
    let at_12 = |last: Bytes| with(cat(&[cat(&vec![cat(&[n4(1), n2(1), vec![1]]); 11]), block(1, &[last])]));
    c.add("block depth 12: While with an unknown tag", Refused(8), at_12(stmt(8, 1, &[vec![0]])));
    c.add("block depth 12: While without condition", Refused(8), at_12(stmt(8, 1, &[])));
    c.add("block depth 12: IfElse with flag 2", Refused(9), at_12(stmt(7, 1, &[l(), block(1, &[]), vec![2]])));
    c.add("block depth 12: Block with half a span", Refused(9), at_12(vec![1, 0, 0]));
    c.add("no body", Refused(8), smallest().upto(5, &[]));
    let nested = |n: usize| cat(&vec![cat(&[n4(0), n2(1), vec![1]]); n]);
    c.add("smallest of 12 blocks", Refused(8), smallest().upto(5, &nested(11)));
    c.add("smallest of 13 blocks", Refused(9), smallest().upto(5, &nested(12)));
}

fn leftovers(c: &mut Cases) {
    for (label, image) in [("smallest", smallest()), ("example", example()), ("everything", everything())] {
        for more in [1, 2, 6] {
            c.add(&format!("{label} and {more} more"), Refused(10), grown(image.whole(), more));
        }
        let twice = with_length(cat(&[image.whole()[4..].to_vec(), image.whole()]));
        c.add(&format!("{label} twice"), Refused(10), twice);
    }
    let two = cat(&[n4(1), n2(1), stmt(9, 1, &[]), stmt(9, 1, &[])]);
    c.add("one statement by count, two there", Refused(10), Image { body: two, ..smallest() }.whole());
    let two = cat(&[n4(1), n2(2), stmt(9, 1, &[])]);
    c.add("two statements by count, one there", Refused(8), Image { body: two, ..smallest() }.whole());
    c.add("65535 statements by count, none there", Refused(8), Image { body: cat(&[n4(1), n2(65535)]), ..smallest() }.whole());
}

// A call on a field of an Ident of each type.
fn receivers(c: &mut Cases) {
    let outcomes = vec![
        ("plain", Accepted),
        ("named", Accepted),
        ("generic", Refused(11)),
        ("pointer to generic", Refused(11)),
        ("pointer to pointer to generic", Refused(11)),
        ("array of generic", Accepted),
        ("pointer to array of generic", Accepted),
        ("array of pointer to generic", Accepted),
        ("pointer to named", Accepted),
        ("generic of shape 0", Refused(11)),
    ];
    for (ty, (label, outcome)) in outcomes.into_iter().enumerate() {
        c.add(&format!("receiver {label}"), outcome, body(&[run(call(field(ident(ty)), &[]))]));
        c.add(&format!("receiver {label}, two arguments"), outcome, body(&[run(call(field(ident(ty)), &[literal(), ident(ty)]))]));
        c.add(&format!("receiver {label}, not called"), Accepted, body(&[run(field(ident(ty)))]));
        let outer = unary(0, ty, ident(0));
        c.add(&format!("target {label} over a plain Ident"), outcome, body(&[run(call(field(outer), &[]))]));
        let inner = unary(0, 0, ident(ty));
        c.add(&format!("plain target over an Ident {label}"), Accepted, body(&[run(call(field(inner), &[]))]));
    }
    let chain = Image { types: counted(&[&[plain(), generic(0, 1)][..], &(1..99).map(pointer).collect::<Vec<_>>()[..]].concat()), ..base() };
    let on = |ty: usize| block(1, &[run(call(field(ident(ty)), &[]))]);
    c.add("receiver behind 98 pointers", Refused(11), Image { body: on(99), ..chain }.whole());
    let plain_chain = Image { types: counted(&[&[plain()][..], &(0..99).map(pointer).collect::<Vec<_>>()[..]].concat()), ..base() };
    let smallest_call = |ty: usize| {
        let target = expr(1, 0, ty, &[n2(0)]);
        let callee = expr(11, 0, 0, &[target, n2(0)]);
        Image { types: counted(&[plain(), generic(0, 0)]), body: block(0, &[run(call(callee, &[]))]), ..smallest() }
    };
    c.add("smallest with a generic receiver", Refused(11), smallest_call(1).whole());
    c.add("smallest with a plain receiver", Accepted, smallest_call(0).whole());
    c.add("plain behind 99 pointers", Accepted, Image { body: on(99), ..plain_chain }.whole());
}

// What is looked through and what is not; 2 is the generic type.
fn looked_through(c: &mut Cases) {
    let mut add = |label: &str, outcome, callee: Bytes| c.add(&format!("callee: {label}"), outcome, body(&[run(call(callee, &[]))]));
    let good = || field(ident(2));
    add("one unary without operator", Refused(11), unary(0, 0, good()));
    add("two unaries without operator", Refused(11), unary(0, 0, unary(0, 2, good())));
    add("unaries about callee and target", Refused(11), unary(0, 0, field(unary(0, 2, ident(2)))));
    add("target's outer unary generic", Refused(11), field(unary(0, 2, unary(0, 0, ident(0)))));
    add("target's inner unary generic", Accepted, field(unary(0, 0, unary(0, 2, ident(2)))));
    for operator in [1, 2, 3, 4] {
        add(&format!("operator {operator}"), Accepted, unary(operator, 0, good()));
        add(&format!("target with operator {operator}"), Accepted, field(unary(operator, 2, ident(2))));
        add(&format!("operator {operator} below one without"), Accepted, unary(0, 0, unary(operator, 0, good())));
        add(&format!("target with operator {operator} below one without"), Accepted, field(unary(0, 2, unary(operator, 2, ident(2)))));
    }
    add("This of generic type", Accepted, field(expr(2, 1, 2, &[])));
    add("This of generic type below a unary", Accepted, field(unary(0, 2, expr(2, 1, 2, &[]))));
    add("field of a generic Ident's field", Accepted, field(expr(11, 1, 2, &[ident(2), n2(3)])));
    add("cast target", Accepted, field(expr(4, 1, 2, &[ident(2)])));
    add("cast", Accepted, expr(4, 1, 0, &[good()]));
    add("index of a generic Ident", Accepted, expr(12, 1, 2, &[ident(2), literal()]));
    add("index target", Accepted, field(expr(12, 1, 2, &[ident(2), literal()])));
    add("literal target", Accepted, field(expr(15, 1, 2, &[])));
    add("generic Ident", Accepted, ident(2));
    add("static access", Accepted, expr(13, 1, 2, &[]));
    add("generic field of a plain Ident", Accepted, expr(11, 1, 2, &[ident(0), n2(3)]));
    add("field of name 0", Refused(11), expr(11, 1, 0, &[ident(2), n2(0)]));
    add("Ident this", Refused(11), field(expr(1, 1, 2, &[n2(0)])));
    add("field of a call on a generic", Refused(11), field(call(good(), &[])));
}

// When it is tested: once the call is read.
fn receiver_order(c: &mut Cases) {
    let bad = || call(field(ident(2)), &[]);
    let with = |arguments: &[Bytes]| call(field(ident(2)), arguments);
    let mut add = |label: &str, fault, statements: &[Bytes]| c.add(&format!("generic receiver: {label}"), Refused(fault), body(statements));
    add("an argument's type out of the table", 8, &[run(with(&[ident(TYPES)]))]);
    add("an unknown tag as second argument", 8, &[run(with(&[literal(), vec![0]]))]);
    add("an argument missing at the end", 8, &[run(expr(6, 1, 0, &[field(ident(2)), n2(1)]))]);
    add("no count", 8, &[run(expr(6, 1, 0, &[field(ident(2))]))]);
    add("a field name out of the table", 8, &[run(call(expr(11, 1, 0, &[ident(2), n2(NAMES)]), &[]))]);
    add("an argument too deep", 9, &[run(with(&[cat(&[cat(&vec![expr(4, 1, 0, &[]); 23]), literal()])]))]);
    add("an argument as deep as may be", 11, &[run(with(&[cat(&[cat(&vec![expr(4, 1, 0, &[]); 22]), literal()])]))]);
    add("an unknown tag in the next statement", 11, &[run(bad()), stmt(0, 1, &[])]);
    add("an unknown tag in the statement before", 8, &[stmt(0, 1, &[]), run(bad())]);
    add("a type out of the table after it", 11, &[stmt(2, 1, &[vec![1], bad(), n2(TYPES)])]);
    add("a name out of the table before it", 8, &[stmt(4, 1, &[typed(NAMES, 0), bad()])]);
    let deep = |n: usize| run(cat(&[cat(&vec![expr(4, 1, 0, &[]); n - 1]), bad()]));
    add("call at depth 22", 11, &[deep(22)]);
    add("call at depth 23", 9, &[deep(23)]);
    for (label, tag, before, after) in places() {
        add(&format!("as {label}"), 11, &[run(expr(tag, 1, 0, &[before, bad(), after]))]);
    }
    let e = || block(1, &[]);
    let within = |s: Bytes| block(1, &[s]);
    add("value of a Let", 11, &[stmt(4, 1, &[typed(1, 0), bad()])]);
    add("value of a Const", 11, &[stmt(5, 1, &[typed(1, 0), bad()])]);
    add("destination", 11, &[stmt(6, 1, &[bad(), literal(), n2(0)])]);
    add("value of an Assign", 11, &[stmt(6, 1, &[literal(), bad(), n2(0)])]);
    add("condition of an IfElse", 11, &[stmt(7, 1, &[bad(), e(), vec![0]])]);
    add("then, before flag 2", 11, &[stmt(7, 1, &[literal(), within(run(bad())), vec![2]])]);
    add("else", 11, &[stmt(7, 1, &[literal(), e(), vec![1], within(run(bad()))])]);
    add("condition of a While", 11, &[stmt(8, 1, &[bad(), e()])]);
    add("block of a While", 11, &[stmt(8, 1, &[literal(), within(run(bad()))])]);
    c.add("generic receiver before a byte left over", Refused(11), grown(body(&[run(bad())]), 1));
    let missing = cat(&[n4(1), n2(2), run(bad())]);
    c.add("generic receiver before a missing statement", Refused(11), Image { body: missing, ..base() }.whole());
}

fn main() {
    let mut c = Cases { data: vec![], lines: String::new(), labels: vec![] };
    for part in [heads, name_tables, type_tables, struct_tables, struct_order, global_tables, entries, numbers, expressions, statements] {
        part(&mut c);
    }
    for part in [cuts, expression_depths, block_depths, leftovers, receivers, looked_through, receiver_order] {
        part(&mut c);
    }
    fs::create_dir_all("crates/programs_faults/data").unwrap();
    fs::write("crates/programs_faults/data/images", &c.data).unwrap();
    fs::write("crates/programs_faults/stdout", &c.lines).unwrap();
    println!("{} images, {} bytes", c.labels.len(), c.data.len());
}
