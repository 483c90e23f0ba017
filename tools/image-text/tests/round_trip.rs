//! Images to text and back.

mod common;

use common::{case, generated, repository, stored, Random};
use image_text::tree::{Expr, Kind, Node, Statement};
use image_text::{print::blocks, print_image, read_image, read_text, Limits, RETURNED, SUBMITTED};
use std::collections::BTreeSet;

// The text, read back into the same bytes, printed with and without offsets.
fn round_trip(image: &[u8], limits: Limits) -> String {
    let text = print_image(image, limits, false).unwrap();
    assert_eq!(read_text(text.as_bytes(), limits).unwrap(), image, "{text}");
    let with_offsets = print_image(image, limits, true).unwrap();
    assert_eq!(read_text(with_offsets.as_bytes(), limits).unwrap(), image, "{with_offsets}");
    text
}

#[test]
fn example() {
    let (_, _, image) = stored().into_iter().find(|(label, ..)| label == "example").unwrap();
    assert_eq!(image.len(), 81);
    assert_eq!(round_trip(&image, SUBMITTED).as_bytes(), case("example.txt"));
}

#[test]
fn stored_images() {
    let (mut accepted, mut refused) = (0, 0);
    for (label, fault, image) in stored() {
        match read_image(&image, SUBMITTED) {
            Ok(_) => {
                assert_eq!(fault, 0, "{label}");
                round_trip(&image, SUBMITTED);
                accepted += 1;
            }
            Err(found) => {
                assert_eq!(found.number, fault, "{label}: {found:?}");
                assert!(found.offset <= image.len(), "{label}: {found:?}");
                refused += 1;
            }
        }
    }
    println!("{accepted} accepted, {refused} refused");
    assert!(accepted > 200 && refused > 800);
}

#[test]
fn generated_images() {
    let (mut seen, mut largest) = (BTreeSet::new(), 0);
    for seed in 0..4000 {
        let image = generated(seed);
        round_trip(&image, SUBMITTED);
        largest = largest.max(image.len());
        let tree = read_image(&image, SUBMITTED).unwrap();
        tree.body.statements.iter().for_each(|s| see_statement(s, &mut seen));
    }
    println!("largest: {largest} bytes; {seen:?}");
    // Ten statements, a return and an if in two forms; fifteen expressions, a unary in five.
    assert_eq!(seen.len(), 12 + 19);
}

fn see_statement(s: &Statement, seen: &mut BTreeSet<String>) {
    let (word, children): (&str, Vec<&Expr>) = match &s.kind {
        Kind::Block(_) => ("Block", vec![]),
        Kind::Return(None, _) => ("Return without a value", vec![]),
        Kind::Return(Some(e), _) => ("Return", vec![e]),
        Kind::Expr(e) => ("Expr", vec![e]),
        Kind::Let(_, _, e) => ("Let", vec![e]),
        Kind::Const(_, _, e) => ("Const", vec![e]),
        Kind::Assign(a, b, _) => ("Assign", vec![a, b]),
        Kind::IfElse(e, _, None) => ("IfElse without else", vec![e]),
        Kind::IfElse(e, _, Some(_)) => ("IfElse", vec![e]),
        Kind::While(e, _) => ("While", vec![e]),
        Kind::Break => ("Break", vec![]),
        Kind::Continue => ("Continue", vec![]),
    };
    seen.insert(word.into());
    children.into_iter().for_each(|e| see_expr(e, seen));
    blocks(s).iter().flat_map(|b| &b.statements).for_each(|inner| see_statement(inner, seen));
}

fn see_expr(e: &Expr, seen: &mut BTreeSet<String>) {
    let (word, children): (&str, Vec<&Expr>) = match &e.node {
        Node::Ident(_) => ("an Ident", vec![]),
        Node::This => ("a This", vec![]),
        Node::Unary(operator, a) => (["noop", "-", "!", "&", "*"][usize::from(*operator)], vec![a]),
        Node::Casting(a) => ("a Casting", vec![a]),
        Node::Binary(a, b) => ("a Binary", vec![a, b]),
        Node::Call(a, list) => ("a Call", [&**a].into_iter().chain(list).collect()),
        Node::List(list) => ("a List", list.iter().collect()),
        Node::ListLiteralWithSize(a) => ("a ListLiteralWithSize", vec![a]),
        Node::Obj(list) => ("an Obj", list.iter().collect()),
        Node::Delete(a) => ("a Delete", vec![a]),
        Node::FieldAccess(a, _) => ("a FieldAccess", vec![a]),
        Node::Indexing(a, b) => ("an Indexing", vec![a, b]),
        Node::StaticAccess => ("a StaticAccess", vec![]),
        Node::Intrinsic(_, list) => ("an Intrinsic", list.iter().collect()),
        Node::Literal => ("a literal", vec![]),
    };
    if !seen.contains(word) {
        seen.insert(word.into());
    }
    children.into_iter().for_each(|e| see_expr(e, seen));
}

#[test]
fn damaged_images() {
    let mut random = Random(7);
    let mut accepted = 0;
    for seed in 0..3000 {
        let mut image = generated(seed % 300);
        for _ in 0..1 + random.below(3) {
            let at = random.below(image.len());
            image[at] = [0, 1, 255, random.below(256) as u8][random.below(4)];
        }
        if read_image(&image, SUBMITTED).is_ok() {
            round_trip(&image, SUBMITTED);
            accepted += 1;
        }
        image.truncate(random.below(image.len()));
        assert_eq!(read_image(&image, SUBMITTED).unwrap_err().number, 1);
        if image.len() > 4 {
            let length = image.len() as u32 - 4;
            image[..4].copy_from_slice(&length.to_be_bytes());
            let fault = read_image(&image, SUBMITTED).unwrap_err();
            assert!((2..=11).contains(&fault.number) && fault.offset <= image.len());
        }
    }
    println!("{accepted} of 3000 still accepted");
}

fn text_with_body(body: &str) -> String {
    format!(
        "image version 1 names {{ \"this\" x T f }} types {{ plain T T plain *T *T *T#2 [T#2] T<shape 3> *T<shape 3> }} \
         structs {{ }} globals {{ }} entry no receiver () body @1 {{ {body} }}"
    )
}

// The body's statement as it is printed on one line.
fn printed_statement(statement: &str) -> String {
    let image = read_text(text_with_body(statement).as_bytes(), SUBMITTED).unwrap();
    let text = print_image(&image, SUBMITTED, false).unwrap();
    let (_, body) = text.split_once("body @1 {\n").unwrap();
    body.strip_suffix("}\n").unwrap().trim().to_string()
}

#[test]
fn each_form_is_printed_as_it_is_read() {
    for form in [
        "x@2", "\"this\"@2", "this@2", "this@2:T", "noop@2 x@3", "-@2:T x@3:T", "!@2 x@3", "&@2:*T x@3:T", "*@2:T x@3:*T", "(x@2 as T)@3",
        "(x@2 as plain)@3", "(x@2:T op f@3)@4:T", "f@2(x@3, T@4:T)@5:T", "x@2:T.f@3(this@4)@5", "[]@2", "[x@2, f@3]@4:[T#2]", "[x@2; size]@3",
        "obj{}@2:T", "obj{x@2, f@3}@4", "delete@2 x@3:T", "x@2.f@3.T@4", "x@2[f@3]@4[f@5]@6", "static@2:T", "intrinsic f()@2", "intrinsic f(x@2)@3",
        "literal@4294967295", "(-@2 x@3).f@4", "-@2 x@3.f@4", "(delete@2 x@3)[f@4]@5", "(noop@2 f@3)()@4", "noop@2:T [x@3]@4", "delete@2 delete@3 x@4",
        "x@2:T#2", "x@2:plain#3", "x@2:(*T)#5", "x@2:*T#2", "x@2:T<shape 3>", "x@2:*T<shape 3>(f@3)@4", "((x@2 op f@3)@4 op (f@5 as T#2)@6)@7",
    ] {
        let statement = format!("@1 {form};");
        assert_eq!(printed_statement(&statement), statement);
    }
    for statement in [
        "@2 return;", "@2 return:T;", "@2 return:T x@3:T;", "@2 return (x@3 op x@4)@5;", "@2 let x = f@3;", "@2 const x: *T = f@3;", "@2 x@3 = f@4;",
        "@2 x@3:T =:T f@4;", "@2 break;", "@2 continue;",
    ] {
        assert_eq!(printed_statement(statement), statement);
    }
}

// Texts that are alike but stand for different images.
#[test]
fn alike_is_not_equal() {
    let image = |form: &str| read_text(text_with_body(&format!("@1 {form};")).as_bytes(), SUBMITTED).unwrap();
    for (one, other) in [
        ("this@2", "\"this\"@2"), ("x@2:T", "x@2:T#2"), ("x@2:*T", "x@2:*T#2"), ("x@2:*T", "x@2:(*T)#5"), ("x@2", "x@2:plain#3"), ("x@2", "noop@2 x@2"),
        ("-@2 x@3.f@4", "(-@2 x@3).f@4"), ("[x@2]@3", "[x@2; size]@3"), ("f@2(x@3)@4", "intrinsic f(x@3)@4"), ("[x@2]@3", "obj{x@2}@3"),
    ] {
        assert_ne!(image(one), image(other), "{one}, {other}");
    }
    assert_eq!(image("(x@2)"), image("x@2"));
    assert_eq!(image("\"x\"@2:(T)"), image("x @ 2 : T // comment\n"));
}

// A returned image may be larger and one level deeper.
#[test]
fn returned_limits() {
    let deep = |n: usize| text_with_body(&format!("@1 {} x@1;", "noop@1 ".repeat(n - 1)));
    let long = text_with_body(&"@1 break; ".repeat(14_000));
    for (text, fault) in [(deep(25), "fault 9"), (long, "fault 1:")] {
        assert!(read_text(text.as_bytes(), SUBMITTED).unwrap_err().reason.starts_with(fault));
        let image = read_text(text.as_bytes(), RETURNED).unwrap();
        assert!(read_image(&image, SUBMITTED).is_err());
        round_trip(&image, RETURNED);
    }
    assert!(read_text(deep(24).as_bytes(), SUBMITTED).is_ok());
    assert!(read_text(deep(26).as_bytes(), RETURNED).is_err());
}

// What tools/README.md shows is read, and its first example is the stored one.
#[test]
fn readme() {
    let readme = String::from_utf8(repository("tools/README.md")).unwrap();
    let example = String::from_utf8(case("example.txt")).unwrap();
    let indented: Vec<String> = example.lines().map(|line| format!("    {line}").trim_end().to_string()).collect();
    assert!(readme.contains(&indented.join("\n")));
    let context = "image version 1 names { \"this\" x y f v T } types { plain T [T] *T } structs { } globals { } entry no receiver () body @1 {";
    let (_, tables) = readme.split_once("| statements |").unwrap();
    let mut read = 0;
    for form in tables.lines().filter(|line| line.starts_with('|')).flat_map(|line| line.split('`').skip(1).step_by(2)) {
        let form = form.replace("...", "");
        let statement = if form.starts_with('@') { form } else { format!("@9 {form};") };
        let found = read_text(format!("{context} {statement} }}").as_bytes(), SUBMITTED);
        assert!(found.is_ok(), "{statement}: {found:?}");
        read += 1;
    }
    assert_eq!(read, 35);
}
