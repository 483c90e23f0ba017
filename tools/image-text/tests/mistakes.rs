//! Bad texts and bad images: what is said, and where.

mod common;

use common::{case, generated, stored, Random};
use image_text::{print_image, read_image, read_text, Mistake, SUBMITTED};

fn mistake(text: &str) -> String {
    read_text(text.as_bytes(), SUBMITTED).unwrap_err().to_string()
}

// The example with one piece of it replaced.
fn example_with(old: &str, new: &str) -> String {
    let text = String::from_utf8(case("example.txt")).unwrap();
    assert_eq!(text.matches(old).count(), 1, "{old}");
    text.replace(old, new)
}

#[test]
fn mistakes_in_the_example() {
    for (old, new, message) in [
        ("image", "imag", "line 1, column 1: expected `image`, found `imag`"),
        ("version 1", "version 2", "line 1, column 15: expected version `1`, found `2`"),
        ("names {", "names", "line 4, column 5: expected `{`, found `0`"),
        ("0 \"this\"", "0 this", "line 4, column 7: `this` is a reserved word: as a name it is written \"this\""),
        ("0 \"this\"", "0 \"that\"", "line 4, column 7: fault 3: name 0 is not `this`"),
        ("0 \"this\"", "0 \"this", "line 4, column 7: a quoted name without its end"),
        ("1 x", "1 \"\\y\"", "line 5, column 8: after `\\` comes `\\`, `\"` or `x` and two digits"),
        ("1 x", "1 \"\\x4\"", "line 5, column 8: after `\\` comes `\\`, `\"` or `x` and two digits"),
        ("1 x", "1 \"\"", "line 5, column 7: fault 3: a name of 0 bytes, not of 1 to 64"),
        ("1 x", "2 x", "line 5, column 5: this row has number 1, not 2"),
        ("1 x", "1 T", "line 6, column 7: fault 3: name 2 is name 1 again"),
        ("1 x", "1 \"é\" ~", "line 5, column 11: `~` has no meaning here"),
        ("1 x", "1 2x", "line 5, column 7: a name can't begin with a digit: quote it"),
        ("0 plain", "0 T", "line 10, column 7: fault 4: type 0 is not plain"),
        ("1 T\n}", "1 *U\n}", "line 11, column 8: the table of names has no U"),
        ("1 T\n}", "1 [*plain]\n}", "line 11, column 8: the table of types has no *plain"),
        ("1 T\n}", "1 T<shape 65536>\n}", "line 11, column 15: shape 65536 is above 65535"),
        ("T destructor;", "T destructor", "line 16, column 1: expected `destructor`, `shape`, `;` or `{`, found `}`"),
        ("T destructor;", "x; T;\n T;", "line 15, column 8: fault 5: struct 1 does not rise by name"),
        ("T destructor;", "T { plain x; }", "line 15, column 9: expected `static`, `const`, `mutable` or `consuming`, found `plain`"),
        ("T destructor;", "T {\n    const x;\n    static x;\n    }", "line 17, column 5: fault 5: a method's name twice in one struct"),
        ("globals {", "globals { x @1; T @2; x @3;", "line 18, column 23: fault 6: a global's name twice"),
        ("globals {", "globals { x;", "line 18, column 12: expected `@` and a span, found `;`"),
        ("no receiver", "receiver", "line 21, column 7: expected `static`, `const`, `mutable` or `consuming`, found `receiver`"),
        ("no receiver", "mutable", "line 21, column 15: expected `this`, found `(`"),
        ("(x: T)", "(x: T x)", "line 21, column 25: expected `,` or `)`, found `x`"),
        ("body @10", "body", "line 23, column 6: expected `@` and a span, found `{`"),
        ("@11 delete", "delete", "line 24, column 5: expected `}` or a statement, which begins with `@` and its span, found `delete`"),
        ("x@13:T", "x:T", "line 24, column 20: expected `@` and a span, found `:`"),
        ("x@13:T", "y@13:T", "line 24, column 19: the table of names has no y"),
        ("x@13:T", "x@4294967296:T", "line 24, column 21: span 4294967296 is above 4294967295"),
        ("x@13:T", "x@99999999999999999999:T", "line 24, column 21: a number that is too large"),
        ("x@13:T", "x@13:*T", "line 24, column 24: the table of types has no *T"),
        ("x@13:T", "x@13:T#0", "line 24, column 26: type 0 is plain, not T"),
        ("x@13:T", "x@13:T#7", "line 24, column 26: the table of types has no type 7"),
        ("x@13:T;", "x@13:T", "line 25, column 5: expected `;`, found `@`"),
        ("delete@12", "delete@12:T", "line 24, column 18: a Delete's type is 0 and is not written"),
        ("x@15:T", "while@15:T", "line 25, column 14: expected an expression, found `@`"),
        ("x@15:T", "plain@15:T", "line 25, column 9: `plain` is a reserved word: as a name it is written \"plain\""),
        ("x@15:T", "(x@15:T)@16", "line 25, column 17: expected `;`, found `@`"),
        ("x@15:T", "(x@15:T + x@16)@17", "line 25, column 17: `+` has no meaning here"),
        ("x@15:T", "é", "line 25, column 9: byte 195 outside quotes"),
        ("x@15:T", "\"é\"@1 ~", "line 25, column 9: the table of names has no \"\\xc3\\xa9\""),
        ("x@15:T", "[x@15:T; 3]@16", "line 25, column 18: expected `size`, found `3`"),
        ("x@15:T", "[x@15:T x@16]@16", "line 25, column 17: expected `,`, `;` or `]`, found `x`"),
        ("x@15:T;\n}", "x@15:T;", "line 26, column 1: expected `}` or a statement, which begins with `@` and its span, found the end of the text"),
        ("x@15:T;\n}", "x@15:T;\n} }", "line 26, column 3: expected the end of the text, found `}`"),
    ] {
        assert_eq!(mistake(&example_with(old, new)), message, "{new}");
    }
    assert_eq!(mistake(""), "line 1, column 1: expected `image`, found the end of the text");
    assert_eq!(mistake("// é\n\u{e9}"), "line 2, column 1: byte 195 outside quotes");
}

// Faults of a tree that is well written.
#[test]
fn faults_in_texts() {
    let example = |body: &str| example_with("@14 x@15:T;", body);
    let deep = format!("@14\n {}x@1;", "noop@1\n ".repeat(24));
    assert_eq!(mistake(&example(&deep)), "line 50, column 2: fault 9: an expression deeper than 24");
    let chain = format!("@14 x@1{};", ".x@1".repeat(24));
    assert_eq!(mistake(&example(&chain)), "line 25, column 9: fault 9: an expression deeper than 24");
    let blocks = format!("{} {}", "@1 {\n".repeat(12), "}".repeat(12));
    assert_eq!(mistake(&example(&blocks)), "line 36, column 1: fault 9: a block deeper than 12");
    let receiver = example_with("1 T\n}", "1 T\n 2 T<shape 0> 3 *T<shape 0> }").replace("@14 x@15:T;", "@14 obj{\n  x@1:*T<shape 0>.x@2()@3}@4;");
    assert_eq!(mistake(&receiver), "line 26, column 3: fault 11: a call with a generic receiver");
    let names = (0..600).map(|n| format!("n{n}\n")).collect::<String>();
    assert_eq!(mistake(&example_with("2 T\n", &format!("2 T\n{names}"))), "line 3, column 1: fault 3: 603 names, at most 512");
    let long = format!("2 T\n {}", "y".repeat(65));
    assert_eq!(mistake(&example_with("2 T\n", &long)), "line 7, column 2: fault 3: a name of 65 bytes, not of 1 to 64");
    let parameters = "x: T, ".repeat(17);
    assert_eq!(mistake(&example_with("x: T)", &format!("{parameters})"))), "line 21, column 1: fault 7: 17 parameters, at most 16");
    let many = "@1 break;".repeat(66_000);
    assert_eq!(mistake(&example(&many)), "line 23, column 6: a list of 66001: a count takes two bytes");
    assert_eq!(mistake(&example(&"@1 break;".repeat(14_000))), "line 1, column 1: fault 1: 70067 bytes, an image has at most 65536");
}

// No text may exhaust the stack.
#[test]
fn texts_without_end() {
    for (open, message) in [
        ("(", "fault 9: nested deeper than 64"),
        ("-@1 ", "fault 9: nested deeper than 64"),
        ("f@1(", "the table of names has no f"),
        ("x@1(", "fault 9: nested deeper than 64"),
        ("obj{", "fault 9: nested deeper than 64"),
        ("{ @1 ", "fault 9: nested deeper than 64"),
        ("return:*", "a type deeper than 256"),
    ] {
        let (once, repeated) = open.rsplit_once(':').map_or(("", open), |(word, again)| (word, again));
        let colon = if once.is_empty() { "" } else { ":" };
        let text = format!("@14 {once}{colon}{}", repeated.repeat(100_000));
        let found = mistake(&example_with("@14 x@15:T;", &text));
        assert!(found.ends_with(message), "{found}");
    }
    let chain = format!("@14 x@1{};", "[x@1]@1".repeat(100_000));
    assert!(mistake(&example_with("@14 x@15:T;", &chain)).contains("fault 9"));
}

// Every text is read or gets a mistake that lies within it.
fn check(text: &[u8]) -> bool {
    match read_text(text, SUBMITTED) {
        Ok(image) => {
            assert!(print_image(&image, SUBMITTED, false).is_ok());
            true
        }
        Err(Mistake { line, column, reason }) => {
            let lines: Vec<&[u8]> = text.split(|b| *b == b'\n').collect();
            assert!(line >= 1 && line <= lines.len() && !reason.is_empty());
            assert!(column >= 1 && column <= lines[line - 1].len() + 1);
            false
        }
    }
}

#[test]
fn damaged_texts() {
    let mut random = Random(11);
    let pieces: [&[u8]; 22] = [
        b"@", b"@7", b":", b":T", b";", b",", b"{", b"}", b"(", b")", b"[", b"]", b"#1", b"\"", b"\\", b"this", b"plain", b"\xff", b"0", b"99999999999", b" op ", b"=",
    ];
    let mut read = 0;
    for turn in 0..4000 {
        let image = generated(turn % 200 * 5);
        let mut text = print_image(&image, SUBMITTED, false).unwrap().into_bytes();
        text.truncate(20_000);
        let (from, to) = (random.below(text.len()), random.below(text.len()));
        match random.below(4) {
            0 => drop(text.remove(from)),
            1 => drop(text.splice(from..from, pieces[random.below(pieces.len())].to_vec())),
            2 => text.swap(from, to),
            _ => text.truncate(from),
        }
        read += usize::from(check(&text));
    }
    println!("{read} of 4000 still read");
}

#[test]
fn faults_have_offsets() {
    let offset = |wanted: &str| {
        let (_, _, image) = stored().into_iter().find(|(label, ..)| label == wanted).unwrap();
        let fault = read_image(&image, SUBMITTED).unwrap_err();
        (fault.number, fault.offset)
    };
    assert_eq!(offset("empty"), (1, 0));
    assert_eq!(offset("version 2"), (2, 4));
    assert_eq!(offset("names: this twice"), (3, 12));
    assert_eq!(offset("types: the first is named"), (4, 20));
    assert_eq!(offset("smallest and 2 more"), (10, 28));
    assert_eq!(offset("smallest with a generic receiver"), (11, 38));
    assert_eq!(offset("smallest of 13 blocks"), (9, 22 + 12 * 7));
}
