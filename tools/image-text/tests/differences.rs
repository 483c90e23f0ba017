//! --diff.

mod common;

use common::case;
use image_text::diff::{diff, Diff};
use image_text::{read_image, read_text, RETURNED, SUBMITTED};

fn compared(submitted: &str, returned: &str) -> Diff {
    let image = |text: &str, limits| read_image(&read_text(text.as_bytes(), limits).unwrap(), limits).unwrap();
    diff(&image(submitted, SUBMITTED), &image(returned, RETURNED))
}

fn text(name: &str) -> String {
    String::from_utf8(case(name)).unwrap()
}

// The returned body with one piece of it replaced.
fn compared_with(old: &str, new: &str) -> Diff {
    let returned = text("returned.txt");
    assert_eq!(returned.matches(old).count(), 1, "{old}");
    compared(&text("submitted.txt"), &returned.replace(old, new))
}

#[test]
fn every_place_of_a_delete() {
    let d = compared(&text("submitted.txt"), &text("returned.txt"));
    assert_eq!(d.difference, None);
    assert_eq!(d.listing, text("diff.txt"));
}

#[test]
fn the_same_body_twice() {
    let d = compared(&text("returned.txt"), &text("returned.txt"));
    assert_eq!(d.difference, None);
    assert!(d.listing.lines().all(|line| line.starts_with("  ") || line == "// inserted deletes: 0, wrapped results: 0"));
}

// A submitted delete that looks like an inserted one is still found.
#[test]
fn alike_deletes() {
    let both = compared_with("@0 delete@0 v@0:T;", "@0 delete@0 v@0:T; @0 delete@0 v@0:T; @0 delete@0 w@0:T;");
    assert_eq!(both.difference, None);
    let submitted = text("submitted.txt").replace("@28 return", "@0 delete@0 v@0:T; @28 return");
    let d = compared(&submitted, &text("returned.txt"));
    assert_eq!(d.difference, None);
    assert!(d.listing.contains("\n          @0 delete@0 v@0:T;\n"));
}

#[test]
fn no_insertion() {
    let gone = "the statement at byte 65 of the submitted image is gone";
    let strange = |byte: usize| format!("the statement at byte {byte} of the returned image is neither a submitted one nor an inserted delete");
    for (old, new, reason, line) in [
        ("@11 let w: T = make@13()@12:T;", "", gone.to_string(), "-     @11 let w: T = make@13()@12:T;\n"),
        ("@11 let w: T", "@11 const w: T", strange(65), "!     @11 const w: T = make@13()@12:T;\n"),
        ("@0 delete@0 v@0:T;", "@0 delete@0 v@1:T;", strange(250), "!         @0 delete@0 v@1:T;\n"),
        ("@0 delete@0 v@0:T;", "@0 delete@0 this@0:T;", strange(250), "!         @0 delete@0 this@0:T;\n"),
        ("@14 delete@14", "@14 delete@15", strange(92), "!     @14 delete@15 make@16()@15:T;\n"),
        ("body @10", "body @9", "the body's span was 10 and is 9".into(), "- body @10 {\n! body @9 {\n"),
        ("@37 { }", "@38 { }", strange(342), "!         @38 {\n!         }\n"),
    ] {
        let d = compared_with(old, new);
        assert_eq!(d.difference, Some(reason), "{}", d.listing);
        assert!(d.listing.contains(line), "{}", d.listing);
    }
}

#[test]
fn tables_differ() {
    for (old, new, part) in [
        ("std::move }", "std::move y }", "row 7 of the names"),
        ("types { plain T }", "types { plain T plain }", "row 2 of the types"),
        ("T destructor;", "T;", "row 0 of the structs"),
        ("globals { }", "globals { v @0; }", "row 0 of the globals"),
        ("entry no receiver", "entry static", "the entry"),
    ] {
        let d = compared_with(old, new);
        assert_eq!(d.difference, Some(format!("they differ before their bodies, in {part}")));
        assert_eq!(d.listing, "");
    }
}
