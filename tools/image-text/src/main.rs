//! image-text: see tools/README.md.

use image_text::{diff::diff, print_image, read_image, read_text, Fault, Limits, RETURNED, SUBMITTED};
use std::io::{self, Read, Write};
use std::process::ExitCode;

const USAGE: &str = "\
usage: image-text [--offsets] [--returned] [IMAGE]   print an image as text
       image-text --read [--returned] [TEXT]         write the image of a text
       image-text --diff SUBMITTED RETURNED          list a body with what was inserted

Without a file, or with -, standard input is read. --offsets adds the byte offsets of statements and callees as comments;
--returned lifts the limits that a returned image may pass: 65,536 bytes, and depth 24 by one. --diff takes images or texts.
Exit status: 0, or 1 for bad input and for a RETURNED that is not SUBMITTED with insertions, or 2 for a wrong command.
";

#[derive(Default)]
struct Arguments {
    read: bool,
    diff: bool,
    offsets: bool,
    returned: bool,
    files: Vec<String>,
}

fn arguments() -> Option<Arguments> {
    let mut a = Arguments::default();
    for argument in std::env::args().skip(1) {
        match argument.as_str() {
            "--read" => a.read = true,
            "--diff" => a.diff = true,
            "--offsets" => a.offsets = true,
            "--returned" => a.returned = true,
            file if file == "-" || !file.starts_with('-') => a.files.push(argument),
            _ => return None,
        }
    }
    let fits = if a.diff { a.files.len() == 2 && !a.read && !a.offsets && !a.returned } else { a.files.len() <= 1 && !(a.read && a.offsets) };
    fits.then_some(a)
}

// A file's bytes, or standard input's.
fn contents(file: &str) -> Result<Vec<u8>, String> {
    let read = match file {
        "-" => {
            let mut bytes = vec![];
            io::stdin().read_to_end(&mut bytes).map(|_| bytes)
        }
        _ => std::fs::read(file),
    };
    read.map_err(|error| format!("{}: {error}", label(file)))
}

fn label(file: &str) -> &str {
    if file == "-" { "standard input" } else { file }
}

fn fault_message(file: &str, fault: Fault) -> String {
    format!("{}: fault {} at byte {}: {}", label(file), fault.number, fault.offset, fault.reason)
}

fn printed(file: &str, limits: Limits, offsets: bool) -> Result<Vec<u8>, String> {
    let text = print_image(&contents(file)?, limits, offsets);
    text.map(String::into_bytes).map_err(|fault| fault_message(file, fault))
}

fn image_of_text(file: &str, text: &[u8], limits: Limits) -> Result<Vec<u8>, String> {
    read_text(text, limits).map_err(|mistake| format!("{}: {mistake}", label(file)))
}

// The image in a file, or that of the text in it: a text begins with `image` or a comment.
fn image_of(file: &str, limits: Limits) -> Result<image_text::tree::Image, String> {
    let mut bytes = contents(file)?;
    if bytes.starts_with(b"image") || bytes.starts_with(b"//") {
        bytes = image_of_text(file, &bytes, limits)?;
    }
    read_image(&bytes, limits).map_err(|fault| fault_message(file, fault))
}

fn compared(submitted: &str, returned: &str) -> Result<(Vec<u8>, Option<String>), String> {
    let d = diff(&image_of(submitted, SUBMITTED)?, &image_of(returned, RETURNED)?);
    let not = |reason| format!("{} is not {} with insertions: {reason}", label(returned), label(submitted));
    Ok((d.listing.into_bytes(), d.difference.map(not)))
}

// What goes to standard output, and what is wrong all the same.
fn run(a: &Arguments) -> Result<(Vec<u8>, Option<String>), String> {
    let file = a.files.first().map_or("-", String::as_str);
    let limits = if a.returned { RETURNED } else { SUBMITTED };
    if a.diff {
        return compared(file, &a.files[1]);
    }
    let out = if a.read { image_of_text(file, &contents(file)?, limits)? } else { printed(file, limits, a.offsets)? };
    Ok((out, None))
}

fn main() -> ExitCode {
    let Some(a) = arguments() else {
        eprint!("{USAGE}");
        return ExitCode::from(2);
    };
    let (out, wrong) = run(&a).unwrap_or_else(|wrong| (vec![], Some(wrong)));
    let written = io::stdout().write_all(&out).and_then(|()| io::stdout().flush());
    let wrong = wrong.or(written.err().map(|error| format!("standard output: {error}")));
    wrong.map_or(ExitCode::SUCCESS, |message| {
        eprintln!("image-text: {message}");
        ExitCode::from(1)
    })
}
