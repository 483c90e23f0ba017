//! The Rust pass beside document 01: `bench/run` says how it is called.
mod adapter;
mod answer;
#[cfg(ours)]
mod beside;
mod boundaries;
mod brute;
mod build;
mod compare;
mod corners;
#[cfg(ours)]
mod differ;
mod generator;
mod image;
#[cfg(feature = "mistakes")]
mod mistakes;
#[cfg(ours)]
mod ours;
#[cfg(ours)]
mod page;
mod plain;
mod random;
mod reader;
#[cfg(ours)]
mod reports;
mod rules;
mod speed;
mod stored;

use answer::{LENT_BYTES, LENT_ENTRIES, Outcome, lent_fault};
use compare::Seen;
use random::Random;
use std::io::Read;
use std::path::{Path, PathBuf};

fn main() {
    // long bodies recurse deep in the definitions' reading
    let worker = std::thread::Builder::new().stack_size(256 << 20).spawn(command).unwrap();
    let code = worker.join().unwrap_or(1);
    std::process::exit(code);
}

fn command() -> i32 {
    let words: Vec<String> = std::env::args().skip(1).collect();
    let words: Vec<&str> = words.iter().map(|w| w.as_str()).collect();
    let files = Files::new();
    match words[..] {
        ["compare", images, damaged, seed] => compare(images.parse().unwrap(), damaged.parse().unwrap(), seed.parse().unwrap()),
        #[cfg(ours)]
        ["differ", images, damaged, seed] => differ::differ(images.parse().unwrap(), damaged.parse().unwrap(), seed.parse().unwrap()),
        #[cfg(ours)]
        ["switched", images, seed] => differ::switched(images.parse().unwrap(), seed.parse().unwrap()),
        #[cfg(not(ours))]
        ["differ" | "switched", ..] => not_run(NO_LIBRARY),
        ["brute", bodies, seed] => brute::brute(bodies.parse().unwrap(), seed.parse().unwrap()),
        ["answer"] => print_answer(),
        ["show", switches] => show(switches.parse().unwrap()),
        ["image", label] => print_image(label),
        ["images", path, many] => stored::write_images(&files.from.join(path), many.parse().unwrap()),
        ["store", path] => stored::store(&files.from.join(path)),
        ["replay", path] => stored::replay(&files.from.join(path)),
        ["records", folder, room, seed] => stored::records(&files.from.join(folder), room.parse().unwrap(), seed.parse().unwrap()),
        #[cfg(feature = "mistakes")]
        ["mistakes", images] => mistakes::find(images.parse().unwrap()),
        #[cfg(ours)]
        ["bodies", folder] => beside::write_bodies(&files.from.join(folder)),
        ["speed", runs] => speeds(runs.parse().unwrap()),
        #[cfg(all(ours, before))]
        ["before", runs] => beside::before(runs.parse().unwrap()),
        #[cfg(not(all(ours, before)))]
        ["before", ..] => not_run("there is no library, or no earlier one: OWNERSHIP_PASS_BEFORE names its folder; then build anew"),
        _ => not_run(USAGE),
    }
}

fn not_run(why: &str) -> i32 {
    eprintln!("{why}");
    2
}

const USAGE: &str = "bench compare IMAGES DAMAGED SEED | differ IMAGES DAMAGED SEED | switched IMAGES SEED | brute BODIES SEED | answer < IMAGE | show SWITCHES < IMAGE | image LABEL | images FILE MANY | store FILE | replay FILE | records FOLDER BYTES SEED | bodies FOLDER | speed RUNS | before RUNS";

#[cfg(not(ours))]
const NO_LIBRARY: &str =
    "there is no library: tools/build ownership_pass makes it, or OWNERSHIP_PASS_LIB names its folder; then build anew";

#[cfg(ours)]
const NO_REPORTS: &str = "ownership_reports: left out, there is no liblent.a: tools/build lent makes it";

fn speeds(runs: usize) -> i32 {
    speed::speed(runs);
    #[cfg(ours)]
    beside::beside(runs);
    #[cfg(not(ours))]
    println!("{NO_LIBRARY}");
    0
}

/// mod.rs reads the file of a span at every use of a tracked name, so there is one, in a folder of its own.
struct Files {
    from: PathBuf,
    folder: PathBuf,
}

impl Files {
    fn new() -> Self {
        let from = std::env::current_dir().unwrap();
        let folder = std::env::temp_dir().join(format!("ownership-bench-{}", std::process::id()));
        std::fs::create_dir_all(&folder).unwrap();
        write_files(&folder);
        std::env::set_current_dir(&folder).unwrap();
        Files { from, folder }
    }
}

impl Drop for Files {
    fn drop(&mut self) {
        let _ = std::env::set_current_dir(&self.from);
        let _ = std::fs::remove_dir_all(&self.folder);
    }
}

/// So many images from a seed on, each with all switches off and under one other setting.
fn each(many: u64, seed: u64, label: &str, mut bytes: impl FnMut(u64) -> Vec<u8>) -> Seen {
    let mut seen = Seen::default();
    for i in 0..many {
        let w = 1 + (i % 15) as u32;
        seen.check(&format!("{label} {}", seed + i), &bytes(seed + i), w..w + 1);
    }
    seen
}

/// The whole comparison: 0 if nothing differs.
fn compare(images: u64, damaged: u64, seed: u64) -> i32 {
    let wrong = rows() + example() + fault_images() + unreadable();
    let mut parts = vec![];

    let mut seen = Seen::default();
    for (label, tree) in corners::others() {
        seen.check(&label, &image::write(&tree).bytes, 1..16);
    }
    for row in corners::rows() {
        seen.check(row.label, &image::write(&row.image).bytes, 1..16);
    }
    parts.push(("corners of documents 01 and 02", seen));

    let mut seen = Seen::default();
    for (label, tree) in boundaries::all() {
        let outcome = seen.check(&label, &image::write(&tree).bytes, 1..16);
        println!("  {label}: {}", first_line(outcome.as_ref()));
        // of the two that give back most statements, one counts too many whatever is lent
        let too_many = matches!(&outcome, Some(Ok(a)) if lent_fault(a, usize::MAX, usize::MAX) == 15);
        assert_eq!(too_many, label.starts_with("over 65,535 statements"));
    }
    parts.push(("boundaries", seen));

    let whole = |seed| image::write(&generator::image(seed)).bytes;
    parts.push(("generated", each(images, seed, "seed", whole)));
    let jumping = |seed| image::write(&generator::jumping(seed)).bytes;
    parts.push(("generated with loops and jumps", each(images, seed, "jumping", jumping)));
    let mut random = Random::new(seed);
    parts.push(("damaged", each(damaged, seed, "damaged, seed", |seed| generator::damaged(&whole(seed), &mut random))));

    let mut different = 0;
    for (what, seen) in &parts {
        seen.print(what);
        different += seen.different.len();
    }
    println!("{} images in all, {different} differences, {wrong} wrong answers", parts.iter().map(|p| p.1.images).sum::<usize>());
    (different + wrong > 0) as i32
}

/// K1 to K12: the Rust and the definitions give what crates/rules/proofs/Rows.antt says.
fn rows() -> usize {
    let mut wrong = 0;
    let rows = corners::rows();
    for row in &rows {
        let bytes = image::write(&row.image).bytes;
        let tree = reader::read(&bytes).unwrap();
        let mut returned = row.image.clone();
        returned.body.statements = row.returned.clone();
        let output = image::write(&returned).bytes;
        for outcome in [answer::of_image(&tree), rules::of_image(&tree)] {
            let a = outcome.unwrap();
            let same =
                a.output == output && a.errors == row.errors && a.lefts == row.lefts && a.warnings.is_empty() && a.states == row.states;
            if !same {
                println!("WRONG {}: {a:?}", row.label);
                wrong += 1;
            }
        }
    }
    println!("K1 to K12: {} rows, {wrong} wrong", rows.len());
    wrong
}

/// Document 01's image of 81 bytes.
fn example() -> usize {
    let bytes = image::write(&corners::example()).bytes;
    let text = answer_text(answer::of_bytes(&bytes).as_ref());
    let right = bytes.len() == 81 && text == "accepted 81 1 0 0\nerror 1 15 0 13\n";
    println!("document 01's example: {} bytes, {}", bytes.len(), if right { "as it says" } else { "WRONG" });
    !right as usize
}

/// The second reader on the images of crates/programs_faults, beside the outcomes stored there.
fn fault_images() -> usize {
    let folder = Path::new(env!("CARGO_MANIFEST_DIR")).join("../crates/programs_faults");
    let lines = std::fs::read_to_string(folder.join("stdout")).unwrap_or_default();
    let records = fault_records();
    let mut wrong = (records.is_empty() || records.len() != lines.lines().count()) as usize;
    for ((name, bytes), line) in records.iter().zip(lines.lines()) {
        let outcome = match reader::read(bytes) {
            Ok(_) => format!("{name} accepted {}", bytes.len()),
            Err(fault) => format!("{name} refused {fault}"),
        };
        if outcome != line {
            println!("WRONG: {outcome}, stored: {line}");
            wrong += 1;
        }
    }
    println!("the second reader on crates/programs_faults: {} images, {wrong} wrong", records.len());
    wrong
}

/// The stored images of crates/programs_faults with their labels.
fn fault_records() -> Vec<(String, Vec<u8>)> {
    let data = std::fs::read(Path::new(env!("CARGO_MANIFEST_DIR")).join("../crates/programs_faults/data/images")).unwrap_or_default();
    let (mut list, mut at) = (vec![], 0);
    while at < data.len() {
        let label = at + 1 + data[at] as usize;
        let size = u32::from_be_bytes(data[label..label + 4].try_into().unwrap()) as usize;
        let name = String::from_utf8_lossy(&data[at + 1..label]).into_owned();
        at = label + 4 + size;
        list.push((name, data[label + 4..at].to_vec()));
    }
    list
}

/// The corners with no file to read: the same answers, but for the Rust's two panics, where a global is moved and where a result is
/// unused.
fn unreadable() -> usize {
    let corners: Vec<_> =
        corners::others().into_iter().chain(corners::rows().into_iter().map(|r| (r.label.to_string(), r.image))).collect();
    let read = |tree: &image::Image| reader::read(&image::write(tree).bytes).unwrap();
    let expected: Vec<_> = corners.iter().map(|(_, tree)| answer::of_image(&read(tree)).unwrap()).collect();
    [adapter::FILE, adapter::DEFAULT_FILE].iter().for_each(|f| std::fs::remove_file(f).unwrap());
    std::panic::set_hook(Box::new(|_| {}));
    let (mut panics, mut wrong) = (0, 0);
    for ((label, tree), with_file) in corners.iter().zip(&expected) {
        let stops = !with_file.warnings.is_empty() || with_file.errors.iter().any(|e| e.kind == 8);
        let tree = read(tree);
        let right = match std::panic::catch_unwind(|| answer::of_image(&tree)) {
            Ok(outcome) => !stops && outcome.as_ref() == Ok(with_file),
            Err(_) => stops,
        };
        panics += stops as usize;
        if !right {
            println!("WRONG without a file: {label}");
            wrong += 1;
        }
    }
    let _ = std::panic::take_hook();
    write_files(Path::new("."));
    println!("without a file to read: {} corners, the same answers but for {panics} panics of the Rust, {wrong} wrong", corners.len());
    wrong
}

fn write_files(folder: &Path) {
    for file in [adapter::FILE, adapter::DEFAULT_FILE] {
        std::fs::write(folder.join(file), oracle::probe::FILE).unwrap();
    }
}

fn first_line(outcome: Option<&Outcome>) -> String {
    answer_text(outcome).lines().next().unwrap_or_default().to_string()
}

/// As the program prints it, with what it lends.
fn answer_text(outcome: Option<&Outcome>) -> String {
    let a = match outcome {
        None => return "outside the domain\n".to_string(),
        Some(Err(fault)) => return format!("refused {fault}\n"),
        Some(Ok(a)) => a,
    };
    let fault = lent_fault(a, LENT_BYTES, LENT_ENTRIES);
    if fault != 0 {
        return format!("refused {fault}\n");
    }
    let mut text = format!("accepted {} {} {} {}\n", a.output.len(), a.errors.len(), a.warnings.len(), a.lefts.len());
    for e in &a.errors {
        let others: String = e.others.iter().map(|p| format!(" {p}")).collect();
        text += &format!("error {} {} {}{others}\n", e.kind, e.place, e.hint);
    }
    a.warnings.iter().for_each(|(span, offset)| text += &format!("warning {span} {offset}\n"));
    a.lefts.iter().for_each(|(span, name, born)| text += &format!("left {span} {name} {born}\n"));
    text
}

/// The bytes of a corner or boundary, in hexadecimal.
fn print_image(label: &str) -> i32 {
    let rows = corners::rows().into_iter().map(|r| (r.label.to_string(), r.image));
    let all = rows.chain(corners::others()).chain(boundaries::all());
    let Some((_, tree)) = all.into_iter().find(|(l, _)| l == label) else { return 1 };
    let hex: String = image::write(&tree).bytes.iter().map(|b| format!("{b:02x}")).collect();
    println!("{hex}");
    0
}

/// The answers of the image on standard input under a switch value, of the library if there is one; 1 if they differ.
fn show(switches: u32) -> i32 {
    let mut bytes = vec![];
    std::io::stdin().read_to_end(&mut bytes).unwrap();
    let rust = match reader::read(&bytes) {
        _ if switches > 15 => Some(Err(17)),
        Err(fault) => Some(Err(fault)),
        Ok(tree) => answer::in_domain(&tree).then(|| answer::of_switched(&tree, switches)),
    };
    let shown = |of: &str, outcome: Option<&Outcome>| {
        let hex = outcome.and_then(|o| o.as_ref().ok()).map(|a| a.output.iter().map(|b| format!("{b:02x}")).collect::<String>());
        let text = format!("{}{}", answer_text(outcome), hex.map_or(String::new(), |hex| format!("image {hex}\n")));
        print!("{of}, switches {switches}:\n{text}");
        text
    };
    let rust = rust.as_ref().map(|outcome| shown("the Rust with document 02 (e)", Some(outcome)));
    if rust.is_none() {
        shown("the Rust with document 02 (e)", None);
    }
    #[cfg(ours)]
    {
        let ours = shown("the library", Some(&ours::answer(Some(switches), &bytes)));
        return rust.is_some_and(|rust| rust != ours) as i32;
    }
    #[cfg(not(ours))]
    0
}

fn print_answer() -> i32 {
    let mut bytes = vec![];
    std::io::stdin().read_to_end(&mut bytes).unwrap();
    print!("{}", answer_text(answer::of_bytes(&bytes).as_ref()));
    0
}
