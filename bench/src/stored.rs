//! Images with the Rust's answers in one file, and the replay of such a file. `stored/README.md` says what a record is.
use crate::answer::{self, LENT_BYTES, LENT_ENTRIES, Outcome, lent_fault};
use crate::random::Random;
use crate::{boundaries, corners, generator, image, reader};
use std::path::Path;

const GENERATED: usize = 2400;
const DAMAGED: usize = 600;
/// Longer images are left to `bench compare`.
const SHORT: usize = 480;

pub fn store(path: &Path) -> i32 {
    let mut file = vec![];
    let mut count = 0;
    let mut faults = [0; 16];
    for (label, bytes) in images() {
        let Some(outcome) = answer::of_bytes(&bytes) else { continue };
        let record = record(&label, &bytes, &outcome);
        faults[record.fault as usize] += 1;
        file.extend(record.bytes);
        count += 1;
    }
    std::fs::write(path, &file).unwrap();
    println!("{count} images with answers, {} bytes; by outcome from 0, accepted, to fault 15: {faults:?}", file.len());
    0
}

fn images() -> Vec<(String, Vec<u8>)> {
    let mut list: Vec<(String, Vec<u8>)> = vec![];
    let mut add = |label: &str, tree: &image::Image| list.push((label.to_string(), image::write(tree).bytes));
    corners::rows().iter().for_each(|row| add(row.label, &row.image));
    add("example", &corners::example());
    corners::others().iter().for_each(|(label, tree)| add(label, tree));
    boundaries::all().iter().for_each(|(label, tree)| add(label, tree));
    for row in corners::rows() {
        let mut longer = image::write(&row.image).bytes;
        longer.push(0);
        let length = longer.len() as u32 - 4;
        longer[..4].copy_from_slice(&length.to_be_bytes());
        list.push((format!("{} and a byte more", row.label), longer));
    }

    let short = |seed: &u64| image::write(&generator::image(*seed)).bytes.len() <= SHORT;
    for seed in (0..).filter(short).take(GENERATED) {
        list.push((format!("seed {seed}"), image::write(&generator::image(seed)).bytes));
    }
    let mut random = Random::new(1);
    for seed in (1_000_000..).filter(short).take(DAMAGED) {
        list.push((format!("damaged {seed}"), generator::damaged(&image::write(&generator::image(seed)).bytes, &mut random)));
    }
    list
}

struct Record {
    bytes: Vec<u8>,
    fault: u8,
}

fn record(label: &str, bytes: &[u8], outcome: &Outcome) -> Record {
    let mut r = vec![label.len() as u8];
    r.extend(label.as_bytes());
    r.extend((bytes.len() as u32).to_be_bytes());
    r.extend(bytes);
    let (fault, ample, needed) = match outcome {
        Err(fault) => (*fault, *fault, 0),
        Ok(a) => (lent_fault(a, LENT_BYTES, LENT_ENTRIES), lent_fault(a, usize::MAX, usize::MAX), a.output.len()),
    };
    r.push(fault);
    r.push(ample);
    r.extend((needed as u32).to_be_bytes());
    if let (0, Ok(a)) = (fault, outcome) {
        r.push((a.output != bytes) as u8);
        if a.output != bytes {
            r.extend(&a.output);
        }
        r.extend((a.errors.len() as u16).to_be_bytes());
        for e in &a.errors {
            r.push(e.kind as u8);
            r.extend(e.place.to_be_bytes());
            r.push(e.hint as u8);
            r.push(e.others.len() as u8);
            e.others.iter().for_each(|p| r.extend(p.to_be_bytes()));
        }
        r.extend((a.warnings.len() as u16).to_be_bytes());
        for (span, offset) in &a.warnings {
            r.extend(span.to_be_bytes());
            r.extend((*offset as u32).to_be_bytes());
        }
        r.extend((a.lefts.len() as u16).to_be_bytes());
        for (span, name, born) in &a.lefts {
            r.extend(span.to_be_bytes());
            r.extend(name.to_be_bytes());
            r.extend(born.to_be_bytes());
        }
    }
    Record { bytes: r, fault }
}

/// For the program of crates/programs_faults: images, damaged ones and whole ones, up to so many bytes in all, and the lines that it has to print by
/// the second reader.
pub fn records(folder: &Path, room: usize, seed: u64) -> i32 {
    let (mut data, mut lines) = (vec![], String::new());
    let mut random = Random::new(seed);
    for i in 0.. {
        let whole = image::write(&generator::image(seed + i)).bytes;
        let bytes = if i % 8 == 0 { whole } else { generator::damaged(&whole, &mut random) };
        let label = format!("seed {}", seed + i);
        if data.len() + label.len() + 5 + bytes.len() >= room {
            break;
        }
        data.push(label.len() as u8);
        data.extend(label.as_bytes());
        data.extend((bytes.len() as u32).to_be_bytes());
        data.extend(&bytes);
        lines += &match reader::read(&bytes) {
            Ok(_) => format!("{label} accepted {}\n", bytes.len()),
            Err(fault) => format!("{label} refused {fault}\n"),
        };
    }
    std::fs::write(folder.join("data/images"), &data).unwrap();
    std::fs::write(folder.join("stdout"), &lines).unwrap();
    println!("{} images, {} bytes, from seed {seed}", lines.lines().count(), data.len());
    0
}

/// For memory.c: the boundaries, the images of crates/programs_faults, so many generated ones and as many damaged.
pub fn write_images(path: &Path, many: u64) -> i32 {
    let trees = boundaries::all().into_iter().chain(boundaries::own_memory()).chain(boundaries::deepest());
    let mut list: Vec<_> = trees.map(|(label, tree)| (label, image::write(&tree).bytes)).chain(crate::fault_records()).collect();
    let mut random = Random::new(1);
    for seed in 0..many {
        let whole = image::write(&generator::image(seed)).bytes;
        list.push((format!("damaged {seed}"), generator::damaged(&whole, &mut random)));
        list.push((format!("seed {seed}"), whole));
    }
    let mut data = vec![];
    for (label, bytes) in &list {
        data.push(label.len() as u8);
        data.extend(label.as_bytes());
        data.extend((bytes.len() as u32).to_be_bytes());
        data.extend(bytes);
    }
    std::fs::write(path, &data).unwrap();
    println!("{} images, {} bytes", list.len(), data.len());
    0
}

/// Each image of a file through the Rust again: its record must be the stored one.
pub fn replay(path: &Path) -> i32 {
    let file = std::fs::read(path).unwrap();
    let (mut at, mut count, mut wrong) = (0, 0, 0);
    while at < file.len() {
        let label_end = at + 1 + file[at] as usize;
        let label = String::from_utf8_lossy(&file[at + 1..label_end]).into_owned();
        let size = u32::from_be_bytes(file[label_end..label_end + 4].try_into().unwrap()) as usize;
        let bytes = &file[label_end + 4..label_end + 4 + size];
        let again = record(&label, bytes, &answer::of_bytes(bytes).expect("stored images are within the domain"));
        count += 1;
        if !file[at..].starts_with(&again.bytes) {
            println!("WRONG {label}: the rest of the file is not read");
            wrong += 1;
            break;
        }
        at += again.bytes.len();
    }
    println!("{count} stored answers, {wrong} wrong");
    (wrong > 0) as i32
}
