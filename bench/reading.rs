// How long reading an image takes: every image of crates/programs_faults/data/images, and of a folder if one is named, through
// `image_fault`, the slowest first. At the root of the repository, once the crate `image` is proved:
//   tools/build image && rustc --edition 2021 -O --out-dir target bench/reading.rs -L target/staticlib -l static=image && target/reading
// `bench bodies FOLDER` writes generated bodies to a folder. How many instructions one image takes:
//   valgrind --tool=callgrind --toggle-collect=image_fault target/reading --once IMAGE
use std::time::Instant;

extern "C" {
    fn image_fault(image: *const u8, length: usize) -> u64;
}

fn fault(image: &[u8]) -> u64 {
    unsafe { image_fault(image.as_ptr(), image.len()) }
}

// The records of the file: a label's length in one byte, the label, an image's length in four bytes, the image.
fn records(file: &[u8]) -> Vec<(String, &[u8])> {
    let mut list = Vec::new();
    let mut at = 0;
    while at < file.len() {
        let label = at + 1 + file[at] as usize;
        let name = String::from_utf8_lossy(&file[at + 1..label]).into_owned();
        let size = u32::from_be_bytes(file[label..label + 4].try_into().unwrap()) as usize;
        list.push((name, &file[label + 4..label + 4 + size]));
        at = label + 4 + size;
    }
    list
}

// Median and worst of many runs, in nanoseconds.
fn time(image: &[u8]) -> (u128, u128) {
    let mut runs: Vec<u128> = (0..201)
        .map(|_| {
            let start = Instant::now();
            std::hint::black_box(fault(std::hint::black_box(image)));
            start.elapsed().as_nanos()
        })
        .collect();
    runs.sort();
    (runs[runs.len() / 2], runs[runs.len() - 1])
}

// The images of a folder, by their files' names.
fn folder(path: &str) -> Vec<(String, Vec<u8>)> {
    let entries = std::fs::read_dir(path).expect("a folder of images");
    entries.map(|e| e.unwrap().path()).map(|p| (p.file_name().unwrap().to_string_lossy().into_owned(), std::fs::read(p).unwrap())).collect()
}

fn main() {
    let words: Vec<String> = std::env::args().skip(1).collect();
    if let [once, path] = &words[..] {
        assert_eq!(once, "--once");
        println!("fault {}", fault(&std::fs::read(path).expect("an image")));
        return;
    }
    let file = std::fs::read("crates/programs_faults/data/images").expect("run at the root of the repository");
    let others: Vec<_> = words.iter().flat_map(|path| folder(path)).collect();
    let stored = records(&file).into_iter();
    let all = stored.chain(others.iter().map(|(name, image)| (name.clone(), &image[..])));
    let mut rows: Vec<_> = all.map(|(name, image)| (time(image), name, image.len(), fault(image))).collect();
    rows.sort_by(|a, b| b.0.cmp(&a.0));
    println!("{:>10} {:>10} {:>8} {:>6}  image", "median ns", "worst ns", "bytes", "fault");
    let named = |name: &str| name == "example" || others.iter().any(|o| o.0 == name);
    for ((median, worst), name, bytes, fault) in rows.iter().take(12).chain(rows.iter().skip(12).filter(|r| named(&r.1))) {
        println!("{median:>10} {worst:>10} {bytes:>8} {fault:>6}  {name}");
    }
}
