//! Deliberate mistakes in the reading of the definitions (mistakes.txt): the images of this bench must find each that an image can show,
//! under all switches off or under another setting; those that break demand 3 the runs of plain bodies too.
use crate::brute::Brute;
use crate::image::Image;
use crate::{answer, boundaries, corners, generator, image, plain, reader};

include!(concat!(env!("OUT_DIR"), "/mistakes.rs"));

/// Each image made by hand under all settings, a generated one under all off and one other.
pub fn find(images: u64) -> i32 {
    let mut found = vec![false; ALL.len()];
    let by_hand = corners::others().into_iter().chain(boundaries::all()).map(|(_, tree)| tree);
    by_hand.chain(corners::rows().into_iter().map(|r| r.image)).for_each(|tree| (0..16).for_each(|w| show(&tree, w, &mut found)));
    println!("{} mistakes; by corners and boundaries {} are found", ALL.len(), count(&found));
    for seed in 1..=images {
        [0, 1 + (seed % 15) as u32].iter().for_each(|w| show(&generator::image(seed), *w, &mut found));
        show(&generator::jumping(seed), (seed % 16) as u32, &mut found);
    }
    let wrong = not_as_expected(ALL.iter().map(|m| !m.1), &found, "by images");
    println!("with {images} generated images {}; {wrong} not as expected, the others show in no image", count(&found));
    wrong as i32 + runs(images) as i32
}

// What the runs of so many plain bodies show: at least the mistakes that have a `!`.
fn runs(bodies: u64) -> usize {
    let mut found = vec![false; ALL.len()];
    for seed in 1..=bodies {
        let tree = plain::body(seed);
        for (found, (_, _, _, mistaken)) in found.iter_mut().zip(ALL).filter(|(found, _)| !**found) {
            *found = (0..16).any(|w| Brute::default().setting(&tree, w, *mistaken).is_err());
        }
    }
    let wrong = not_as_expected(ALL.iter().zip(&found).map(|(m, found)| m.2 || *found), &found, "by runs");
    println!("by the runs of {bodies} plain bodies {} are found; {wrong} not as expected", count(&found));
    wrong
}

fn not_as_expected(expected: impl Iterator<Item = bool>, found: &[bool], how: &str) -> usize {
    let wrong = ALL.iter().zip(expected.zip(found)).filter(|(_, (expected, found))| expected != *found);
    wrong.map(|((text, ..), (_, found))| println!("NOT AS EXPECTED: {} {how}: {text}", if *found { "found" } else { "not found" })).count()
}

fn count(found: &[bool]) -> usize {
    found.iter().filter(|f| **f).count()
}

fn show(tree: &Image, switches: u32, found: &mut [bool]) {
    let Ok(tree) = reader::read(&image::write(tree).bytes) else { return };
    let rust = answer::of_switched(&tree, switches);
    for (found, (_, _, _, mistaken)) in found.iter_mut().zip(ALL).filter(|(found, _)| !**found) {
        *found = mistaken(&tree, switches) != rust;
    }
}
