//! What the copy of mod.rs with probes notes down: the first fault of the walk, and the states of the outermost frame at the end.
use crate::atlas_c::utils::Span;
use std::cell::{Cell, RefCell};

/// What the files of spans contain.
pub const FILE: &str = "fun body() {}\n";

pub type States = Vec<(String, u8, Vec<Span>)>;

thread_local! {
    static FAULT: Cell<u8> = const { Cell::new(0) };
    static STATES: RefCell<States> = const { RefCell::new(Vec::new()) };
    static LOOPS: RefCell<Vec<usize>> = const { RefCell::new(Vec::new()) };
    static SWITCHES: Cell<Option<u32>> = const { Cell::new(None) };
}

/// The copy makes the drops of these switches; with none it puts what is left behind before breaks and continues, with births.
pub fn switch(switches: Option<u32>) {
    SWITCHES.set(switches);
}

pub fn listing() -> bool {
    SWITCHES.get().is_none()
}

pub fn switched(bit: u32) -> bool {
    SWITCHES.get().is_some_and(|w| w & bit != 0)
}

/// The body of a loop is the frame of this number.
pub fn into_loop(frame: usize) {
    LOOPS.with_borrow_mut(|l| l.push(frame));
}

pub fn out_of_loop() {
    LOOPS.with_borrow_mut(|l| l.pop());
}

/// The frame of the body of the nearest loop.
pub fn nearest_loop() -> Option<usize> {
    LOOPS.with_borrow(|l| l.last().copied())
}

/// So many locals are registered, the new one among them.
pub fn registered(locals: usize) {
    if locals > 64 {
        note(12);
    }
}

/// A join gave a state with so many places.
pub fn joined(places: usize) {
    if places > 8 {
        note(13);
    }
}

fn note(fault: u8) {
    if FAULT.get() == 0 {
        FAULT.set(fault);
    }
}

pub fn ended(states: States) {
    STATES.replace(states);
}

/// The file of a span, from memory.
pub fn file_content(_: &str) -> Result<String, std::io::Error> {
    Ok(FILE.to_string())
}

/// The first fault since the last call, 0 if none, and the last states.
pub fn taken() -> (u8, States) {
    assert_eq!(nearest_loop(), None, "every loop was left");
    (FAULT.replace(0), STATES.take())
}
