//! Links the static library `ownership_pass`, if there is one: the cfg `ours`; `lent` beside it: the cfg `reports`; and an earlier
//! `ownership_pass`, its entry under another name: the cfg `before`. With the feature `mistakes`: a copy of src/rules.rs for each mistake of mistakes.txt, and the list of them.
use std::fmt::Write;
use std::path::{Path, PathBuf};
use std::process::Command;

fn main() {
    println!("cargo:rerun-if-changed=build.rs");
    let here = PathBuf::from(std::env::var("CARGO_MANIFEST_DIR").unwrap());
    link(&here);
    link_before();
    if std::env::var("CARGO_FEATURE_MISTAKES").is_ok() {
        copies(&here);
    }
}

// The libraries of the folder that OWNERSHIP_PASS_LIB names, else of ../target/staticlib. Each exports its entries alone.
fn link(here: &Path) {
    println!("cargo:rerun-if-env-changed=OWNERSHIP_PASS_LIB");
    let folder = std::env::var("OWNERSHIP_PASS_LIB").map_or(here.join("../target/staticlib"), PathBuf::from);
    println!("cargo:rustc-link-search=native={}", folder.display());
    for (name, cfg) in [("ownership_pass", "ours"), ("lent", "reports")] {
        let library = folder.join(format!("lib{name}.a"));
        println!("cargo:rustc-check-cfg=cfg({cfg})");
        println!("cargo:rerun-if-changed={}", library.display());
        if library.exists() {
            println!("cargo:rustc-link-lib=static={name}");
            println!("cargo:rustc-cfg={cfg}");
        }
    }
}

// The library of the folder that OWNERSHIP_PASS_BEFORE names, if it names one.
fn link_before() {
    println!("cargo:rerun-if-env-changed=OWNERSHIP_PASS_BEFORE");
    println!("cargo:rustc-check-cfg=cfg(before)");
    let Ok(folder) = std::env::var("OWNERSHIP_PASS_BEFORE") else { return };
    let library = Path::new(&folder).join("libownership_pass.a");
    println!("cargo:rerun-if-changed={}", library.display());
    let out = std::env::var("OUT_DIR").unwrap();
    // one object that exports nothing else, so that no name of the two libraries is the same
    let (object, archive) = (format!("{out}/before.o"), format!("{out}/libbefore.a"));
    tool("ld", &["-r", "--whole-archive", library.to_str().unwrap(), "-o", &object]);
    tool("objcopy", &["--redefine-sym=ownership_pass=before_pass", "--keep-global-symbol=before_pass", &object]);
    let _ = std::fs::remove_file(&archive);
    tool("ar", &["rcs", &archive, &object]);
    println!("cargo:rustc-link-search=native={out}");
    println!("cargo:rustc-link-lib=static=before");
    println!("cargo:rustc-cfg=before");
}

fn tool(name: &str, words: &[&str]) {
    assert!(Command::new(name).args(words).status().is_ok_and(|s| s.success()), "{name} {words:?} failed");
}

fn copies(here: &Path) {
    println!("cargo:rerun-if-changed=mistakes.txt");
    println!("cargo:rerun-if-changed=src/rules.rs");
    let out = PathBuf::from(std::env::var("OUT_DIR").unwrap());
    let rules = std::fs::read_to_string(here.join("src/rules.rs")).unwrap();
    // `//!` lines belong to a file's top
    let rules: String = rules.lines().filter(|l| !l.starts_with("//!") && !l.starts_with("#![")).map(|l| format!("{l}\n")).collect();
    let (mut modules, mut list) = (String::new(), String::new());
    for (i, mistake) in mistakes(&std::fs::read_to_string(here.join("mistakes.txt")).unwrap()).iter().enumerate() {
        assert!(rules.contains(&mistake.old), "mistakes.txt: src/rules.rs has no\n{}", mistake.old);
        let file = out.join(format!("rules_{i}.rs"));
        std::fs::write(&file, rules.replacen(&mistake.old, &mistake.new, 1)).unwrap();
        writeln!(modules, "#[allow(warnings)] #[path = {:?}] mod rules_{i};", file.display().to_string()).unwrap();
        let text = format!("{} -> {}", mistake.old, mistake.new);
        writeln!(list, "({text:?}, {}, {}, rules_{i}::of_switched),", mistake.equivalent, mistake.runs).unwrap();
    }
    let text = format!("{modules}\npub const ALL: &[(&str, bool, bool, crate::brute::Pass)] = &[{list}];\n");
    std::fs::write(out.join("mistakes.rs"), text).unwrap();
}

struct Mistake {
    equivalent: bool,
    runs: bool,
    old: String,
    new: String,
}

// `-` and a text, `+` and another in its place; `=` says first that no image can tell them apart, `!` that runs show it too.
fn mistakes(text: &str) -> Vec<Mistake> {
    let mut list: Vec<Mistake> = vec![];
    let (mut equivalent, mut runs) = (false, false);
    for line in text.lines() {
        match line.split_at_checked(2) {
            Some(("= ", _)) => equivalent = true,
            Some(("! ", _)) => runs = true,
            Some(("- ", old)) => {
                list.push(Mistake { equivalent, runs, old: old.to_string(), new: String::new() });
                (equivalent, runs) = (false, false);
            }
            Some(("+ ", new)) => list.last_mut().unwrap().new = new.to_string(),
            _ => {}
        }
    }
    list
}
