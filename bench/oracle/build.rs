//! Puts the published files, byte for byte, beside the stand-ins for those that are missing, and makes the copy of mod.rs with
//! probes. All of it goes to OUT_DIR; nothing of it is in the repository.
use std::fs;
use std::path::{Path, PathBuf};

const HIR: &str = "src/atlas_c/atlas_hir";

fn main() {
    let here = PathBuf::from(std::env::var("CARGO_MANIFEST_DIR").unwrap());
    let out = PathBuf::from(std::env::var("OUT_DIR").unwrap());
    let from = match std::env::var("ATLAS77_SRC") {
        Ok(folder) => PathBuf::from(folder),
        Err(_) => here.join("../../../shared/docs/src"),
    };
    println!("cargo:rerun-if-env-changed=ATLAS77_SRC");
    println!("cargo:rerun-if-changed=published.txt");
    println!("cargo:rerun-if-changed=standins");

    let mut pass = String::new();
    for line in fs::read_to_string(here.join("published.txt")).unwrap().lines() {
        let [path, size, hash] = line.split(' ').collect::<Vec<_>>()[..] else { panic!("published.txt: {line}") };
        let source = from.join(path);
        println!("cargo:rerun-if-changed={}", source.display());
        let bytes = fs::read(&source).unwrap_or_else(|e| panic!("{}: {e}; set ATLAS77_SRC", source.display()));
        assert_eq!(
            (bytes.len().to_string().as_str(), format!("{:016x}", fnv(&bytes)).as_str()),
            (size, hash),
            "{path} is not the published file"
        );
        let copy = out.join(place_of(path));
        write(&copy, &bytes);
        assert_eq!(fs::read(&copy).unwrap(), bytes);
        if path.ends_with("ownership_pass/mod.rs") {
            pass = String::from_utf8(bytes).unwrap();
        }
    }

    for (file, place) in [
        ("atlas_c.rs", "src/atlas_c/mod.rs".to_string()),
        ("parser.rs", "src/atlas_c/atlas_frontend.rs".to_string()),
        ("arena.rs", format!("{HIR}/arena.rs")),
        ("item.rs", format!("{HIR}/item.rs")),
        ("monomorphization_pass.rs", format!("{HIR}/monomorphization_pass.rs")),
        ("wrapper.rs", format!("{HIR}/ownership_pass/mod.rs")),
    ] {
        write(&out.join(place), &fs::read(here.join("standins").join(file)).unwrap());
    }
    // modules that mod.rs of atlas_hir declares and nothing here uses
    for empty in ["scope", "syntax_lowering_pass", "type_check_pass", "intrinsic_methods"] {
        write(&out.join(format!("{HIR}/{empty}.rs")), b"");
    }

    write(&out.join("probe/published.rs"), probed(pass).as_bytes());
    write(&out.join("probe/mod.rs"), &fs::read(here.join("standins/wrapper.rs")).unwrap());
    let modules = [("atlas_c", out.join("src/atlas_c/mod.rs")), ("ownership_probe", out.join("probe/mod.rs"))];
    let root: String =
        modules.iter().map(|(name, file)| format!("#[path = {:?}]\npub mod {name};\n", file.display().to_string())).collect();
    write(&out.join("root.rs"), root.as_bytes());
}

// ownership_pass/mod.rs is included by the wrapper that stands in its place.
fn place_of(path: &str) -> String {
    path.replace("ownership_pass/mod.rs", "ownership_pass/published.rs")
}

// mod.rs with a note of each registration and each join, of the states at the end, with the file answered from memory, with what is left behind
// as drops before breaks and continues, and with births; or else with the drops of document 02, (e).
fn probed(pass: String) -> String {
    let pass = replace(
        pass,
        1,
        "var: LocalVar<'hir>) {\n",
        "var: LocalVar<'hir>) {\n        crate::probe::registered(1 + scope_stack.iter().map(|f| f.locals.len()).sum::<usize>());\n",
    );
    let join = "self.merge_join_state(base_state, then_state, else_state)";
    let pass = replace(pass, 1, join, &format!("{{ let joined = {join}; crate::probe::joined(self.state_spans(&joined).len()); joined }}"));
    let walk = "self.transform_block(body.clone(), &mut scope_stack);";
    let pass = replace(pass, 2, walk, &format!("{walk} crate::probe::ended(states_of(&scope_stack));"));
    // document 02, (c): before a break or continue, as collect_scope_drops has them, the drops of the frames from the innermost out to the
    // body of the nearest loop
    let looped = "while_stmt.body = self.transform_block(while_stmt.body, &mut loop_stack);";
    let pass = replace(pass, 1, looped, &format!("crate::probe::into_loop(loop_stack.len()); {looped} crate::probe::out_of_loop();"));
    let pass = ["Break", "Continue"].iter().fold(pass, |pass, jump| {
        let push = format!("HirStatement::{jump}(span) => statements.push(HirStatement::{jump}(span)),");
        let drops = "let from = crate::probe::nearest_loop().unwrap_or(scope_stack.len()); if crate::probe::listing() || crate::probe::switched(2) { statements.extend(self.collect_scope_drops(&scope_stack[from..], None)); }";
        let listed = format!("HirStatement::{jump}(span) => {{ {drops} statements.push(HirStatement::{jump}(span)) }}");
        replace(pass, 1, &push, &listed)
    });
    // document 02, (d): a local keeps the span of the Let or Const that registered it, the default one for parameters and `this`; in the drops of
    // collect_scope_drops it is the span of the Ident
    let pass = replace(pass, 1, "is_compiler_temp: bool,\n", "is_compiler_temp: bool,\n    born: crate::atlas_c::utils::Span,\n");
    let pass = replace(pass, 3, "is_compiler_temp: false,", "is_compiler_temp: false, born: Default::default(),");
    let temp = |of: &str| format!("is_compiler_temp: self.is_compiler_temp_name({of}.name),");
    let pass = [("param", 2, "Default::default()"), ("let_stmt", 1, "let_stmt.span"), ("const_stmt", 1, "const_stmt.span")]
        .iter()
        .fold(pass, |pass, (of, times, born)| replace(pass, *times, &temp(of), &format!("{} born: {born},", temp(of))));
    let drops = "drops.push(self.delete_stmt_for(\n                        crate::atlas_c::utils::Span::default(),\n                        local.name,\n                        local.ty,\n                    ));";
    let born = format!("{drops} if crate::probe::listing() {{ born_at(drops.last_mut(), local.born); }}");
    let pass = replace(pass, 1, drops, &born);
    let pass = switched(pass);
    replace(pass, 7, "utils::get_file_content(", "crate::probe::file_content(")
}

// document 02, (e): 1, a bare return drops as one with a value that excludes no name (2 is above); 4, two differing conditional states of one
// family join to a conditional one; 8, the end of the body's block drops the parameter frame too, unless it surely returns
fn switched(pass: String) -> String {
    let ret = "statements.push(HirStatement::Return(ret));";
    let drops = "if ret.value.is_none() && crate::probe::switched(1) { statements.extend(self.collect_scope_drops(scope_stack, None)); }";
    let pass = replace(pass, 1, ret, &format!("{drops} {ret}"));
    let family = "if self.is_delete_family(&then_state) && self.is_delete_family(&else_state) {";
    let both = "let both = || self.combine_spans(self.state_spans(&then_state), self.state_spans(&else_state));";
    let kept = ["Deleted", "Moved", "Consumed"].map(|kind| {
        let state = format!("OwnershipState::Conditionally{kind}");
        format!("if crate::probe::switched(4) && matches!((&then_state, &else_state), ({state}(_), {state}(_))) {{ {both} return {state}(both()); }}")
    });
    let pass = replace(pass, 1, family, &format!("{} {family}", kept.join(" ")));
    let tail = "statements.extend(tail_drops);";
    let given = "if crate::probe::switched(8) && scope_stack.len() == 2 {
                for local in scope_stack[0].locals.iter().rev() {
                    if matches!(scope_stack[0].states.get(local.name), Some(OwnershipState::Alive)) && self.should_auto_delete_local(local) {
                        tail_drops.push(self.delete_stmt_for(block.span, local.name, local.ty));
                    }
                }
            }";
    replace(pass, 1, tail, &format!("{given} {tail}"))
}

fn replace(text: String, times: usize, old: &str, new: &str) -> String {
    assert_eq!(text.matches(old).count(), times, "{old}");
    text.replace(old, new)
}

fn write(path: &Path, bytes: &[u8]) {
    fs::create_dir_all(path.parent().unwrap()).unwrap();
    fs::write(path, bytes).unwrap();
}

// FNV-1a
fn fnv(bytes: &[u8]) -> u64 {
    bytes.iter().fold(0xcbf29ce484222325, |h, b| (h ^ *b as u64).wrapping_mul(0x100000001b3))
}
