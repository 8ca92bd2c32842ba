//! Makes a slip in a copy of the definitions and has the prover judge a refutation of the safety claim over that copy.

use std::fs;
use std::path::{Path, PathBuf};
use std::process::Command;

mod roster;

pub use roster::{bytes_of, Roster, Step};

/// One change of a definition: the file under `crates/`, what stands there once, and what is put in its place.
pub struct Edit {
    pub file: &'static str,
    pub old: &'static str,
    pub new: &'static str,
}

/// What is to be refuted: the claim for this roster after these events, and the antt proof of `Safe .. → ⊥`.
pub struct Case {
    pub roster: Roster,
    pub events: &'static str,
    pub proof: &'static str,
}

/// The crates whose definitions the claim is made of, in dependency order.
const CRATES: [&str; 5] = ["rules", "words", "format", "trace", "safety"];

/// Whether the prover accepts the refutation over the copy with these edits; the second part is what it printed.
pub fn accepted(name: &str, edits: &[Edit], case: &Case) -> (bool, String) {
    let copy = copy_of_definitions(name);
    for edit in edits {
        make(&copy, edit);
    }
    write_refutation(&copy, case);
    let output = Command::new("rt")
        .arg("check")
        .current_dir(copy.join("crates/safety"))
        .output()
        .expect("rt is installed");
    let mut text = String::from_utf8_lossy(&output.stdout).into_owned();
    text.push_str(&String::from_utf8_lossy(&output.stderr));
    let _ = fs::remove_dir_all(&copy);
    (output.status.success(), text)
}

fn root() -> PathBuf {
    Path::new(env!("CARGO_MANIFEST_DIR")).join("../..")
}

/// A repository of its own with the definitions alone: no functions, no laws. Outside this one, where rt ci refuses such files.
fn copy_of_definitions(name: &str) -> PathBuf {
    let copy = std::env::temp_dir()
        .join(format!("slips-{}", std::process::id()))
        .join(name);
    let _ = fs::remove_dir_all(&copy);
    let mut listed = String::new();
    let mut below = String::new();
    for name in CRATES {
        copy_crate(&copy, name);
        listed.push_str(&format!("{name}:{below}\n"));
        below.push_str(&format!(" {name}"));
    }
    write(&copy.join("crates.txt"), &listed);
    fs::create_dir_all(copy.join(".git")).expect("the folder can be made");
    copy
}

/// The modules of a crate's definitions that name no other crates than these and std; the bridge to the methods is none of them.
fn modules(name: &str) -> Vec<String> {
    let specs = root().join("crates").join(name).join("specs");
    read(&specs.join("Lib.antt"))
        .lines()
        .filter_map(|line| line.strip_prefix("pub mod "))
        .filter(|file| names_only_these(&read(&specs.join(format!("{file}.antt")))))
        .map(String::from)
        .collect()
}

fn names_only_these(text: &str) -> bool {
    text.split("Rattle.").skip(1).all(|rest| {
        let name = rest.split('.').next().unwrap_or_default();
        name == "std" || CRATES.contains(&name)
    })
}

fn copy_crate(copy: &Path, name: &str) {
    let from = root().join("crates").join(name);
    let to = copy.join("crates").join(name);
    let mut lib = String::new();
    for file in modules(name) {
        let text = read(&from.join(format!("specs/{file}.antt")));
        write(&to.join(format!("specs/{file}.antt")), &text);
        lib.push_str(&format!("pub mod {file}\n"));
    }
    write(&to.join("specs/Lib.antt"), &lib);
    write(
        &to.join("src/lib.rt"),
        &types(&read(&from.join("src/lib.rt"))),
    );
}

/// The types that a source declares, with what it brings in for them.
fn types(source: &str) -> String {
    let mut declared = String::new();
    let mut before = "";
    for line in source.lines() {
        if line.starts_with("pub struct ") || line.starts_with("pub enum ") {
            declared.push_str(&declaration(source, before, line));
        }
        before = line;
    }
    let brought: String = source
        .lines()
        .filter_map(|line| kept(line, &declared))
        .collect();
    format!("// The declared types alone.\n#![tactic(auto)]\n\n{brought}{declared}")
}

/// A line that brings names in, with those of them that a declaration uses.
fn kept(line: &str, declared: &str) -> Option<String> {
    let (from, names) = line
        .strip_prefix("use ")?
        .strip_suffix(';')?
        .rsplit_once("::")?;
    let names: Vec<&str> = names
        .trim_matches(['{', '}'])
        .split(", ")
        .filter(|name| uses(declared, name))
        .collect();
    (!names.is_empty()).then(|| format!("use {from}::{{{}}};\n", names.join(", ")))
}

/// Whether a name stands in a text as a word.
fn uses(text: &str, name: &str) -> bool {
    text.split(|c: char| !c.is_alphanumeric() && c != '_')
        .any(|word| word == name)
}

/// The text of a declaration from its first line up to its end, with the derives that stand on the line before it.
fn declaration(source: &str, before: &str, first: &str) -> String {
    let start = source.find(first).expect("a line of the source");
    let rest = &source[start..];
    let end = if first.ends_with(';') {
        first.len()
    } else {
        rest.find("\n}").expect("the end of a declaration") + 2
    };
    let derives = match before.starts_with("#[derive(") {
        true => format!("{before}\n"),
        false => String::new(),
    };
    format!("\n{derives}{}\n", &rest[..end])
}

fn make(copy: &Path, edit: &Edit) {
    let path = copy.join("crates").join(edit.file);
    let text = read(&path);
    assert_eq!(
        text.matches(edit.old).count(),
        1,
        "{} in {}",
        edit.old,
        edit.file
    );
    write(&path, &text.replace(edit.old, edit.new));
}

/// safety/proofs/Slip.antt: the roster passes, and the claim for it is absurd; both by computation.
fn write_refutation(copy: &Path, case: &Case) {
    let (uses, unfolding) = all_definitions(copy);
    let numbers: Vec<String> = bytes_of(&case.roster).iter().map(u8::to_string).collect();
    let text = format!(
        "{uses}{IMPORTS}\nbytes : List ℕ\nbytes = {} ∷ []\n\nevents : List Event\nevents = {}\n\n\
         passes : passed (check_of bytes) ≡ true\n{unfolding} bytes\npasses = refl\n\n\
         unsafe : Safe (roster_of bytes) events → ⊥\n{unfolding} bytes events\nunsafe s = {}\n",
        numbers.join(" ∷ "),
        case.events,
        case.proof,
    );
    write(&copy.join("crates/safety/proofs/Slip.antt"), &text);
    write(
        &copy.join("crates/safety/proofs/Lib.antt"),
        "pub mod Slip\n",
    );
}

const IMPORTS: &str = "use mathlib.Core.Path.{◌≡◌, refl}
use mathlib.Core.Bool.{true}
use mathlib.Core.List.{List, [], ◌∷◌}
use Prim.Native.Nat.{ℕ}
use native.Mathlib.Omega.{arith}
use Rattle.std.specs.Prelude.{None, Some, Ok, Err}
use Rattle.rules.specs.declared.Refusal.TheVariants.{AboveCeiling}
use Rattle.format.specs.Answers.{passed}
use Rattle.format.specs.Check.{check_of}
use Rattle.format.specs.Roster.{Roster, roster_of}
use Rattle.safety.specs.History.{Event, clock, release, step}
use Rattle.safety.specs.Safe.{Safe, running, step_answer}
";

/// Import lines for every module, and one `unfolding` line that names every definition that does not unfold by itself.
fn all_definitions(copy: &Path) -> (String, String) {
    let mut uses = String::new();
    let mut unfolding = String::from("unfolding");
    for crate_name in CRATES {
        for file in modules(crate_name) {
            let alias = format!("{crate_name}{file}");
            uses.push_str(&format!(
                "use Rattle.{crate_name}.specs.{file} as {alias}\n"
            ));
            let text = read(&copy.join(format!("crates/{crate_name}/specs/{file}.antt")));
            for line in text.lines() {
                if let Some(rest) = line.strip_prefix("unfoldable pub ") {
                    let name = rest.split(' ').next().unwrap_or_default();
                    unfolding.push_str(&format!(" {alias}.{name}"));
                }
            }
        }
    }
    (uses, unfolding)
}

fn read(path: &Path) -> String {
    fs::read_to_string(path).unwrap_or_else(|e| panic!("{}: {e}", path.display()))
}

fn write(path: &Path, text: &str) {
    fs::create_dir_all(path.parent().expect("a folder")).expect("the folder can be made");
    fs::write(path, text).unwrap_or_else(|e| panic!("{}: {e}", path.display()));
}
