//! Takes the Rust original from `MAKO_SRC` and writes the parts that are asked
//! into OUT_DIR/original.rs, so that no line of it stands in this repository.

use std::path::{Path, PathBuf};
use std::{env, fs};

const PROFILE: &str = "crates/edi-energy/src/profile";
const DEFAULTS: [&str; 2] = ["docs/src", "../shared/docs/src"];
/// The conditions that need check digits; they answer Unregistered.
const IDENTIFIERS: [&str; 6] = ["922", "950", "951", "953", "960", "961"];

fn main() {
    println!("cargo::rerun-if-env-changed=MAKO_SRC");
    println!("cargo::rerun-if-env-changed=MAKO_FAULT");
    println!("cargo::rerun-if-changed=faults.txt");
    println!("cargo::rerun-if-changed=build.rs");
    if let Err(why) = assemble() {
        println!("cargo::error={why}");
    }
}

fn assemble() -> Result<(), String> {
    let profile = original()?.join(PROFILE);
    let mut conditions = before_patterns(&read(&profile, "conditions.rs")?)?;
    let mut formats = guarded(&read(&profile, "formatbedingung.rs")?)?;
    let from_bool = from_bool(&read(&profile, "validate.rs")?)?;
    if let Ok(number) = env::var("MAKO_FAULT") {
        put_fault(&number, &mut conditions, &mut formats)?;
    }
    let inside = manifest().join("src/inside.rs");
    let text = format!(
        "#[allow(dead_code)]\npub mod conditions {{\n{conditions}\n#[path = {inside:?}]\npub mod inside;\n}}\n\
         #[allow(dead_code)]\npub mod formatbedingung {{\n{formats}\nuse crate::standin::{{rubo4e, time}};\n}}\n\
         mod validate {{\nuse super::conditions::Truth;\n{from_bool}\n}}\n"
    );
    let out = PathBuf::from(env::var_os("OUT_DIR").ok_or("OUT_DIR is not set")?);
    fs::write(out.join("original.rs"), text).map_err(|e| e.to_string())
}

fn manifest() -> PathBuf {
    PathBuf::from(env::var_os("CARGO_MANIFEST_DIR").unwrap_or_default())
}

/// The folder of the original: `MAKO_SRC`, else the first default that is there.
fn original() -> Result<PathBuf, String> {
    let root = manifest().join("..");
    let named = env::var("MAKO_SRC").ok().filter(|s| !s.is_empty());
    let tried = match &named {
        Some(path) => vec![root.join(path)],
        None => DEFAULTS.iter().map(|path| root.join(path)).collect(),
    };
    let found = tried.into_iter().find(|dir| dir.join(PROFILE).is_dir());
    found.ok_or(format!("the Rust original is not there: set MAKO_SRC to the folder that holds {PROFILE}"))
}

fn read(profile: &Path, name: &str) -> Result<String, String> {
    let path = profile.join(name);
    println!("cargo::rerun-if-changed={}", path.display());
    fs::read_to_string(&path).map_err(|e| format!("{}: {e}", path.display()))
}

/// conditions.rs up to the first item that needs other crates.
fn before_patterns(text: &str) -> Result<String, String> {
    let lines: Vec<&str> = text.lines().collect();
    let marker = |line: &&str| line.starts_with("pub struct SegmentPattern");
    let mut end = lines.iter().position(marker).ok_or("conditions.rs has no SegmentPattern to cut at")?;
    while end > 0 && (lines[end - 1].starts_with("///") || lines[end - 1].starts_with("#[")) {
        end -= 1;
    }
    Ok(lines[..end].join("\n"))
}

/// formatbedingung.rs with the six identifier conditions shut off in `evaluate`.
fn guarded(text: &str) -> Result<String, String> {
    let start = text.find("pub fn evaluate(").ok_or("formatbedingung.rs has no evaluate")?;
    let length = text[start..].find("\n}\n").ok_or("evaluate has no end in formatbedingung.rs")?;
    let mut body = text[start..start + length].to_owned();
    for id in IDENTIFIERS {
        replace_once(&mut body, &format!("\"{id}\" =>"), &format!("\"{id}\" if false =>"))
            .map_err(|why| format!("the arm {id} of evaluate: {why}"))?;
    }
    Ok(format!("{}{body}{}", &text[..start], &text[start + length..]))
}

/// The one conversion of validate.rs.
fn from_bool(text: &str) -> Result<String, String> {
    let start = text.find("impl From<bool> for Truth {").ok_or("validate.rs has no From<bool> for Truth")?;
    let length = text[start..].find("\n}\n").ok_or("From<bool> for Truth has no end in validate.rs")?;
    Ok(text[start..start + length + 2].to_owned())
}

/// Puts the fault of faults.txt with this number into the copy.
fn put_fault(number: &str, conditions: &mut String, formats: &mut String) -> Result<(), String> {
    let list = fs::read_to_string(manifest().join("faults.txt")).map_err(|e| e.to_string())?;
    let fields: Vec<&str> = list
        .lines()
        .map(|line| line.split('\t').collect::<Vec<_>>())
        .find(|fields| fields[0] == number)
        .ok_or(format!("faults.txt has no fault {number}"))?;
    let [_, _, file, old, new] = fields[..] else {
        return Err(format!("fault {number} of faults.txt has not five fields"));
    };
    let copy = if file == "conditions.rs" { conditions } else { formats };
    replace_once(copy, old, new).map_err(|why| format!("fault {number}: {why}"))
}

fn replace_once(text: &mut String, old: &str, new: &str) -> Result<(), String> {
    match text.matches(old).count() {
        1 => *text = text.replacen(old, new, 1),
        n => return Err(format!("found {n} times, not once")),
    }
    Ok(())
}
