//! Makes the copy of the second program: its source as it stands, with every fault of `faults.txt` in it, each
//! behind a test that says whether it is the one that is planted now.

use std::path::{Path, PathBuf};
use std::{env, fs};

/// A fault as `faults.txt` has it.
#[derive(Default)]
struct Fault {
    name: String,
    what: String,
    file: String,
    old: String,
    new: String,
}

fn main() {
    let folder = PathBuf::from(env::var_os("CARGO_MANIFEST_DIR").expect("cargo names the crate's folder"));
    let list = folder.join("faults.txt");
    let source = folder.with_file_name("reference").join("src");
    println!("cargo::rerun-if-changed={}", list.display());
    println!("cargo::rerun-if-changed={}", source.display());
    let faults = read(&fs::read_to_string(&list).expect("the faults can be read"));
    let out = PathBuf::from(env::var_os("OUT_DIR").expect("cargo names a folder")).join("reference.rs");
    fs::write(out, copy(&source, &faults)).expect("the copy can be written");
}

/// Blocks of lines `name:`, `what:`, `file:`, `old:` and `new:`, each begun by its name.
fn read(text: &str) -> Vec<Fault> {
    let mut faults: Vec<Fault> = Vec::new();
    for line in text.lines().filter(|line| !line.starts_with('#') && !line.is_empty()) {
        let (key, value) = line.split_once(": ").unwrap_or_else(|| panic!("no line of a fault: {line:?}"));
        if key == "name" {
            faults.push(Fault::default());
        }
        let fault = faults.last_mut().expect("a fault begins with its name");
        let field = match key {
            "name" => &mut fault.name,
            "what" => &mut fault.what,
            "file" => &mut fault.file,
            "old" => &mut fault.old,
            "new" => &mut fault.new,
            _ => panic!("no line of a fault: {line:?}"),
        };
        *field = value.to_string();
    }
    faults
}

/// All modules in one text, and the names of the faults.
fn copy(source: &Path, faults: &[Fault]) -> String {
    let mut files: Vec<PathBuf> = fs::read_dir(source)
        .expect("the second program is there")
        .map(|entry| entry.unwrap().path())
        .collect();
    files.sort();
    let mut text = String::new();
    for file in files {
        let name = file.file_name().and_then(|name| name.to_str()).expect("a file name").to_string();
        let original = fs::read_to_string(&file).expect("a source file can be read");
        let planted = plant(&original, &name, faults);
        match name.strip_suffix(".rs") {
            Some("lib") => {
                let entries = planted.lines().filter(|line| line.starts_with("pub use "));
                text += &entries.map(|line| line.to_string() + "\n").collect::<String>();
            }
            Some(module) => text += &format!("mod {module} {{\n{planted}\n}}\n"),
            None => {}
        }
    }
    let names = faults.iter().map(|fault| format!("    ({:?}, {:?}),\n", fault.name, fault.what));
    let list: String = names.collect();
    text + &format!(
        "/// Name, and what is wrong.\npub const FAULTS: [(&str, &str); {}] = [\n{list}];\n",
        faults.len()
    )
}

/// One file with its faults. Each old text must be there exactly once. A new text with FAULT in it stands in
/// the place of the old one as it is, FAULT being the test; any other is chosen by the test.
fn plant(original: &str, file: &str, faults: &[Fault]) -> String {
    let mut text = original.to_string();
    for (number, Fault { name, file: place, old, new, .. }) in faults.iter().enumerate() {
        if place != file {
            continue;
        }
        assert_eq!(
            original.matches(old.as_str()).count(),
            1,
            "{name}: the old text is not there once: {old}"
        );
        let test = format!("crate::is_planted({number})");
        let is_statement = old.ends_with(';');
        let both = if new.contains("FAULT") {
            new.replace("FAULT", &test)
        } else if is_statement {
            format!("if {test} {{ {new} }} else {{ {old} }}")
        } else {
            format!("(if {test} {{ {new} }} else {{ {old} }})")
        };
        text = text.replacen(old.as_str(), &both, 1);
    }
    text
}
