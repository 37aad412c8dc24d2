//! The folders of src/ depend on each other in the directions that their mod.rs say, and in no other.

use std::fs;
use std::path::{Path, PathBuf};

/// Each folder and the folders that it may use; files beside them may use all but the tests'.
const MAY_USE: [(&str, &[&str]); 6] = [
    ("model", &["model"]),
    ("listings", &["listings", "model"]),
    ("inputs", &["inputs", "listings", "model"]),
    ("compare", &["compare", "inputs", "listings", "model"]),
    ("cases", &["cases", "inputs", "listings", "model"]),
    (
        "wrong",
        &["wrong", "compare", "inputs", "listings", "model"],
    ),
];

/// All files below a folder.
fn files_below(folder: &Path) -> Vec<PathBuf> {
    let mut files = Vec::new();
    for entry in fs::read_dir(folder).expect("a folder") {
        let path = entry.expect("an entry").path();
        match path.is_dir() {
            true => files.extend(files_below(&path)),
            false => files.push(path),
        }
    }
    files
}

/// The folders and files of src/ that a text names, as what stands behind each `crate::`.
fn named(text: &str) -> Vec<&str> {
    let behind = text.split("crate::").skip(1);
    let end =
        |rest: &str| rest.find(|letter: char| !letter.is_ascii_alphanumeric() && letter != '_');
    behind
        .map(|rest| &rest[..end(rest).unwrap_or(rest.len())])
        .collect()
}

/// What a folder's file uses and may not.
fn strays(folder: &str, text: &str) -> Vec<String> {
    let (_, may_use) = MAY_USE
        .iter()
        .find(|(name, _)| *name == folder)
        .expect("a known folder");
    let stray = |name: &&str| !may_use.contains(name);
    named(text)
        .into_iter()
        .filter(stray)
        .map(str::to_string)
        .collect()
}

#[test]
fn every_folder_keeps_its_directions() {
    let src = Path::new(env!("CARGO_MANIFEST_DIR")).join("src");
    let mut seen = 0;
    for path in files_below(&src) {
        let below = path.strip_prefix(&src).expect("below src").to_path_buf();
        if below.components().count() == 1 {
            continue;
        }
        let folder = below
            .iter()
            .next()
            .expect("a folder")
            .to_string_lossy()
            .to_string();
        let text = fs::read_to_string(&path).expect("text");
        seen += named(&text).len();
        assert_eq!(strays(&folder, &text), [""; 0], "{}", below.display());
    }
    assert!(seen > 300, "only {} uses were seen", seen);
}

#[test]
fn a_stray_use_is_found() {
    let text =
        "use crate::model::log;\nfn f() { crate::compare::run::run() }\nuse crate::{inputs};";
    assert_eq!(strays("compare", text), [""], "no list behind crate::");
    assert_eq!(strays("listings", text), ["compare", ""]);
}
