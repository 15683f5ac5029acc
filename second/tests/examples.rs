//! The examples folder holds what the library makes and prints.

use std::collections::BTreeSet;
use std::fs;
use std::path::PathBuf;

use second::examples::{sheet, NAMES};
use second::lines::print;

fn folder() -> PathBuf {
    PathBuf::from(concat!(env!("CARGO_MANIFEST_DIR"), "/../examples"))
}

/// The names in the folder with an ending.
fn names(ending: &str) -> BTreeSet<String> {
    fs::read_dir(folder())
        .unwrap()
        .filter_map(|entry| {
            let name = entry.unwrap().file_name().into_string().unwrap();
            name.strip_suffix(ending).map(str::to_string)
        })
        .collect()
}

#[test]
fn every_sheet_in_the_folder_prints_its_lines() {
    let sheets = names(".sheet");
    assert!(sheets.len() >= NAMES.len());
    assert_eq!(sheets, names(".lines"));
    for name in sheets {
        let sheet = fs::read(folder().join(format!("{name}.sheet"))).unwrap();
        let lines = fs::read(folder().join(format!("{name}.lines"))).unwrap();
        assert_eq!(
            String::from_utf8(print(&sheet)).unwrap(),
            String::from_utf8(lines).unwrap(),
            "{name}"
        );
    }
}

#[test]
fn every_named_example_is_in_the_folder() {
    for name in NAMES {
        let kept = fs::read(folder().join(format!("{name}.sheet"))).unwrap();
        assert_eq!(Some(kept), sheet(name), "{name}");
    }
    assert_eq!(sheet("no such example"), None);
}

#[test]
fn the_readme_names_every_example() {
    let readme = fs::read_to_string(folder().join("README.md")).unwrap();
    for name in names(".sheet") {
        assert!(readme.contains(&format!("`{name}`")), "{name}");
    }
}
