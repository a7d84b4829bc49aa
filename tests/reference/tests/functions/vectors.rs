//! The stored scripts on sheets with functions, of another independent implementation, record by
//! record.

use std::collections::BTreeMap;
use std::fs;
use std::path::{Path, PathBuf};
use std::process::Command;

use reference::differ::difference;
use reference::replay::{Script, replay_by};
use reference::sheet::read_with_functions;

const STORED: &str = concat!(env!("CARGO_MANIFEST_DIR"), "/../data/functions.tar.gz");
const CASES: usize = 403;

/// The archive unpacked into a folder of its own.
fn unpacked() -> PathBuf {
    let folder = Path::new(env!("CARGO_TARGET_TMPDIR")).join("functions");
    let _ = fs::remove_dir_all(&folder);
    fs::create_dir_all(&folder).expect("a folder");
    let status = Command::new("tar").args(["-xzf", STORED, "-C"]).arg(&folder).status();
    assert!(status.expect("tar runs").success());
    folder.join("functions")
}

/// By name: a script and the lines it should give.
fn cases() -> BTreeMap<String, (Vec<u8>, Vec<u8>)> {
    let folder = unpacked();
    let names = fs::read_dir(&folder).expect("the folder").map(|entry| entry.expect("a file"));
    let names = names.filter_map(|entry| {
        Some(entry.file_name().to_str()?.strip_suffix(".script")?.to_string())
    });
    let case = |name: String| {
        let bytes = |end| fs::read(folder.join(format!("{name}.{end}"))).expect("a file");
        (name.clone(), (bytes("script"), bytes("expected")))
    };
    names.map(case).collect()
}

#[test]
fn each_record_gives_the_stored_line() {
    let cases = cases();
    assert_eq!(cases.len(), CASES);
    let mut records = 0;
    let mut differing = Vec::new();
    for (name, (script, expected)) in &cases {
        let mut out = Vec::new();
        replay_by(read_with_functions, script, &mut out).expect("a list takes all");
        records += Script::read(script).records.len();
        if let Some(text) = difference(script, expected, &out) {
            differing.push(format!("{name}: {text}"));
        }
    }
    assert_eq!(differing, [""; 0]);
    assert_eq!(records, 2740);
}
