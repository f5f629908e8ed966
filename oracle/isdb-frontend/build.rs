//! Lays the five files of isdb-rs out for the compiler, in cargo's target folder: copies of them, and an empty module for
//! each of the others that their lib.rs names. Nothing is changed but for one number: where `LOOP_DELAY` asks for another
//! delay than isdb-rs has, params.rs is written with that constant set to it.
//!
//! They are copies and not links, since the gate refuses a checkout that has a link anywhere.
//!
//! `ISDB_RS` is the path to isdb-rs, ../shared/docs/src beside this repository if it is not set. `LOOP_DELAY` is a number
//! from 1 to 24, and 24 if it is not set.

use std::path::{Path, PathBuf};
use std::{env, fs};

/// The files that are compiled.
const TAKEN: [&str; 5] = ["lib.rs", "fixed.rs", "tables.rs", "params.rs", "float.rs"];

/// The file that has the loop's delay, and its line there.
const PARAMS: &str = "params.rs";
const DELAY_LINE: &str = "\npub const LOOP_DELAY: usize = 24;\n";

/// What params.rs reads of `format`, for a figure that no comparison asks for.
const FORMAT: &str = "pub const HEADER_WORDS: usize = 0;\npub const TRAILER_WORDS: usize = 0;\n";

/// A view for the driver on the functions that fixed.rs shows to its own crate alone.
const FAST: &str = "\
pub fn phase_of(t_acc: i64) -> u8 { crate::fixed::phase_of(t_acc) }
pub fn gain_of(acc: i64) -> u16 { crate::fixed::gain_of(acc) }
pub fn quantise(v: i16, q_shift: u8, bits: u8) -> i8 { crate::fixed::quantise(v, q_shift, bits) }
pub fn timing_error(ted: i64, ted_shift: u8) -> i32 { crate::fixed::timing_error(ted, ted_shift) }
pub fn agc_error(agc_target: u32, pow: i64) -> i32 { crate::fixed::agc_error(agc_target, pow) }
";

fn main() {
    let here = PathBuf::from(env::var("CARGO_MANIFEST_DIR").unwrap());
    let root = match env::var_os("ISDB_RS") {
        Some(path) => here.join("../..").join(path),
        None => here.join("../../../shared/docs/src"),
    };
    let source = root.join("crates/isdb-frontend/src");
    let stage = PathBuf::from(env::var("OUT_DIR").unwrap()).join("isdb");
    let _ = fs::remove_dir_all(&stage);
    fs::create_dir_all(&stage).unwrap();
    let delay = delay();
    for name in TAKEN {
        let (from, to) = (source.join(name), stage.join(name));
        match delay {
            Some(delay) if name == PARAMS => write_with_delay(&from, &to, delay),
            _ => copy(&from, &to),
        }
    }
    let lib = fs::read_to_string(source.join("lib.rs")).unwrap();
    for module in lib
        .lines()
        .filter_map(|l| l.strip_prefix("pub mod ")?.strip_suffix(';'))
    {
        let file = format!("{module}.rs");
        if !TAKEN.contains(&file.as_str()) {
            let text = match module {
                "format" => FORMAT,
                "fast" => FAST,
                _ => "",
            };
            fs::write(stage.join(file), text).unwrap();
        }
    }
    let root_file = format!(
        "#[path = {:?}]\nmod isdb;\npub use isdb::*;\n",
        stage.join("lib.rs")
    );
    fs::write(stage.with_file_name("root.rs"), root_file).unwrap();
    println!("cargo:rerun-if-env-changed=ISDB_RS");
    println!("cargo:rerun-if-env-changed=LOOP_DELAY");
    println!("cargo:rerun-if-changed=build.rs");
}

/// The delay that is asked for, where it is not isdb-rs's own.
fn delay() -> Option<u8> {
    let text = env::var("LOOP_DELAY").ok()?;
    match text.parse() {
        Ok(24) => None,
        Ok(delay @ 1..24) => Some(delay),
        _ => panic!("LOOP_DELAY is {text:?}, and not a number from 1 to 24"),
    }
}

fn copy(from: &Path, to: &Path) {
    let text = fs::read(found(from)).unwrap();
    fs::write(to, text).unwrap_or_else(|e| panic!("{}: {e}", to.display()));
}

/// The file with one line of it changed, which has to be there once.
fn write_with_delay(from: &Path, to: &Path, delay: u8) {
    let from = found(from);
    let text = fs::read_to_string(&from).unwrap();
    let times = text.matches(DELAY_LINE).count();
    let file = from.display();
    assert_eq!(times, 1, "{file}: how often it has the line {DELAY_LINE:?}");
    let line = DELAY_LINE.replace("24", &delay.to_string());
    fs::write(to, text.replace(DELAY_LINE, &line)).unwrap();
}

/// The whole path of a file of isdb-rs; cargo builds again where the file changes.
fn found(file: &Path) -> PathBuf {
    let file = fs::canonicalize(file)
        .unwrap_or_else(|e| panic!("{}: {e}; ISDB_RS is the path to isdb-rs", file.display()));
    println!("cargo:rerun-if-changed={}", file.display());
    file
}
