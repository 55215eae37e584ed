//! Finds the old Rust text, makes sure that it is the known one, amends it as amendments/ says, for 24 kHz with
//! its numbers as rates/ says, and lays ready in OUT_DIR what src/ includes: modem.rs and shaping.rs whole, and
//! from the other three files whole items, cut out by name. Nothing of the text is kept in the repository but the
//! lines that an amendment changes.

#[path = "build/amend.rs"]
mod amend;
#[path = "build/cut.rs"]
mod cut;
#[path = "build/sha256.rs"]
mod sha256;

use amend::Amendment;
use std::path::{Path, PathBuf};
use std::{env, fs, process};

/// Where the text lies, seen from the repository's root, if `M17CORE_SRC` does not say.
const USUAL_PLACE: &str = "../shared/docs/src";

const DECODE: &[(&str, &str)] = &[
    ("const", "PLUS_THREE"),
    ("const", "PLUS_ONE"),
    ("const", "MINUS_ONE"),
    ("const", "MINUS_THREE"),
    ("fn", "decode_sample"),
    ("enum", "SyncBurst"),
    ("impl", "SyncBurst"),
    ("const", "SYNC_MIN_GAIN"),
    ("const", "SYNC_BIT_THRESHOLD"),
    ("const", "SYNC_THRESHOLD"),
    ("fn", "sync_burst_correlation"),
];

const ENCODE: &[(&str, &str)] = &[
    ("fn", "generate_preamble"),
    ("fn", "generate_end_of_transmission"),
];

const PROTOCOL: &[(&str, &str)] = &[
    ("const", "LSF_SYNC"),
    ("const", "BERT_SYNC"),
    ("const", "STREAM_SYNC"),
    ("const", "PACKET_SYNC"),
    ("const", "PREAMBLE"),
    ("const", "END_OF_TRANSMISSION"),
    ("enum", "Frame"),
    ("struct", "LsfFrame"),
    ("struct", "StreamFrame"),
    ("struct", "PacketFrame"),
    ("enum", "PacketFrameCounter"),
];

const FILES: [&str; 5] = [
    "modem.rs",
    "shaping.rs",
    "decode.rs",
    "encode.rs",
    "protocol.rs",
];

/// What is cut out of a file; the others are taken whole.
const ITEMS: [(&str, &[(&str, &str)]); 3] = [
    ("decode.rs", DECODE),
    ("encode.rs", ENCODE),
    ("protocol.rs", PROTOCOL),
];

/// Numbers of 48 kHz that 24 kHz has nowhere in modem.rs.
const OF_48_KHZ: [&str; 6] = ["81", "480", "1840", "1910", "3840", "4000"];

/// A line, no remark, that still has one of them.
fn left_over(text: &str) -> Option<&str> {
    let no_word = |c: char| !c.is_ascii_alphanumeric() && c != '_';
    text.lines()
        .filter(|line| !line.trim_start().starts_with("//"))
        .find(|line| line.split(no_word).any(|word| OF_48_KHZ.contains(&word)))
}

fn main() {
    println!("cargo:rerun-if-env-changed=M17CORE_SRC");
    println!("cargo:rerun-if-changed=build.rs");
    println!("cargo:rerun-if-changed=build");
    println!("cargo:rerun-if-changed=amendments");
    println!("cargo:rerun-if-changed=rates");
    println!("cargo:rerun-if-changed=text.sha256");
    if let Err(why) = lay_ready() {
        eprintln!("oracle: {why}");
        process::exit(1);
    }
}

fn lay_ready() -> Result<(), String> {
    let oracle = PathBuf::from(variable("CARGO_MANIFEST_DIR")?);
    let out = PathBuf::from(variable("OUT_DIR")?);
    let folder = folder(oracle.parent().ok_or("the oracle lies in no repository")?);
    let at_24_khz = env::var_os("CARGO_FEATURE_RATE24").is_some();
    let mut amendments = if env::var_os("CARGO_FEATURE_UNAMENDED").is_some() {
        Vec::new()
    } else {
        listed(&oracle.join("amendments"))?
    };
    if at_24_khz {
        amendments.extend(listed(&oracle.join("rates"))?);
    }
    if let Some((of, a)) = amendments.iter().find(|(_, a)| !FILES.contains(&&*a.file)) {
        return Err(format!("{of}: {} is no file of the text", a.file));
    }

    for name in FILES {
        let (path, mut text) = known(&oracle, &folder, name)?;
        if name == "modem.rs" {
            // The very file, for what is compared with nothing amended.
            println!("cargo:rustc-env=M17CORE_MODEM={path}");
        }
        for (of, a) in amendments.iter().filter(|(_, a)| a.file == name) {
            text = amend::amended(&text, a).map_err(|why| format!("{of}: {why}"))?;
        }
        if at_24_khz && name == "modem.rs" {
            if let Some(line) = left_over(&text) {
                return Err(format!("{name} keeps a number of 48 kHz: {line}"));
            }
        }
        if let Some((_, items)) = ITEMS.iter().find(|(file, _)| *file == name) {
            text = cut::items(&text, items).map_err(|why| format!("{path}: {why}"))?;
        }
        fs::write(out.join(name), text).map_err(|why| format!("{name} in OUT_DIR: {why}"))?;
    }
    Ok(())
}

/// The amendments of all files of a folder, in the order of the files' names, each with the file's path.
fn listed(folder: &Path) -> Result<Vec<(String, Amendment)>, String> {
    let said = |why| format!("{}: {why}", folder.display());
    let mut paths = Vec::new();
    for entry in fs::read_dir(folder).map_err(said)? {
        paths.push(entry.map_err(said)?.path());
    }
    paths.sort();
    let mut amendments = Vec::new();
    for path in paths {
        let of = path.display().to_string();
        let text = fs::read_to_string(&path).map_err(|why| format!("{of}: {why}"))?;
        let read = amend::read(&text).map_err(|why| format!("{of}: {why}"))?;
        amendments.extend(read.into_iter().map(|a| (of.clone(), a)));
    }
    Ok(amendments)
}

/// The folder with the text. A relative `M17CORE_SRC` is seen from the repository's root, as the usual
/// place is, since a build does not know where it was called from.
fn folder(repository: &Path) -> PathBuf {
    let named = env::var("M17CORE_SRC").unwrap_or_default();
    repository.join(if named.is_empty() {
        USUAL_PLACE
    } else {
        &named
    })
}

/// A file of the text, its path and what it holds, provided that its digest is the one in text.sha256.
fn known(oracle: &Path, folder: &Path, name: &str) -> Result<(String, String), String> {
    let path = folder.join(name).display().to_string();
    println!("cargo:rerun-if-changed={path}");
    let text = fs::read_to_string(&path).map_err(|why| {
        format!(
            "the Rust text is missing: {path}: {why}.\n\
             Set M17CORE_SRC to the folder that holds modem.rs of m17core 0.1.0."
        )
    })?;
    let digest = sha256::hex(text.as_bytes());
    let digests = fs::read_to_string(oracle.join("text.sha256"))
        .map_err(|why| format!("text.sha256: {why}"))?;
    if !digests
        .lines()
        .any(|line| line == format!("{digest}  {name}"))
    {
        return Err(format!(
            "the Rust text is not the known one: {path} has the digest {digest}, \
             which oracle/text.sha256 does not give for it."
        ));
    }
    Ok((path, text))
}

fn variable(name: &str) -> Result<String, String> {
    env::var(name).map_err(|_| format!("{name} is not set: build with cargo"))
}
