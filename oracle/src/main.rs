//! The oracle: asks the old Rust modem for its answers and writes them down as named lists, which the
//! port's programs replay. README.md says what each list holds.

mod bits;
mod decode;
mod encode;
mod harness;
mod house;
mod lists;
mod modem;
mod protocol;
mod random;
#[allow(dead_code)]
mod rate;
/// shaping.rs, whole.
mod shaping {
    include!(concat!(env!("OUT_DIR"), "/shaping.rs"));
}
mod signal;

use std::io::{self, Write};
use std::path::Path;
use std::process::ExitCode;
use std::{env, fs};

fn main() -> ExitCode {
    let words: Vec<String> = env::args().skip(1).collect();
    let words: Vec<&str> = words.iter().map(String::as_str).collect();
    let done = match words[..] {
        ["all", folder] => write_all(Path::new(folder)),
        ["send"] => house::send(),
        ["receive"] => house::receive(),
        [name] => match lists::lists().find(|list| list.name == name) {
            Some(list) => io::stdout().write_all((list.write)().as_bytes()),
            None => return usage(),
        },
        _ => return usage(),
    };
    match done {
        Ok(()) => ExitCode::SUCCESS,
        Err(why) => {
            eprintln!("oracle: {why}");
            ExitCode::FAILURE
        }
    }
}

fn write_all(folder: &Path) -> io::Result<()> {
    fs::create_dir_all(folder)?;
    for list in lists::lists() {
        fs::write(folder.join(format!("{}.txt", list.name)), (list.write)())?;
    }
    Ok(())
}

fn usage() -> ExitCode {
    let names: Vec<&str> = lists::lists().map(|list| list.name).collect();
    eprintln!("usage: oracle LIST        writes a list on standard output");
    eprintln!("       oracle all DIR     writes every list to DIR/LIST.txt");
    eprintln!("       oracle send        the program send, done with the old modem");
    eprintln!("       oracle receive     the program receive, done with the old modem");
    eprintln!("LIST is one of: {}", names.join(" "));
    ExitCode::from(2)
}
