//! The command `twin`.

use std::ffi::OsString;
use std::io::{Read, Write};
use std::os::unix::ffi::OsStrExt;
use std::path::Path;
use std::process::ExitCode;
use twin::commands::{read_file, Command, USAGE};

const TOOLS: &str = "tools: twin vectors OUTDIR | twin answer
       twin hostile SEED COUNT | twin cases SEED COUNT OUTDIR";

fn main() -> ExitCode {
    let words: Vec<OsString> = std::env::args_os().skip(1).collect();
    let words: Vec<&[u8]> = words.iter().map(|word| word.as_bytes()).collect();
    let printed = run(&words).and_then(|text| {
        let written = std::io::stdout().write_all(&text);
        written.map_err(|error| error.to_string())
    });
    match printed {
        Ok(()) => ExitCode::SUCCESS,
        Err(error) => {
            eprintln!("{error}");
            ExitCode::FAILURE
        }
    }
}

/// Does what the words ask and returns what is to be printed: a command of the
/// program, or a tool for the vectors.
fn run(words: &[&[u8]]) -> Result<Vec<u8>, String> {
    if let Some(command) = Command::of(words) {
        return command.run(read_file);
    }
    let texts: Option<Vec<&str>> = words
        .iter()
        .map(|word| std::str::from_utf8(word).ok())
        .collect();
    tool(&texts.unwrap_or_default())
}

fn tool(words: &[&str]) -> Result<Vec<u8>, String> {
    let usage = || format!("{USAGE}\n{TOOLS}");
    match words {
        ["vectors", folder] => {
            let count = twin::vectors::write(Path::new(folder))?;
            Ok(format!("{count} vectors\n").into_bytes())
        }
        ["answer"] => {
            let answers = twin::vectors::answer(&standard_input()?)?;
            Ok(answers.into_bytes())
        }
        ["hostile", seed, count] => {
            let (seed, count) = numbers(seed, count).ok_or_else(usage)?;
            let records = twin::vectors::percentage_sheets::hostile(seed, count);
            Ok(records.bytes().to_vec())
        }
        ["cases", seed, count, folder] => {
            let (seed, count) = numbers(seed, count).ok_or_else(usage)?;
            let written = twin::vectors::cases::write(seed, count, Path::new(folder));
            written.map_err(|error| error.to_string())?;
            Ok(Vec::new())
        }
        _ => Err(usage()),
    }
}

fn numbers(seed: &str, count: &str) -> Option<(u64, usize)> {
    Some((seed.parse().ok()?, count.parse().ok()?))
}

/// All of standard input.
fn standard_input() -> Result<Vec<u8>, String> {
    let mut bytes = Vec::new();
    let read = std::io::stdin().read_to_end(&mut bytes);
    read.map(|_| bytes).map_err(|error| error.to_string())
}
