//! Makes the test vectors: `second FOLDER` writes, for each program that
//! answers cases, FOLDER/PROGRAM/stdin, one case a line, and
//! FOLDER/PROGRAM/stdout, line by line the answer that the rules give.

mod case;
mod cases;
mod change;
mod coding;
mod language;
mod notation;
mod position;
mod random;
mod refusal;
mod utf8;

use case::Case;
use std::path::Path;
use std::process::ExitCode;
use std::{env, fs, io};

fn main() -> ExitCode {
    let arguments: Vec<_> = env::args_os().skip(1).collect();
    let [folder] = arguments.as_slice() else {
        eprintln!("usage: second FOLDER");
        return ExitCode::from(2);
    };
    let cases = cases::all();
    if let Err(error) = write(Path::new(folder), &cases) {
        eprintln!("second: {}: {error}", folder.display());
        return ExitCode::FAILURE;
    }
    print_counts(&cases);
    ExitCode::SUCCESS
}

fn write(folder: &Path, cases: &[Case]) -> io::Result<()> {
    for program in Case::PROGRAMS {
        let part = folder.join(program);
        fs::create_dir_all(&part)?;
        fs::write(part.join("stdin"), file(program, cases, Case::question))?;
        fs::write(part.join("stdout"), file(program, cases, Case::answer))?;
    }
    Ok(())
}

/// A file with one line for each case of a program.
fn file(program: &str, cases: &[Case], line: fn(&Case) -> String) -> String {
    cases
        .iter()
        .filter(|case| case.program() == program)
        .map(|case| line(case) + "\n")
        .collect()
}

fn print_counts(cases: &[Case]) {
    for kind in Case::KINDS {
        let count = cases.iter().filter(|case| case.kind() == kind).count();
        println!("{kind} {count}");
    }
    println!("all {}", cases.len());
}
