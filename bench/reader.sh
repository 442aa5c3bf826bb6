# What the benches of readers share. A bench of a reader sets, before it reads this file in:
#   reader   the call, as lg_verilog::read_module
#   counted  a list of what the reader gives, as assigns
#   uses     the crates that the call stands on
#   most     how many bytes a file has at most
# and calls `build FILE` once and then `best FILE` for each size. $folder is a folder that is gone at the end.
name=bench_reader
. bench/program.sh

# Builds a program that reads a file with the reader, over a copy of the repository and outside it, and runs it on a file.
build() {
  build_program "lg_io $uses" "$1" <<PROGRAM
//! Reads what a file holds, and says by its status whether that could be read.
#![tactic(auto)]

use lg_io::{Files, HostFiles};
use $reader;
use std::env;
use std::process::ExitCode;

const MOST_BYTES: usize = $most;

fn main(rt: HostRuntime) -> ExitCode {
    match count_of_file(rt) {
        Some(_) => ExitCode::SUCCESS,
        None => ExitCode::FAILURE,
    }
}

fn count_of_file(rt: HostRuntime) -> Option<usize> {
    let alloc = rt.alloc();
    let name = env::args(&rt).ok()?.skip(1).next()?;
    let mut files = HostFiles::new(rt);
    let bytes = files.read(alloc, name.as_str(), MOST_BYTES).ok()?;
    let read = ${reader##*::}(alloc, bytes.as_slice()).ok()?;
    Some(read.$counted.len())
}
PROGRAM
}
