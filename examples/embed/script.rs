//! Runs a script over parts, as `olap run SCRIPT [PART]...` does, within this program:
//!
//!     rustc script.rs -L . -l static=olap_core && ./script ../loads.olap ../loads.1.csv ../loads.2.csv

use std::io::Write;
use std::{env, fs, process};

/// The form of an output.
#[derive(Clone, Copy)]
#[allow(dead_code)]
enum Form {
    Classic = 0,
    Csv = 1,
    Json = 2,
    Table = 3,
}

/// Why there is no output: the number of `olap_core.h`.
#[derive(Debug)]
struct Status(u32);

const NO_ROOM: u32 = 1;
const MOST_ROWS: u64 = 1 << 32;

// As `olap_core.h` has it. Nothing compares the two.
unsafe extern "C" {
    fn olap_output(
        form: u32,
        rows: u64,
        script: *const u8,
        script_length: usize,
        parts: *const u8,
        parts_length: usize,
        lengths: *const usize,
        part_count: usize,
        out: *mut u8,
        out_size: usize,
        length: *mut usize,
    ) -> u32;
}

/// The output of a script over parts.
fn output(form: Form, script: &[u8], parts: &[Vec<u8>]) -> Result<Vec<u8>, Status> {
    let lengths: Vec<usize> = parts.iter().map(Vec::len).collect();
    let parts = parts.concat();
    let mut length = 1 << 16;
    loop {
        let mut out = vec![0; length];
        // SAFETY: each pointer and length is that of one slice, which is borrowed for the call, and those that are written to
        // overlap no other. The function asks for nothing else.
        let status = unsafe {
            olap_output(
                form as u32,
                MOST_ROWS,
                script.as_ptr(),
                script.len(),
                parts.as_ptr(),
                parts.len(),
                lengths.as_ptr(),
                lengths.len(),
                out.as_mut_ptr(),
                out.len(),
                &mut length,
            )
        };
        match status {
            0 => {
                out.truncate(length);
                return Ok(out);
            }
            NO_ROOM => continue,
            other => return Err(Status(other)),
        }
    }
}

fn main() -> std::io::Result<()> {
    let mut files = env::args().skip(1).map(fs::read).collect::<Result<Vec<_>, _>>()?;
    if files.is_empty() {
        eprintln!("script SCRIPT [PART]...");
        process::exit(2);
    }
    let script = files.remove(0);
    match output(Form::Classic, &script, &files) {
        Ok(text) => std::io::stdout().write_all(&text),
        Err(Status(status)) => {
            eprintln!("script: status {status}");
            process::exit(3);
        }
    }
}
