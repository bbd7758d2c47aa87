//! The line on standard input, in Rust: solve.rs WORD [cert | parts]. rustc -L lib -l static=tsumego builds it.
use std::io::{self, Read, Write};

#[repr(C)]
struct Options { budget: u32, depth: u32, total: u32, dfpn: u32, cert: u32 }

extern "C" {
    fn tsumego_solve(sgf: *const u8, size: usize, options: *const Options, out: *mut u8, capacity: usize, length: *mut usize) -> i32;
    fn tsumego_check(sgf: *const u8, size: usize, parts: i32, out: *mut u8, capacity: usize, length: *mut usize) -> i32;
    fn tsumego_score(sgf: *const u8, size: usize, out: *mut u8, capacity: usize, length: *mut usize) -> i32;
}

/// The line, and whether it says that something was refused; else the status.
fn answer(word: &str, sgf: &[u8], options: &Options) -> Result<(Vec<u8>, bool), i32> {
    let (mut line, mut length) = (vec![0; 128], 0);
    loop {
        let (at, size, out, room) = (sgf.as_ptr(), sgf.len(), line.as_mut_ptr(), line.len());
        // SAFETY: both slices are borrowed for the call, and what is written to lies apart from what is read.
        let status = unsafe {
            match word {
                "solve" => tsumego_solve(at, size, options, out, room, &mut length),
                "check" => tsumego_check(at, size, 0, out, room, &mut length),
                _ => tsumego_score(at, size, out, room, &mut length),
            }
        };
        line.resize(length, 0);
        match status { 0 | 1 => return Ok((line, status == 1)), 3 => {}, _ => return Err(status) }
    }
}

fn main() -> io::Result<()> {
    let words: Vec<String> = std::env::args().collect();
    let mut sgf = Vec::new();
    io::stdin().read_to_end(&mut sgf)?;
    let options = Options { budget: 100_000, depth: 512, total: 0, dfpn: 0, cert: words.get(2).map_or(0, |w| 1 + (w == "parts") as u32) };
    let (line, refused) = answer(&words[1], &sgf, &options).map_err(|status| io::Error::other(format!("status {status}")))?;
    io::stdout().write_all(&line)?;
    std::process::exit(refused as i32)
}
