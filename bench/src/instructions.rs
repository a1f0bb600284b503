//! Instructions a block, which are the same in every run, by valgrind's callgrind.
//!
//! The program runs itself under callgrind as `--passes SIDE N`: it then makes the blocks, lets the side go over them N
//! times, and ends. It does so for N and for 2N, since what N passes more add to the count is theirs alone.
use crate::inputs::BLOCKS;
use std::process::{Command, Stdio};
use std::{env, io};

const PASSES: usize = 2;

/// Whether valgrind is installed.
pub fn can_be_counted() -> bool {
    let mut valgrind = Command::new("valgrind");
    let version = valgrind.arg("--version").stdout(Stdio::null()).status();
    version.is_ok_and(|status| status.success())
}

/// The instructions that a side takes for a block.
pub fn of_block(side: &str) -> Result<usize, String> {
    let (once, twice) = (of_process(side, PASSES)?, of_process(side, 2 * PASSES)?);
    Ok((twice - once) / (PASSES * BLOCKS))
}

/// The instructions of a whole process, from callgrind's line "Collected : N".
fn of_process(side: &str, passes: usize) -> Result<usize, String> {
    let run = || -> io::Result<String> {
        let run = Command::new("valgrind")
            .args(["--tool=callgrind", "--callgrind-out-file=/dev/null"])
            .arg(env::current_exe()?)
            .args(["--passes", side, &passes.to_string()])
            .output()?;
        Ok(String::from_utf8_lossy(&run.stderr).into_owned())
    };
    let said = run().map_err(|error| error.to_string())?;
    let counted = said.lines().find_map(|line| {
        let (_, count) = line.split_once("Collected : ")?;
        count.parse().ok()
    });
    counted.ok_or(format!("callgrind counted nothing for {side}:\n{said}"))
}
