//! The program as a process: it is given an input and ends, and what it printed is read.
use calls::random::Random;
use std::fs::{self, File};
use std::io::{ErrorKind, Result, Write};
use std::path::{Path, PathBuf};
use std::process::{ChildStdin, Command, Output, Stdio};
use std::thread::sleep;
use std::time::Duration;

/// How long a piece waits for the one before it to be read.
const PAUSE: Duration = Duration::from_millis(4);

/// How an input reaches the program: through a pipe at once, through a pipe in up to five pieces, or as a file.
#[derive(Clone, Copy)]
pub enum Way {
    Whole,
    Pieces,
    File,
}

/// The program's path, and that of the file it may be given.
pub struct Program {
    path: PathBuf,
    file: PathBuf,
}

/// Cuts an input at up to four places.
fn pieces<'a>(random: &mut Random, input: &'a [u8]) -> Vec<&'a [u8]> {
    let (mut pieces, mut rest) = (Vec::new(), input);
    for _ in 0..1 + random.below(4) {
        let any = random.below(rest.len() + 1);
        let (piece, left) = rest.split_at(random.pick(&[1, 3, any, any]).min(rest.len()));
        pieces.push(piece);
        rest = left;
    }
    pieces.push(rest);
    pieces
}

/// Writes pieces to the program, which need not read them all.
fn write(mut stdin: ChildStdin, pieces: &[&[u8]]) -> Result<()> {
    for (number, piece) in pieces.iter().enumerate() {
        if number != 0 {
            sleep(PAUSE);
        }
        match stdin.write_all(piece) {
            Err(error) if error.kind() == ErrorKind::BrokenPipe => return Ok(()),
            written => written?,
        }
    }
    Ok(())
}

impl Program {
    /// The program of this path; the file is next to the one that compares.
    pub fn new(path: &Path) -> Result<Self> {
        let file = std::env::current_exe()?.with_file_name("input");
        Ok(Program { path: fs::canonicalize(path)?, file })
    }

    /// What the program prints, and how it ends.
    pub fn run(&self, random: &mut Random, input: &[u8], way: Way) -> Result<Output> {
        let mut command = Command::new(&self.path);
        command.stdout(Stdio::piped());
        let pieces = match way {
            Way::Whole => vec![input],
            Way::Pieces => pieces(random, input),
            Way::File => {
                fs::write(&self.file, input)?;
                return command.stdin(File::open(&self.file)?).spawn()?.wait_with_output();
            }
        };
        let mut child = command.stdin(Stdio::piped()).spawn()?;
        write(child.stdin.take().unwrap(), &pieces)?;
        child.wait_with_output()
    }
}
