//! What the runners share: a program run in a fresh folder, and lines shown in reports.

use crate::commands::Dialect;
use crate::generate::BookFile;
use std::fs;
use std::io::{self, Read, Write};
use std::path::{Path, PathBuf};
use std::process::{Child, Command, ExitStatus, Stdio};
use std::sync::atomic::{AtomicU32, Ordering};
use std::sync::mpsc;
use std::thread;
use std::time::{Duration, Instant};

/// How long a program may take before it counts as hanging.
pub const PATIENCE: Duration = Duration::from_secs(5);

/// A line to be read by people: as much of it as is said, and its length if there is more.
pub fn shown(line: &[u8], most: usize) -> String {
    match line.get(..most) {
        Some(start) if line.len() > most => {
            format!("{}... {} bytes", start.escape_ascii(), line.len())
        }
        _ => line.escape_ascii().to_string(),
    }
}

/// A folder with a book, taken away again at the end.
struct Folder(PathBuf);

impl Folder {
    fn new(book: &BookFile) -> io::Result<Folder> {
        static NUMBER: AtomicU32 = AtomicU32::new(0);
        let number = NUMBER.fetch_add(1, Ordering::Relaxed);
        let name = format!("transcript-{}-{number}", std::process::id());
        let folder = Folder(std::env::temp_dir().join(name));
        fs::create_dir(&folder.0)?;
        let path = folder.0.join("book.txt");
        match book {
            BookFile::Text(text) => fs::write(path, text)?,
            BookFile::Folder => fs::create_dir(path)?,
            BookFile::Missing => (),
        }
        Ok(folder)
    }
}

impl Drop for Folder {
    fn drop(&mut self) {
        // A folder that is left harms nobody, and there is nobody to tell.
        let _ = fs::remove_dir_all(&self.0);
    }
}

/// A program under test.
pub struct Program {
    path: PathBuf,
    pub dialect: Dialect,
}

impl Program {
    /// The program at a path; its file's name tells the dialect.
    pub fn at(path: &str) -> Result<Program, String> {
        let name = Path::new(path).file_name().and_then(|name| name.to_str());
        let dialect = name.and_then(Dialect::named);
        Ok(Program {
            dialect: dialect.ok_or_else(|| format!("{path}: no dialect has this name"))?,
            path: fs::canonicalize(path).map_err(|error| format!("{path}: {error}"))?,
        })
    }

    pub fn start(&self, book: &BookFile) -> io::Result<Process> {
        self.start_between(book, Stdio::piped(), Stdio::piped())
    }

    /// Starts the program with these for its standard input and output.
    pub fn start_between(
        &self,
        book: &BookFile,
        input: Stdio,
        output: Stdio,
    ) -> io::Result<Process> {
        let folder = Folder::new(book)?;
        let child = Command::new(&self.path)
            .current_dir(&folder.0)
            .stdin(input)
            .stdout(output)
            .spawn()?;
        Ok(Process {
            child,
            _folder: folder,
        })
    }

    /// Runs the program to its end, with its input written in pieces, and answers its output.
    pub fn run(&self, book: &BookFile, pieces: &[&[u8]]) -> io::Result<Vec<u8>> {
        let mut process = self.start(book)?;
        let (mut input, mut output) = (process.input(), process.output());
        thread::scope(|scope| {
            scope.spawn(move || {
                for piece in pieces {
                    // A program that stops at its book leaves the input unread.
                    if input.write_all(piece).is_err() {
                        break;
                    }
                }
            });
            let (sender, receiver) = mpsc::channel();
            scope.spawn(move || {
                let mut bytes = Vec::new();
                let read = output.read_to_end(&mut bytes);
                // Nobody receives any more if the time is over.
                let _ = sender.send(read.map(|_| bytes));
            });
            let received = receiver.recv_timeout(PATIENCE);
            // Ending the program, in time or not, closes its pipes and so ends both threads.
            match received {
                Ok(bytes) => match process.end()? {
                    status if !status.success() => Err(io::Error::other(status.to_string())),
                    _ => bytes,
                },
                Err(_) => {
                    drop(process);
                    Err(io::ErrorKind::TimedOut.into())
                }
            }
        })
    }
}

/// A started program, ended when it is dropped.
pub struct Process {
    child: Child,
    _folder: Folder,
}

impl Process {
    /// The end that the program reads from; dropping it ends the program's input.
    pub fn input(&mut self) -> impl Write + Send {
        self.child.stdin.take().expect("the input is taken once")
    }

    pub fn output(&mut self) -> impl Read + Send {
        self.child.stdout.take().expect("the output is taken once")
    }

    /// Waits for the end; it is an error if it does not come in time.
    pub fn end(mut self) -> io::Result<ExitStatus> {
        let deadline = Instant::now() + PATIENCE;
        loop {
            match self.child.try_wait()? {
                Some(status) => return Ok(status),
                None if Instant::now() > deadline => return Err(io::ErrorKind::TimedOut.into()),
                None => thread::sleep(Duration::from_micros(100)),
            }
        }
    }
}

impl Drop for Process {
    fn drop(&mut self) {
        // One that has ended by itself refuses to be ended; that is as well.
        let _ = self.child.kill();
        let _ = self.child.wait();
    }
}
