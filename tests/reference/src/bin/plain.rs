//! The second programs: `plain DIALECT` opens book.txt in the current folder and answers command
//! lines in that dialect.

#![forbid(unsafe_code)]

use reference::book::MAX_TEXT;
use reference::commands::{Dialect, Session};
use std::fs::File;
use std::io::{self, ErrorKind, Read, Write};

fn main() -> io::Result<()> {
    let arguments: Vec<String> = std::env::args().skip(1).collect();
    let dialect = match arguments.as_slice() {
        [name] => Dialect::named(name),
        _ => None,
    };
    let dialect = dialect.ok_or_else(|| io::Error::other("usage: plain ringswap|thawcroft"))?;
    converse(dialect, read_book().ok().as_deref())
}

/// The bytes of book.txt; one more than a text may have is enough to refuse it.
fn read_book() -> io::Result<Vec<u8>> {
    let mut text = Vec::with_capacity(MAX_TEXT + 1);
    File::open("book.txt")?
        .take(MAX_TEXT as u64 + 1)
        .read_to_end(&mut text)?;
    Ok(text)
}

fn converse(dialect: Dialect, book: Option<&[u8]>) -> io::Result<()> {
    let mut input = io::stdin().lock();
    let mut output = io::stdout().lock();
    let mut out = Vec::with_capacity(1 << 18);
    if let Some(mut session) = Session::open(dialect, book, &mut out) {
        let mut buffer = vec![0; 1 << 18];
        loop {
            // A read may wait, so every answer so far goes out before it.
            output.write_all(&out)?;
            output.flush()?;
            out.clear();
            match input.read(&mut buffer) {
                Ok(0) => break,
                Ok(count) => session.feed(&buffer[..count], &mut out),
                Err(error) if error.kind() == ErrorKind::Interrupted => (),
                Err(error) => return Err(error),
            }
        }
        session.finish(&mut out);
    }
    output.write_all(&out)?;
    output.flush()
}
