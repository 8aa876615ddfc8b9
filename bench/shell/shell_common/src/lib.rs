//! What the two shells have in common: the lines and replies of `ewig`
//! (docs/SHELL.md), the files of the current directory, and the loop from
//! standard input to standard output. The containers are behind the trait
//! `Space`.

use std::fs::File;
use std::io::{self, BufRead, BufReader, BufWriter, Read, Write};

/// The longest input line and text cell, in bytes.
pub const LINE_MOST: usize = 65_536;
/// The largest text file, in bytes.
pub const FILE_MOST: usize = 67_108_864;
/// The longest buffer, and the longest list of undo or redo.
pub const LENGTH_MOST: usize = u32::MAX as usize;

#[derive(Clone, Copy, Debug, PartialEq, Eq)]
pub enum Refusal {
    Absent,
    Exists,
    Range,
    Limit,
    Batch,
    Empty,
    Missing,
    Large,
    Fault,
    Long,
    Utf8,
    Command,
    Name,
    /// `load` only; the reasons aren't those of `ewig`, whose documents differ.
    Damaged(&'static str),
}

impl Refusal {
    fn text(self) -> &'static str {
        match self {
            Refusal::Absent => "none",
            Refusal::Exists => "exists",
            Refusal::Range => "range",
            Refusal::Limit => "limit",
            Refusal::Batch => "batch",
            Refusal::Empty => "empty",
            Refusal::Missing => "missing",
            Refusal::Large => "large",
            Refusal::Fault => "fault",
            Refusal::Long => "long",
            Refusal::Utf8 => "utf8",
            Refusal::Command => "command",
            Refusal::Name => "name",
            Refusal::Damaged(_) => "damaged",
        }
    }
}

pub type Done = Result<(), Refusal>;

/// The containers of one shell. Each call finds its refusals in the order in
/// which `ewig` does, and after a refusal the space is unchanged.
pub trait Space {
    fn new_buffer(&mut self, b: &str) -> Done;
    fn add(&mut self, b: &str, text: &str) -> Done;
    fn set(&mut self, b: &str, i: usize, text: &str) -> Done;
    fn put(&mut self, b: &str, i: usize, text: &str) -> Done;
    fn del(&mut self, b: &str, i: usize, j: usize) -> Done;
    fn cat(&mut self, b: &str, c: &str) -> Done;
    fn cut(&mut self, b: &str, i: usize, j: usize, c: &str) -> Done;
    fn copy(&mut self, b: &str, c: &str) -> Done;
    fn drop_buffer(&mut self, b: &str) -> Done;
    fn star(&mut self, n: &str) -> Done;
    fn unstar(&mut self, n: &str) -> Done;
    fn take_lines(&mut self, b: &str, lines: std::str::Split<'_, char>);

    fn mark(&mut self, v: &str) -> Done;
    fn unmark(&mut self, v: &str) -> Done;
    fn back(&mut self, v: &str) -> Done;
    fn star_merge(&mut self, v: &str) -> Done;
    fn star_both(&mut self, v: &str) -> Done;
    fn star_less(&mut self, v: &str) -> Done;
    fn merge(&mut self, v: &str) -> Done;
    fn undo(&mut self) -> Done;
    fn redo(&mut self) -> Done;
    fn begin(&mut self) -> Done;
    fn end(&mut self) -> Done;
    fn abort(&mut self) -> Done;
    fn in_batch(&self) -> bool;

    fn get(&self, b: &str, i: usize) -> Result<&str, Refusal>;
    fn len(&self, b: &str) -> Result<usize, Refusal>;
    /// Writes `before`, the line and a newline for each line of the range.
    fn show<W: Write>(&self, b: &str, i: usize, j: usize, before: &str, out: &mut W) -> io::Result<Done>;
    fn size(&self, b: &str) -> Result<usize, Refusal>;
    fn list(&self) -> Vec<(&str, usize)>;
    fn stars(&self) -> Vec<&str>;
    fn marks(&self) -> Vec<&str>;
    fn same(&self, b: &str, c: &str) -> Result<bool, Refusal>;
    fn eqv(&self, v: &str, w: &str) -> Result<bool, Refusal>;

    fn save<W: Write>(&self, out: W) -> Done;
    fn load(&mut self, bytes: &[u8]) -> Done;
}

pub fn is_name(text: &str) -> bool {
    let bytes = text.as_bytes();
    (1..=64).contains(&bytes.len())
        && bytes[0] != b'.'
        && bytes[0] != b'-'
        && bytes.iter().all(|b| b.is_ascii_alphanumeric() || matches!(b, b'.' | b'_' | b'-'))
}

fn number(text: &str) -> Option<usize> {
    let bytes = text.as_bytes();
    if bytes.is_empty() || bytes.len() > 10 || (bytes[0] == b'0' && bytes.len() > 1) {
        return None;
    }
    let mut value = 0u64;
    for b in bytes {
        if !b.is_ascii_digit() {
            return None;
        }
        value = value * 10 + u64::from(b - b'0');
    }
    (value <= u64::from(u32::MAX)).then_some(value as usize)
}

fn name(text: &str) -> Result<&str, Refusal> {
    if is_name(text) { Ok(text) } else { Err(Refusal::Name) }
}

fn index(text: &str) -> Result<usize, Refusal> {
    number(text).ok_or(Refusal::Command)
}

/// Exactly N arguments, split at every space.
fn words<const N: usize>(rest: Option<&str>) -> Result<[&str; N], Refusal> {
    let mut found = [""; N];
    match rest {
        None if N == 0 => Ok(found),
        None => Err(Refusal::Command),
        Some(_) if N == 0 => Err(Refusal::Command),
        Some(rest) => {
            let mut pieces = rest.split(' ');
            for place in &mut found {
                *place = pieces.next().ok_or(Refusal::Command)?;
            }
            if pieces.next().is_some() { Err(Refusal::Command) } else { Ok(found) }
        }
    }
}

/// N arguments, the last of which is a text: split at the first spaces only.
fn words_text<const N: usize>(rest: Option<&str>) -> Result<[&str; N], Refusal> {
    let mut found = [""; N];
    let mut pieces = rest.ok_or(Refusal::Command)?.splitn(N, ' ');
    for place in &mut found {
        *place = pieces.next().ok_or(Refusal::Command)?;
    }
    Ok(found)
}

enum Reply<'a> {
    Ok,
    Quit,
    Text(&'a str),
    Number(usize),
    Truth(bool),
}

fn fetch(file: &str, most: usize) -> Result<Vec<u8>, Refusal> {
    let file = File::open(file).map_err(|e| match e.kind() {
        io::ErrorKind::NotFound => Refusal::Missing,
        _ => Refusal::Fault,
    })?;
    let size = file.metadata().map_err(|_| Refusal::Fault)?.len() as usize;
    if size > most {
        return Err(Refusal::Large);
    }
    let mut bytes = Vec::with_capacity(size + 1);
    let mut limited = file.take(most as u64 + 1);
    limited.read_to_end(&mut bytes).map_err(|_| Refusal::Fault)?;
    if bytes.len() > most { Err(Refusal::Large) } else { Ok(bytes) }
}

fn read_file<S: Space>(space: &mut S, b: &str, f: &str) -> Done {
    let bytes = fetch(f, FILE_MOST)?;
    if bytes.split(|&b| b == b'\n').any(|line| line.len() > LINE_MOST) {
        return Err(Refusal::Long);
    }
    let text = std::str::from_utf8(&bytes).map_err(|_| Refusal::Utf8)?;
    let text = text.strip_suffix('\n').unwrap_or(text);
    if bytes.is_empty() {
        let mut none = "".split('\n');
        none.next();
        space.take_lines(b, none);
    } else {
        space.take_lines(b, text.split('\n'));
    }
    Ok(())
}

fn write_file<S: Space>(space: &S, b: &str, f: &str) -> Done {
    if space.size(b)? > FILE_MOST {
        return Err(Refusal::Large);
    }
    let lines = space.len(b)?;
    let mut out = BufWriter::with_capacity(1 << 16, File::create(f).map_err(|_| Refusal::Fault)?);
    space.show(b, 0, lines, "", &mut out).map_err(|_| Refusal::Fault)??;
    out.flush().map_err(|_| Refusal::Fault)
}

fn save_file<S: Space>(space: &S, f: &str) -> Done {
    if space.in_batch() {
        return Err(Refusal::Batch);
    }
    let mut out = BufWriter::with_capacity(1 << 16, File::create(f).map_err(|_| Refusal::Fault)?);
    space.save(&mut out)?;
    out.flush().map_err(|_| Refusal::Fault)
}

fn load_file<S: Space>(space: &mut S, f: &str) -> Done {
    if space.in_batch() {
        return Err(Refusal::Batch);
    }
    // Plain documents share nothing, so they may pass ewig's 64 MiB.
    let bytes = fetch(f, usize::MAX >> 1)?;
    space.load(&bytes)
}

fn names<W: Write>(items: Vec<&str>, out: &mut W) -> io::Result<Result<Reply<'static>, Refusal>> {
    for item in items {
        out.write_all(b"= ")?;
        out.write_all(item.as_bytes())?;
        out.write_all(b"\n")?;
    }
    Ok(Ok(Reply::Ok))
}

fn execute<'s, S: Space, W: Write>(
    space: &'s mut S,
    line: &[u8],
    out: &mut W,
) -> io::Result<Result<Reply<'s>, Refusal>> {
    macro_rules! tri {
        ($e:expr) => {
            match $e {
                Ok(value) => value,
                Err(refusal) => return Ok(Err(refusal)),
            }
        };
    }
    if line.len() > LINE_MOST {
        return Ok(Err(Refusal::Long));
    }
    let Ok(line) = std::str::from_utf8(line) else {
        return Ok(Err(Refusal::Utf8));
    };
    let (command, rest) = match line.split_once(' ') {
        Some((command, rest)) => (command, Some(rest)),
        None => (line, None),
    };
    let done = match command {
        "new" => {
            let [b] = tri!(words(rest));
            space.new_buffer(tri!(name(b)))
        }
        "add" => {
            let [b, text] = tri!(words_text(rest));
            space.add(tri!(name(b)), text)
        }
        "set" => {
            let [b, i, text] = tri!(words_text(rest));
            let i = tri!(index(i));
            space.set(tri!(name(b)), i, text)
        }
        "put" => {
            let [b, i, text] = tri!(words_text(rest));
            let i = tri!(index(i));
            space.put(tri!(name(b)), i, text)
        }
        "del" => {
            let [b, i, j] = tri!(words(rest));
            let (i, j) = (tri!(index(i)), tri!(index(j)));
            space.del(tri!(name(b)), i, j)
        }
        "cat" => {
            let [b, c] = tri!(words(rest));
            space.cat(tri!(name(b)), tri!(name(c)))
        }
        "cut" => {
            let [b, i, j, c] = tri!(words(rest));
            let (i, j) = (tri!(index(i)), tri!(index(j)));
            space.cut(tri!(name(b)), i, j, tri!(name(c)))
        }
        "copy" => {
            let [b, c] = tri!(words(rest));
            space.copy(tri!(name(b)), tri!(name(c)))
        }
        "drop" => {
            let [b] = tri!(words(rest));
            space.drop_buffer(tri!(name(b)))
        }
        "star" => {
            let [n] = tri!(words(rest));
            space.star(tri!(name(n)))
        }
        "unstar" => {
            let [n] = tri!(words(rest));
            space.unstar(tri!(name(n)))
        }
        "read" => {
            let [b, f] = tri!(words(rest));
            let (b, f) = (tri!(name(b)), tri!(name(f)));
            read_file(space, b, f)
        }
        "write" => {
            let [b, f] = tri!(words(rest));
            let (b, f) = (tri!(name(b)), tri!(name(f)));
            write_file(space, b, f)
        }
        "save" => {
            let [f] = tri!(words(rest));
            let f = tri!(name(f));
            save_file(space, f)
        }
        "load" => {
            let [f] = tri!(words(rest));
            let f = tri!(name(f));
            load_file(space, f)
        }
        "mark" => {
            let [v] = tri!(words(rest));
            space.mark(tri!(name(v)))
        }
        "unmark" => {
            let [v] = tri!(words(rest));
            space.unmark(tri!(name(v)))
        }
        "back" => {
            let [v] = tri!(words(rest));
            space.back(tri!(name(v)))
        }
        "starmerge" => {
            let [v] = tri!(words(rest));
            space.star_merge(tri!(name(v)))
        }
        "starboth" => {
            let [v] = tri!(words(rest));
            space.star_both(tri!(name(v)))
        }
        "starless" => {
            let [v] = tri!(words(rest));
            space.star_less(tri!(name(v)))
        }
        "merge" => {
            let [v] = tri!(words(rest));
            space.merge(tri!(name(v)))
        }
        "undo" => {
            let [] = tri!(words(rest));
            space.undo()
        }
        "redo" => {
            let [] = tri!(words(rest));
            space.redo()
        }
        "begin" => {
            let [] = tri!(words(rest));
            space.begin()
        }
        "end" => {
            let [] = tri!(words(rest));
            space.end()
        }
        "abort" => {
            let [] = tri!(words(rest));
            space.abort()
        }
        "get" => {
            let [b, i] = tri!(words(rest));
            let i = tri!(index(i));
            return Ok(space.get(tri!(name(b)), i).map(Reply::Text));
        }
        "len" => {
            let [b] = tri!(words(rest));
            return Ok(space.len(tri!(name(b))).map(Reply::Number));
        }
        "show" => {
            let [b, i, j] = tri!(words(rest));
            let (i, j) = (tri!(index(i)), tri!(index(j)));
            space.show(tri!(name(b)), i, j, "= ", out)?
        }
        "list" => {
            let [] = tri!(words(rest));
            for (item, length) in space.list() {
                writeln!(out, "= {item} {length}")?;
            }
            Ok(())
        }
        "stars" => {
            let [] = tri!(words(rest));
            return names(space.stars(), out);
        }
        "marks" => {
            let [] = tri!(words(rest));
            return names(space.marks(), out);
        }
        "same" => {
            let [b, c] = tri!(words(rest));
            return Ok(space.same(tri!(name(b)), tri!(name(c))).map(Reply::Truth));
        }
        "eqv" => {
            let [v, w] = tri!(words(rest));
            return Ok(space.eqv(tri!(name(v)), tri!(name(w))).map(Reply::Truth));
        }
        "quit" => {
            let [] = tri!(words(rest));
            return Ok(Ok(Reply::Quit));
        }
        _ => Err(Refusal::Command),
    };
    Ok(done.map(|()| Reply::Ok))
}

/// Runs the lines of standard input. Gives the number that the process ends
/// with: 0, 2 for words, 3 for a failed read, 4 for a failed write.
pub fn run<S: Space>(mut space: S) -> i32 {
    if std::env::args_os().len() > 1 {
        eprintln!("this shell takes no words");
        return 2;
    }
    let mut input = BufReader::with_capacity(1 << 16, io::stdin().lock());
    let mut out = BufWriter::with_capacity(1 << 16, io::stdout().lock());
    // With EACH_REPLY set, every reply is written before the next line is executed, as `ewig` promises.
    let each = std::env::var_os("EACH_REPLY").is_some();
    let mut line = Vec::new();
    let status = loop {
        line.clear();
        match input.read_until(b'\n', &mut line) {
            Ok(0) => break 0,
            Ok(_) => {}
            Err(_) => break 3,
        }
        if line.last() == Some(&b'\n') {
            line.pop();
        }
        let written = match execute(&mut space, &line, &mut out) {
            Ok(Ok(Reply::Ok)) => out.write_all(b"ok\n"),
            Ok(Ok(Reply::Quit)) => {
                if out.write_all(b"ok\n").is_err() {
                    break 4;
                }
                break 0;
            }
            Ok(Ok(Reply::Text(text))) => out
                .write_all(b"= ")
                .and_then(|()| out.write_all(text.as_bytes()))
                .and_then(|()| out.write_all(b"\n")),
            Ok(Ok(Reply::Number(value))) => writeln!(out, "= {value}"),
            Ok(Ok(Reply::Truth(true))) => out.write_all(b"= yes\n"),
            Ok(Ok(Reply::Truth(false))) => out.write_all(b"= no\n"),
            Ok(Err(Refusal::Damaged(reason))) => writeln!(out, "! damaged {reason}"),
            Ok(Err(refusal)) => writeln!(out, "! {}", refusal.text()),
            Err(fault) => Err(fault),
        };
        if written.is_err() || (each && out.flush().is_err()) {
            break 4;
        }
    };
    let status = if out.flush().is_err() && status == 0 { 4 } else { status };
    // As in ewig, the space is dropped before the process ends.
    drop(space);
    status
}
