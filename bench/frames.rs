// The plain Rust program that `frames` is measured against: it reads the same traces and writes the same words.
use std::fmt;
use std::io::{self, BufWriter, Read, Write};

const LONGEST_LINE: usize = 34;

enum Frame {
    Setup { n: u16, p: u8, d: u16, e: u32, k: u8, t: u16, order: &'static str, l: u16 },
    Write { page: u16, fill: u8 },
    Discard { page: u16 },
    Read { page: u16 },
}

struct Fault {
    number: u8,
    line: u64,
    layer: &'static str,
}

impl fmt::Display for Frame {
    fn fmt(&self, f: &mut fmt::Formatter<'_>) -> fmt::Result {
        match self {
            Frame::Setup { n, p, d, e, k, t, order, l } => write!(
                f,
                "setup blocks {n} pages {p} bytes {d} erases {e} k {k} threshold {t} order {order} logical {l}"
            ),
            Frame::Write { page, fill } => write!(f, "write page {page} fill {fill}"),
            Frame::Discard { page } => write!(f, "discard page {page}"),
            Frame::Read { page } => write!(f, "read page {page}"),
        }
    }
}

impl fmt::Display for Fault {
    fn fmt(&self, f: &mut fmt::Formatter<'_>) -> fmt::Result {
        write!(f, "fault {} line {} {}", self.number, self.line, self.layer)
    }
}

struct Reader {
    line: u64,
    started: bool,
    rest: [u8; LONGEST_LINE],
    len: usize,
}

fn digit(c: u8) -> Option<u8> {
    (c as char).to_digit(16).map(|v| v as u8)
}

fn frame_of(line: &[u8], started: bool) -> Result<Frame, (u8, &'static str)> {
    if line.is_empty() || line.len() % 2 != 0 {
        return Err((18, "text"));
    }
    let mut bytes = [0u8; LONGEST_LINE / 2];
    let count = line.len() / 2;
    for (byte, pair) in bytes.iter_mut().zip(line.chunks_exact(2)) {
        match (digit(pair[0]), digit(pair[1])) {
            (Some(h), Some(l)) => *byte = h * 16 + l,
            _ => return Err((18, "text")),
        }
    }
    let bytes = &bytes[..count];
    if bytes.iter().fold(0u8, |sum, b| sum.wrapping_add(*b)) != 0 {
        return Err((19, "frame"));
    }
    let two = |h: u8, l: u8| u16::from_be_bytes([h, l]);
    let frame = match *bytes {
        [1, n1, n0, p, d1, d0, e3, e2, e1, e0, k, t1, t0, order @ 0..=1, l1, l0, _] => Frame::Setup {
            n: two(n1, n0),
            p,
            d: two(d1, d0),
            e: u32::from_be_bytes([e3, e2, e1, e0]),
            k,
            t: two(t1, t0),
            order: if order == 0 { "fewest-live" } else { "cost-benefit" },
            l: two(l1, l0),
        },
        [2, h, l, fill, _] => Frame::Write { page: two(h, l), fill },
        [3, h, l, _] => Frame::Discard { page: two(h, l) },
        [4, h, l, _] => Frame::Read { page: two(h, l) },
        _ => return Err((20, "frame")),
    };
    if matches!(frame, Frame::Setup { .. }) == started {
        return Err((21, "frame"));
    }
    Ok(frame)
}

impl Reader {
    fn end_line(&mut self) -> Result<Option<Frame>, Fault> {
        match frame_of(&self.rest[..self.len], self.started) {
            Ok(frame) => {
                self.line += 1;
                self.started = true;
                self.len = 0;
                Ok(Some(frame))
            }
            Err((number, layer)) => Err(Fault { number, line: self.line, layer }),
        }
    }

    fn push(&mut self, byte: u8) -> Result<Option<Frame>, Fault> {
        if byte == b'\n' {
            return self.end_line();
        }
        if self.len == LONGEST_LINE {
            return Err(Fault { number: 18, line: self.line, layer: "text" });
        }
        self.rest[self.len] = byte;
        self.len += 1;
        Ok(None)
    }

    fn finish(&mut self) -> Result<Option<Frame>, Fault> {
        if self.len > 0 {
            self.end_line()
        } else if self.started {
            Ok(None)
        } else {
            Err(Fault { number: 21, line: self.line, layer: "frame" })
        }
    }
}

fn list(input: &mut impl Read, out: &mut impl Write) -> io::Result<()> {
    let mut reader = Reader { line: 1, started: false, rest: [0; LONGEST_LINE], len: 0 };
    let mut piece = [0u8; 65536];
    loop {
        let n = input.read(&mut piece)?;
        if n == 0 {
            break;
        }
        for byte in &piece[..n] {
            match reader.push(*byte) {
                Ok(Some(frame)) => writeln!(out, "{frame}")?,
                Ok(None) => {}
                Err(fault) => return writeln!(out, "{fault}"),
            }
        }
    }
    match reader.finish() {
        Ok(Some(frame)) => writeln!(out, "{frame}"),
        Ok(None) => Ok(()),
        Err(fault) => writeln!(out, "{fault}"),
    }
}

fn main() -> io::Result<()> {
    let mut out = BufWriter::new(io::stdout().lock());
    list(&mut io::stdin().lock(), &mut out)?;
    out.flush()
}
