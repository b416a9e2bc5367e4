// The comparison of two walk listings in plain Rust, to be timed beside the proved program: the same lines, checks and answers.
// A line is read where it stands in a buffer of 64 KiB; of a line that a read cuts, 128 bytes are kept; output in blocks of 64 KiB.
use std::env;
use std::fs::File;
use std::io::{self, BufRead, BufReader, BufWriter, Write};

const BLOCK: usize = 65536;
const KEPT: usize = 128;

#[derive(Clone, Copy, PartialEq)]
enum Line {
    Header(u32),
    Move(u32, [u32; 3]),
    Arrived(u32),
    Refused(u32),
}

// The value of a lower-case hex digit, 255 of any other byte: by a table, for a branch on random digits is guessed wrong too often.
static DIGIT: [u8; 256] = {
    let mut table = [255; 256];
    let mut k = 0;
    while k < 16 {
        table[b"0123456789abcdef"[k] as usize] = k as u8;
        k += 1;
    }
    table
};

fn pattern(s: &[u8]) -> Option<u32> {
    let (mut bits, mut all) = (0, 0);
    for &b in s {
        let d = DIGIT[b as usize];
        bits = bits << 4 | d as u32;
        all |= d;
    }
    if all < 16 { Some(bits) } else { None }
}

// A count of at most six digits, without a leading zero.
fn count(s: &[u8]) -> Option<u32> {
    if s.is_empty() || s.len() > 6 || s[0] == b'0' && s.len() > 1 {
        return None;
    }
    let mut n = 0;
    for &b in s {
        if !b.is_ascii_digit() {
            return None;
        }
        n = n * 10 + (b - b'0') as u32;
    }
    Some(n)
}

// What follows an `M` and its tab: a count and three times a tab and eight digits.
fn moved(s: &[u8]) -> Option<Line> {
    let (n, fields) = s.split_at(s.len().checked_sub(27)?);
    let mut bits = [0; 3];
    for (v, f) in bits.iter_mut().zip(fields.chunks_exact(9)) {
        if f[0] != b'\t' {
            return None;
        }
        *v = pattern(&f[1..])?;
    }
    Some(Line::Move(count(n)?, bits))
}

fn line(s: &[u8]) -> Option<Line> {
    match s {
        [b'M', b'\t', rest @ ..] => moved(rest),
        [b'A', b'\t', rest @ ..] => count(rest).map(Line::Arrived),
        [b'R', b'\t', b @ (b'1' | b'2' | b'7')] => Some(Line::Refused((b - b'0') as u32)),
        b"hopper-walk\t1" => Some(Line::Header(1)),
        b"hopper-walk\t2" => Some(Line::Header(2)),
        _ => None,
    }
}

// What a file has at a position.
#[derive(Clone, Copy, PartialEq)]
enum Found {
    Good(Line),
    Bad,
    End,
}

// Line 1 is a header, no other is; it says what a count must be below, which is 0 as long as there was none.
fn judged(s: &[u8], below: &mut u32) -> Found {
    match line(s) {
        Some(l @ Line::Header(version)) if *below == 0 => {
            *below = if version == 1 { 100_000 } else { 1_000_000 };
            Found::Good(l)
        }
        Some(l @ Line::Move(n, _)) if 0 < n && n < *below => Found::Good(l),
        Some(l @ Line::Arrived(n)) if n < *below => Found::Good(l),
        Some(l @ Line::Refused(_)) if *below != 0 => Found::Good(l),
        _ => Found::Bad,
    }
}

struct Side {
    file: BufReader<File>,
    held: Vec<u8>, // the beginning of a line that a read has cut
    below: u32,
    over: bool,
}

impl Side {
    fn new(file: File) -> Side {
        Side { file: BufReader::with_capacity(BLOCK, file), held: Vec::with_capacity(KEPT), below: 0, over: false }
    }

    fn next(&mut self) -> Found {
        self.held.clear();
        while !self.over {
            let piece = match self.file.fill_buf() {
                Ok(piece) => piece,
                Err(e) if e.kind() == io::ErrorKind::Interrupted => continue,
                Err(_) => return Found::Bad,
            };
            self.over = piece.is_empty();
            let end = piece.iter().position(|&b| b == b'\n');
            let n = end.unwrap_or(piece.len());
            if end.is_some() && self.held.is_empty() {
                let found = judged(&piece[..n], &mut self.below);
                self.file.consume(n + 1);
                return found;
            }
            if self.held.len() + n > KEPT {
                return Found::Bad;
            }
            self.held.extend_from_slice(&piece[..n]);
            self.file.consume(n + end.is_some() as usize);
            if end.is_some() {
                return judged(&self.held, &mut self.below);
            }
        }
        if self.held.is_empty() { Found::End } else { judged(&self.held, &mut self.below) }
    }
}

fn put_number(out: &mut impl Write, letters: &[u8], n: u64) -> io::Result<()> {
    let mut text = [0u8; 20];
    let mut at = 20;
    let mut n = n;
    loop {
        at -= 1;
        text[at] = b'0' + (n % 10) as u8;
        n /= 10;
        if n == 0 {
            break;
        }
    }
    out.write_all(letters)?;
    out.write_all(&text[at..])
}

fn put_bits(out: &mut impl Write, bits: u32) -> io::Result<()> {
    let mut text = [b'\t'; 9];
    for k in 0..8 {
        text[k + 1] = b"0123456789abcdef"[(bits >> (28 - 4 * k) & 15) as usize];
    }
    out.write_all(&text)
}

fn put_difference(out: &mut impl Write, position: u64, bench: Found, office: Found) -> io::Result<()> {
    put_number(out, b"D\t", position)?;
    if let (Found::Good(Line::Move(_, b)), Found::Good(Line::Move(_, o))) = (bench, office) {
        for k in 0..3 {
            if b[k] != o[k] {
                out.write_all(&[b'\t', b"xyz"[k]])?;
                put_bits(out, b[k])?;
                put_bits(out, o[k])?;
            }
        }
    }
    out.write_all(b"\n")
}

fn put_refusal(out: &mut impl Write, position: u64) -> io::Result<()> {
    put_number(out, b"R\t7\t", position)?;
    out.write_all(b"\n")
}

fn compare(bench: &mut Side, office: &mut Side, out: &mut impl Write) -> io::Result<()> {
    let (mut position, mut total) = (1u64, 0u64);
    loop {
        let (b, o) = (bench.next(), office.next());
        let missing = position == 1 && (b == Found::End || o == Found::End);
        if missing || b == Found::Bad || o == Found::Bad {
            return put_refusal(out, position);
        }
        if b == Found::End && o == Found::End {
            put_number(out, b"T\t", total)?;
            return out.write_all(b"\n");
        }
        if position > 1 && b != o {
            put_difference(out, position, b, o)?;
            total = total.saturating_add(1);
        }
        position = position.saturating_add(1);
    }
}

// No words, or two. The system refuses an empty path and one past 4,095 bytes by itself.
fn opened() -> Option<(File, File)> {
    let words: Vec<_> = env::args_os().skip(1).collect();
    match &words[..] {
        [] => Some((File::open("bench.lst").ok()?, File::open("office.lst").ok()?)),
        [bench, office] => Some((File::open(bench).ok()?, File::open(office).ok()?)),
        _ => None,
    }
}

fn main() -> io::Result<()> {
    let mut out = BufWriter::with_capacity(BLOCK, io::stdout().lock());
    match opened() {
        Some((bench, office)) => compare(&mut Side::new(bench), &mut Side::new(office), &mut out)?,
        None => put_refusal(&mut out, 0)?,
    }
    out.flush()
}
