// The walk printer in plain Rust, for `bench/run printer`: the same reading, checks, steps and lines, each walk gone once. A line is
// read where it stands in a chunk of at most 64 KiB; of a line that a read cuts, at most 128 bytes are kept. Output in blocks of
// 64 KiB, and what a chunk finishes is written before the next read.
use std::io::{self, BufRead, Read, StdoutLock, Write};

const BLOCK: usize = 65536;
const KEPT: usize = 128;

#[derive(Clone, Copy, PartialEq)]
struct Point {
    x: f32,
    y: f32,
    z: f32,
}

// The value of a lower-case hex digit, 255 of any other byte: by a table, for a branch on random digits is guessed wrong too often.
static DIGIT: [u8; 256] = {
    let mut table = [255; 256];
    let mut k = 0;
    while k < 16 {
        table[b"0123456789abcdef"[k] as usize] = k as u8;
        k += 1;
    }
    table
};

fn pattern(s: &[u8]) -> Option<u32> {
    let (mut bits, mut all) = (0, 0);
    for &b in s {
        let d = DIGIT[b as usize];
        bits = bits << 4 | d as u32;
        all |= d;
    }
    if all < 16 { Some(bits) } else { None }
}

fn record(s: &[u8]) -> Option<[f32; 7]> {
    if s.len() != 64 || s[0] != b'W' {
        return None;
    }
    let mut v = [0.0; 7];
    for (x, f) in v.iter_mut().zip(s[1..].chunks_exact(9)) {
        if f[0] != b'\t' {
            return None;
        }
        *x = f32::from_bits(pattern(&f[1..])?);
    }
    Some(v)
}

fn refusal(v: &[f32; 7]) -> u32 {
    if !v.iter().all(|x| x.is_finite()) {
        return 1;
    }
    let near = v[1..].iter().all(|x| (-3.0..=3.0).contains(x));
    if (1.0 / 4096.0..=1.0).contains(&v[0]) && near { 0 } else { 2 }
}

fn step(last: Point, target: Point, m: f32) -> Option<Point> {
    if last == target {
        return None;
    }
    let d = Point { x: target.x - last.x, y: target.y - last.y, z: target.z - last.z };
    let distance = (d.x * d.x + d.y * d.y + d.z * d.z).sqrt();
    if distance <= m {
        return Some(target);
    }
    Some(Point { x: last.x + d.x / distance * m, y: last.y + d.y / distance * m, z: last.z + d.z / distance * m })
}

fn put_count(out: &mut Vec<u8>, n: u32) {
    let mut text = [0u8; 10];
    let mut at = 10;
    let mut n = n;
    loop {
        at -= 1;
        text[at] = b'0' + (n % 10) as u8;
        n /= 10;
        if n == 0 {
            break;
        }
    }
    out.extend_from_slice(&text[at..]);
}

fn put_bits(out: &mut Vec<u8>, x: f32) {
    let b = x.to_bits();
    let mut text = [b'\t'; 9];
    for k in 0..8 {
        text[k + 1] = b"0123456789abcdef"[(b >> (28 - 4 * k) & 15) as usize];
    }
    out.extend_from_slice(&text);
}

fn put_short(out: &mut Vec<u8>, letter: u8, n: u32) {
    out.extend_from_slice(&[letter, b'\t']);
    put_count(out, n);
    out.push(b'\n');
}

// A line that a read has cut. Past KEPT bytes it is no record, whatever its bytes are, and none of them is kept.
struct Begun {
    held: Vec<u8>,
    past: bool,
}

impl Begun {
    fn is_none(&self) -> bool {
        self.held.is_empty() && !self.past
    }

    fn more(&mut self, piece: &[u8]) {
        self.past |= self.held.len() + piece.len() > KEPT;
        if self.past {
            self.held.clear();
        } else {
            self.held.extend_from_slice(piece);
        }
    }

    fn end(&mut self) {
        self.held.clear();
        self.past = false;
    }
}

// Takes the first line off, if its newline has come. The search is that of BufRead, many bytes at a time.
fn finished<'a>(rest: &mut &'a [u8]) -> Option<&'a [u8]> {
    let all = *rest;
    let n = rest.skip_until(b'\n').ok()?;
    match all[..n].split_last() {
        Some((b'\n', line)) => Some(line),
        _ => {
            *rest = all;
            None
        }
    }
}

struct Printer {
    out: Vec<u8>,
    output: StdoutLock<'static>,
}

impl Printer {
    fn write_out(&mut self) -> io::Result<()> {
        self.output.write_all(&self.out)?;
        self.out.clear();
        Ok(())
    }

    // Room for one line more.
    fn room(&mut self) -> io::Result<()> {
        if self.out.len() + 40 > BLOCK { self.write_out() } else { Ok(()) }
    }

    fn walk(&mut self, v: &[f32; 7]) -> io::Result<u32> {
        let target = Point { x: v[4], y: v[5], z: v[6] };
        let mut last = Point { x: v[1], y: v[2], z: v[3] };
        let mut count = 0;
        while let Some(p) = step(last, target, v[0]) {
            last = p;
            count += 1;
            self.room()?;
            self.out.extend_from_slice(b"M\t");
            put_count(&mut self.out, count);
            put_bits(&mut self.out, p.x);
            put_bits(&mut self.out, p.y);
            put_bits(&mut self.out, p.z);
            self.out.push(b'\n');
        }
        Ok(count)
    }

    fn answer(&mut self, line: &[u8]) -> io::Result<()> {
        let (letter, n) = match record(line) {
            None => (b'R', 7),
            Some(v) => match refusal(&v) {
                0 => (b'A', self.walk(&v)?),
                n => (b'R', n),
            },
        };
        self.room()?;
        put_short(&mut self.out, letter, n);
        Ok(())
    }
}

fn main() -> io::Result<()> {
    let mut input = io::stdin().lock();
    let mut chunk = vec![0; BLOCK];
    let mut begun = Begun { held: Vec::with_capacity(KEPT), past: false };
    let mut printer = Printer { out: Vec::with_capacity(BLOCK), output: io::stdout().lock() };
    printer.out.extend_from_slice(b"hopper-walk\t2\n");
    loop {
        let mut rest = match input.read(&mut chunk) {
            Ok(0) => break,
            Ok(n) => &chunk[..n],
            Err(e) if e.kind() == io::ErrorKind::Interrupted => continue,
            Err(e) => {
                eprintln!("hopper-walk: standard input: {e}");
                break;
            }
        };
        while let Some(line) = finished(&mut rest) {
            if begun.is_none() {
                printer.answer(line)?;
            } else {
                begun.more(line);
                printer.answer(&begun.held)?;
                begun.end();
            }
        }
        begun.more(rest);
        printer.write_out()?;
    }
    if !begun.is_none() {
        printer.answer(&begun.held)?;
    }
    printer.write_out()
}
