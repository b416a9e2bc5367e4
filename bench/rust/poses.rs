// Poses as JSON, the proved library beside a plain Rust reading and writing, in one run.
// poses [ROUNDS [STRIDE [ONE [SIDE]]]]: every STRIDE-th f32 from -4 to 4 is written and read back, digits and bits held to Rust's own
// formatting and parsing; damaged texts are read by both (STRIDE 0: neither); then both are timed, ROUNDS rounds by turns. With ONE, for a
// profile or a count, only that operation is run, with SIDE one side of it: ours or Rust. Status 1 on a failure.
use std::hint::black_box;
use std::io::Write;
use std::time::Instant;

mod ours {
    extern "C" {
        fn probe_from_json(s: *const u8, n: usize, out: *mut f32, m: usize, kinds: &mut u32) -> u32;
        fn probe_to_json(s: *const f32, n: usize, kinds: u32, row: *mut u8, m: usize, len: &mut usize) -> u32;
    }
    #[inline(always)]
    pub fn read(text: &[u8], out: &mut [f32], kinds: &mut u32) -> u32 {
        unsafe { probe_from_json(text.as_ptr(), text.len(), out.as_mut_ptr(), out.len(), kinds) }
    }
    #[inline(always)]
    pub fn write(s: &[f32], kinds: u32, row: &mut [u8], len: &mut usize) -> u32 {
        unsafe { probe_to_json(s.as_ptr(), s.len(), kinds, row.as_mut_ptr(), row.len(), len) }
    }
}

#[path = "theirs_poses.rs"]
mod theirs;

const STANDING: u32 = 0x555;
const FOUR: u32 = 0x4080_0000;
const EIGHTH: u32 = 0x3e00_0000;
const FILL: u8 = 0xee;

struct Random(u64);

impl Random {
    fn next(&mut self) -> u64 {
        self.0 ^= self.0 << 13;
        self.0 ^= self.0 >> 7;
        self.0 ^= self.0 << 17;
        self.0
    }
    fn below(&mut self, n: usize) -> usize {
        (self.next() >> 20) as usize % n
    }
}

/// What writing and reading back does to numbers.
struct Tally {
    numbers: u64,
    wrong: u64,   // digits or bits that are not Rust's, or a pose that is not read back
    changed: u64, // from 1/8 on
    largest: f64, // change below
    at: u32,      // where
}

/// The text of a number by Rust's own formatting.
fn rust_digits(x: f32, text: &mut [u8; 32]) -> usize {
    let mut rest = &mut text[..];
    write!(rest, "{x:.8}").unwrap();
    32 - rest.len()
}

/// Nine numbers and the same with a minus, as one pose: the nine are left front, right front, left middle, in row order.
fn there_and_back(bits: &[u32; 9], t: &mut Tally) {
    let mut s = [0.0f32; 18];
    for (k, &b) in bits.iter().enumerate() {
        s[k] = f32::from_bits(b);
        s[9 + k] = f32::from_bits(b | 1 << 31);
    }
    let mut row = [FILL; 512];
    let (mut len, mut kinds) = (0, 0);
    let mut back = [9.0f32; 18];
    let good = ours::write(&s, STANDING, &mut row, &mut len) == 0 && ours::read(&row[..len], &mut back, &mut kinds) == 0;
    if !good || kinds != STANDING || row[len..].iter().any(|&b| b != FILL) {
        t.wrong += 1;
        return;
    }
    // the text that Rust's digits make
    let (mut digits, mut lengths) = ([[0u8; 32]; 9], [0; 9]);
    for k in 0..9 {
        lengths[k] = rust_digits(s[k], &mut digits[k]);
    }
    let (mut want, mut at) = ([0u8; 512], 0);
    let mut put = |bytes: &[u8]| {
        want[at..at + bytes.len()].copy_from_slice(bytes);
        at += bytes.len();
    };
    for (k, (name, leg)) in theirs::FIELDS.into_iter().enumerate() {
        let first = 3 * leg;
        put(if k == 0 { b"{\"" } else { b",\"" });
        put(name);
        put(b"\":[");
        for j in first..first + 3 {
            if j > first {
                put(b",");
            }
            if j >= 9 {
                put(b"-");
            }
            put(&digits[j % 9][..lengths[j % 9]]);
        }
        put(b"]");
    }
    put(b"}");
    t.wrong += (want[..at] != row[..len]) as u64;
    for k in 0..9 {
        let x: f32 = std::str::from_utf8(&digits[k][..lengths[k]]).unwrap().parse().unwrap();
        t.wrong += (back[k].to_bits() != x.to_bits()) as u64 + (back[9 + k].to_bits() != x.to_bits() | 1 << 31) as u64;
        if bits[k] >= EIGHTH {
            t.changed += 2 * (back[k].to_bits() != bits[k]) as u64;
        } else {
            let change = (back[k] as f64 - s[k] as f64).abs();
            if change > t.largest {
                t.largest = change;
                t.at = bits[k];
            }
        }
    }
}

/// Whether nothing is wrong.
fn every(stride: u32) -> bool {
    let start = Instant::now();
    let mut t = Tally { numbers: 0, wrong: 0, changed: 0, largest: 0.0, at: 0 };
    let mut b = 0u32;
    while b <= FOUR {
        let mut bits = [0; 9];
        for place in bits.iter_mut() {
            *place = b.min(FOUR);
            t.numbers += 2 * (b <= FOUR) as u64;
            b += stride;
        }
        there_and_back(&bits, &mut t);
    }
    println!("patterns from -4 to 4 by strides of {stride}, written and read back: {} in {:.0} s", t.numbers, start.elapsed().as_secs_f64());
    println!("digits or bits that are not Rust's: {}; changed from 1/8 on: {}", t.wrong, t.changed);
    println!("largest change below: {:e}, 2^{:.2}, of pattern {:08x}", t.largest, t.largest.log2(), t.at);
    t.wrong == 0 && t.changed == 0
}

/// Both read the same from a text.
fn same(text: &[u8]) -> u32 {
    let (mut a, mut b) = ([7.0f32; 18], [7.0f32; 18]);
    let (mut k, mut l) = (77, 77);
    let (m, n) = (ours::read(text, &mut a, &mut k), theirs::read(text, &mut b, &mut l));
    if (m, k, a.map(f32::to_bits)) == (n, l, b.map(f32::to_bits)) { m } else { 100 }
}

/// Good texts with a few bytes other, gone, more, or a piece of another text.
fn damaged(texts: &[Vec<u8>], count: usize) -> bool {
    let mut r = Random(0x1234_5678_9abc_def1);
    let bytes = b"{}[],:\"\\null0123456789.- \t\n\r\x00\x1f\x7f\x80\xbf\xc3\xa9\xe2\x82\xac\xed\xa0\xf0\x9f\xa6\x80\xf4\x90\xff";
    let mut found = [0u64; 101];
    let mut text = vec![];
    for _ in 0..count {
        text.clear();
        text.extend_from_slice(&texts[r.below(texts.len())]);
        for _ in 0..r.below(4) {
            let at = r.below(text.len() + 1);
            let b = bytes[r.below(bytes.len())];
            match r.below(4) {
                0 => text.insert(at, b),
                1 if at < text.len() => drop(text.remove(at)),
                2 if r.below(8) == 0 => text.truncate(at),
                _ if at < text.len() => text[at] = b,
                _ => text.push(b),
            }
        }
        found[same(&text) as usize] += 1;
    }
    println!("{count} texts, most of them damaged, read by both: good {}, refused 13 {}, 2 {}, 14 {}", found[0], found[13], found[2], found[14]);
    println!("not the same: {}", found[100]);
    found[100] == 0
}

const INPUTS: usize = 1024;

/// One round over all inputs, in nanoseconds a call.
fn timed(call: &mut impl FnMut(usize)) -> f64 {
    let t = Instant::now();
    for i in 0..INPUTS {
        call(i);
    }
    t.elapsed().as_nanos() as f64 / INPUTS as f64
}

/// The best of several rounds, ours and theirs by turns.
fn both(name: &str, mut ours: impl FnMut(usize), mut theirs: impl FnMut(usize)) {
    let word = |k| std::env::args().nth(k);
    let rounds = word(1).and_then(|s| s.parse().ok()).unwrap_or(200);
    if word(3).is_some_and(|only| only != name) {
        return;
    }
    let side = word(4).unwrap_or_default();
    let (mut a, mut b) = (f64::MAX, f64::MAX);
    for _ in 0..rounds {
        if side != "Rust" {
            a = a.min(timed(&mut ours));
        }
        if side != "ours" {
            b = b.min(timed(&mut theirs));
        }
    }
    if side.is_empty() {
        println!("{name:27} {a:9.1} {b:9.1} {:7.2} {:6.1}{}", a / b, 1.3, if a / b <= 1.3 { "" } else { "  missed" });
    }
}

// An answer that the compiler must make, though nothing reads it.
#[inline(always)]
fn kept<T>(answer: T) {
    black_box(answer);
}

/// A text with blanks as a printer would set them.
fn dressed(text: &[u8]) -> Vec<u8> {
    let mut out = vec![];
    for &b in text {
        match b {
            b'{' => out.extend(b"{\n  "),
            b'}' => out.extend(b"\n}\n"),
            b':' => out.extend(b": "),
            b',' => out.extend(b", "),
            _ => out.push(b),
        }
    }
    out
}

fn main() {
    let mut r = Random(0x9e37_79b9_7f4a_7c15);
    let mut number = || -1.0 + 2.0 * ((r.next() >> 40) as f32 / (1u64 << 24) as f32);
    let poses: Vec<[f32; 18]> = (0..INPUTS).map(|_| std::array::from_fn(|_| number())).collect();
    let kinds: Vec<u32> = (0..INPUTS).map(|_| (r.next() >> 20) as u32 & 0xfff).collect();
    let text = |kinds: u32, s: &[f32]| {
        let (mut row, mut other, mut n, mut m) = ([FILL; 512], [FILL; 512], 0, 0);
        assert_eq!((ours::write(s, kinds, &mut row, &mut n), theirs::write(s, kinds, &mut other, &mut m)), (0, 0));
        assert!(n == m && row == other);
        row[..n].to_vec()
    };
    let full: Vec<Vec<u8>> = poses.iter().map(|s| text(STANDING, s)).collect();
    let some: Vec<Vec<u8>> = poses.iter().zip(&kinds).map(|(s, k)| text(*k, s)).collect();
    let blanks: Vec<Vec<u8>> = full.iter().map(|t| dressed(t)).collect();
    let seventh = ",\"né\\u00e9\u{1f980}\":null}".as_bytes();
    let strange: Vec<Vec<u8>> = full.iter().map(|t| [&t[..t.len() - 1], seventh].concat()).collect();
    let word = |k| std::env::args().nth(k);
    let stride = word(2).and_then(|s| s.parse().ok()).unwrap_or(1);
    let mut good = true;
    if stride != 0 {
        good &= damaged(&[&full[..], &some[..], &blanks[..], &strange[..]].concat(), 4_000_000);
        good &= every(stride);
    }
    println!("{:27} {:>9} {:>9} {:>7} {:>6}", "operation", "ours ns", "Rust ns", "ratio", "goal");
    let (mut a, mut b) = ([0.0f32; 18], [0.0f32; 18]);
    let (mut k, mut l) = (0, 0);
    let kinds_of_text =
        [("reading a pose", &full), ("reading one with blanks", &blanks), ("reading one with nulls", &some), ("reading one refused 14", &strange)];
    for (name, texts) in kinds_of_text {
        both(name, |i| kept(ours::read(&texts[i], &mut a, &mut k)), |i| kept(theirs::read(&texts[i], &mut b, &mut l)));
    }
    let (mut row, mut other) = ([0u8; 512], [0u8; 512]);
    let (mut n, mut m) = (0, 0);
    for (name, kinds) in [("writing a pose", &vec![STANDING; INPUTS]), ("writing one with nulls", &kinds)] {
        both(
            name,
            |i| kept(ours::write(&poses[i], kinds[i], &mut row, &mut n)),
            |i| kept(theirs::write(&poses[i], kinds[i], &mut other, &mut m)),
        );
    }
    if !good {
        std::process::exit(1);
    }
}
