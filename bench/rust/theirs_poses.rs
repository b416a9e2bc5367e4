// Poses as JSON in plain Rust: the same checks as the library's, in the same order.
#[derive(Clone, Copy)]
pub struct Foot {
    pub point: [f32; 3],
    pub lifted: bool,
}

/// In row order.
pub type Pose = [Option<Foot>; 6];

static POWERS: [u32; 9] = [100_000_000, 10_000_000, 1_000_000, 100_000, 10_000, 1_000, 100, 10, 1];

/// Names in the order of fields, with their places in the row.
pub static FIELDS: [(&[u8], usize); 6] = [
    (b"left_front", 0),
    (b"left_middle", 2),
    (b"left_rear", 4),
    (b"right_front", 1),
    (b"right_middle", 3),
    (b"right_rear", 5),
];

fn leg(name: &[u8]) -> Option<usize> {
    match name {
        b"left_front" => Some(0),
        b"right_front" => Some(1),
        b"left_middle" => Some(2),
        b"right_middle" => Some(3),
        b"left_rear" => Some(4),
        b"right_rear" => Some(5),
        _ => None,
    }
}

struct Reader<'a> {
    text: &'a [u8],
    at: usize,
}

impl<'a> Reader<'a> {
    fn peek(&self) -> Option<u8> {
        self.text.get(self.at).copied()
    }

    fn take(&mut self, c: u8) -> Option<()> {
        if self.peek() != Some(c) {
            return None;
        }
        self.at += 1;
        Some(())
    }

    fn blanks(&mut self) {
        while let Some(b' ' | b'\t' | b'\n' | b'\r') = self.peek() {
            self.at += 1;
        }
    }

    /// A byte with the blanks around it.
    fn token(&mut self, c: u8) -> Option<()> {
        self.blanks();
        self.take(c)?;
        self.blanks();
        Some(())
    }

    fn digit(&mut self) -> Option<u32> {
        let d = self.peek()?.wrapping_sub(b'0');
        if d > 9 {
            return None;
        }
        self.at += 1;
        Some(d as u32)
    }

    fn escape(&mut self) -> Option<()> {
        let b = self.peek()?;
        self.at += 1;
        match b {
            b'"' | b'\\' | b'/' | b'b' | b'f' | b'n' | b'r' | b't' => Some(()),
            b'u' => {
                let digits = self.text.get(self.at..self.at + 4)?;
                self.at += 4;
                digits.iter().all(u8::is_ascii_hexdigit).then_some(())
            }
            _ => None,
        }
    }

    fn name(&mut self) -> Option<&'a [u8]> {
        self.take(b'"')?;
        let start = self.at;
        let mut ascii = true;
        loop {
            let b = self.peek()?;
            self.at += 1;
            match b {
                b'"' => break,
                b'\\' => self.escape()?,
                0..=31 => return None,
                128..=255 => ascii = false,
                _ => {}
            }
        }
        let name = &self.text[start..self.at - 1];
        if ascii || std::str::from_utf8(name).is_ok() { Some(name) } else { None }
    }

    // A quotient of two f64 and its f32: below 10^9 hundred-millionths no f64 next to one is half-way between two f32.
    fn number(&mut self) -> Option<f32> {
        let minus = self.take(b'-').is_some();
        let mut n = self.digit()?;
        let mut decimals = 0;
        if self.take(b'.').is_some() {
            n = n * 10 + self.digit()?;
            decimals = 1;
            while decimals < 8 {
                match self.digit() {
                    Some(d) => n = n * 10 + d,
                    None => break,
                }
                decimals += 1;
            }
        }
        let x = ((n * POWERS[decimals]) as f64 / 1e8) as f32;
        Some(if minus { -x } else { x })
    }

    fn value(&mut self) -> Option<Option<[f32; 3]>> {
        if self.text[self.at..].starts_with(b"null") {
            self.at += 4;
            return Some(None);
        }
        self.take(b'[')?;
        self.blanks();
        let x = self.number()?;
        self.token(b',')?;
        let y = self.number()?;
        self.token(b',')?;
        let z = self.number()?;
        self.blanks();
        self.take(b']')?;
        Some(Some([x, y, z]))
    }
}

/// The pose of a text, None where it is no object of names with such values.
fn pose(text: &[u8]) -> Option<Result<Pose, u32>> {
    let mut r = Reader { text, at: 0 };
    let mut pose = [None; 6];
    let (mut seen, mut strange, mut outside) = (0u32, false, false);
    r.token(b'{')?;
    if r.take(b'}').is_none() {
        loop {
            let name = r.name()?;
            r.token(b':')?;
            let value = r.value()?;
            if let Some(point) = value {
                outside |= point.iter().any(|x| x.abs() > 4.0);
            }
            match leg(name) {
                Some(l) if seen >> l & 1 == 0 => {
                    seen |= 1 << l;
                    pose[l] = value.map(|point| Foot { point, lifted: false });
                }
                _ => strange = true,
            }
            r.blanks();
            if r.take(b',').is_none() {
                break;
            }
            r.blanks();
        }
        r.take(b'}')?;
    }
    r.blanks();
    if r.at != text.len() {
        return None;
    }
    Some(if outside {
        Err(2)
    } else if strange || seen != 63 {
        Err(14)
    } else {
        Ok(pose)
    })
}

pub fn from_json(text: &[u8]) -> Result<Pose, u32> {
    pose(text).unwrap_or(Err(13))
}

struct Writer<'a> {
    row: &'a mut [u8],
    at: usize,
}

impl Writer<'_> {
    fn byte(&mut self, b: u8) {
        self.row[self.at] = b;
        self.at += 1;
    }

    fn bytes(&mut self, s: &[u8]) {
        self.row[self.at..self.at + s.len()].copy_from_slice(s);
        self.at += s.len();
    }

    // The product is exact: 24 digits and 19.
    fn number(&mut self, x: f32) {
        if x.is_sign_negative() {
            self.byte(b'-');
        }
        let mut n = (x.abs() as f64 * 1e8).round_ties_even() as u32;
        let digits = &mut self.row[self.at..self.at + 10];
        for d in digits[2..].iter_mut().rev() {
            *d = b'0' + (n % 10) as u8;
            n /= 10;
        }
        digits[1] = b'.';
        digits[0] = b'0' + n as u8;
        self.at += 10;
    }

    fn value(&mut self, foot: &Option<Foot>) {
        let Some(foot) = foot else {
            self.bytes(b"null");
            return;
        };
        self.byte(b'[');
        self.number(foot.point[0]);
        self.byte(b',');
        self.number(foot.point[1]);
        self.byte(b',');
        self.number(foot.point[2]);
        self.byte(b']');
    }
}

pub fn to_json(pose: &Pose, row: &mut [u8]) -> Result<usize, u32> {
    let numbers = || pose.iter().flatten().flat_map(|f| f.point);
    if !numbers().all(|x| x.abs() <= 4.0) {
        return Err(if numbers().all(f32::is_finite) { 2 } else { 1 });
    }
    if row.len() != 512 {
        return Err(5);
    }
    let mut w = Writer { row, at: 0 };
    let mut before = b'{';
    for (name, leg) in FIELDS {
        w.byte(before);
        w.byte(b'"');
        w.bytes(name);
        w.bytes(b"\":");
        w.value(&pose[leg]);
        before = b',';
    }
    w.byte(b'}');
    Ok(w.at)
}

#[export_name = "rust_from_json"]
#[inline(never)]
pub fn read(text: &[u8], out: &mut [f32], kinds: &mut u32) -> u32 {
    match from_json(text) {
        Ok(pose) => {
            *kinds = 0;
            for (l, foot) in pose.iter().enumerate() {
                if let Some(foot) = foot {
                    *kinds |= (1 + foot.lifted as u32) << (2 * l);
                    out[3 * l..3 * l + 3].copy_from_slice(&foot.point);
                }
            }
            0
        }
        Err(n) => n,
    }
}

#[export_name = "rust_to_json"]
#[inline(never)]
pub fn write(s: &[f32], kinds: u32, row: &mut [u8], len: &mut usize) -> u32 {
    let pose = std::array::from_fn(|l| match kinds >> (2 * l) & 3 {
        0 => None,
        kind => Some(Foot { point: [s[3 * l], s[3 * l + 1], s[3 * l + 2]], lifted: kind != 1 }),
    });
    match to_json(&pose, row) {
        Ok(n) => {
            *len = n;
            0
        }
        Err(n) => n,
    }
}
