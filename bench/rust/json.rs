// Poses as JSON by plain Rust, for comparing with `replay`: UTF-8, numbers and digits are the standard library's own.

/// A leg's point, or null.
pub type Leg = Option<[f32; 3]>;

/// The legs' names in row order, and their places there in the order in which they are written.
const NAMES: [&str; 6] = ["left_front", "right_front", "left_middle", "right_middle", "left_rear", "right_rear"];
const WRITTEN: [usize; 6] = [0, 2, 4, 1, 3, 5];

struct Text<'a> {
    rest: &'a str,
}

impl<'a> Text<'a> {
    fn blanks(&mut self) {
        self.rest = self.rest.trim_start_matches([' ', '\t', '\n', '\r']);
    }
    fn take(&mut self, word: &str) -> Option<()> {
        self.rest = self.rest.strip_prefix(word)?;
        Some(())
    }
    /// A word with blanks around it.
    fn token(&mut self, word: &str) -> Option<()> {
        self.blanks();
        self.take(word)?;
        self.blanks();
        Some(())
    }
    fn next(&mut self) -> Option<char> {
        let c = self.rest.chars().next()?;
        self.rest = &self.rest[c.len_utf8()..];
        Some(c)
    }
    fn digit(&mut self) -> Option<()> {
        self.next().filter(char::is_ascii_digit).map(|_| ())
    }
    fn escape(&mut self) -> Option<()> {
        match self.next()? {
            '"' | '\\' | '/' | 'b' | 'f' | 'n' | 'r' | 't' => Some(()),
            'u' => (0..4).try_for_each(|_| self.next().filter(char::is_ascii_hexdigit).map(|_| ())),
            _ => None,
        }
    }
    /// What stands between a name's quotes.
    fn name(&mut self) -> Option<&'a str> {
        self.take("\"")?;
        let all = self.rest;
        loop {
            let before = all.len() - self.rest.len();
            match self.next()? {
                '"' => return Some(&all[..before]),
                '\\' => self.escape()?,
                c if c < ' ' => return None,
                _ => (),
            }
        }
    }
    fn number(&mut self) -> Option<f32> {
        let all = self.rest;
        let _ = self.take("-");
        self.digit()?;
        if self.take(".").is_some() {
            self.digit()?;
            for _ in 1..8 {
                if self.rest.starts_with(|c: char| c.is_ascii_digit()) {
                    self.digit()?;
                }
            }
        }
        all[..all.len() - self.rest.len()].parse().ok()
    }
    fn value(&mut self) -> Option<Leg> {
        if self.take("null").is_some() {
            return Some(None);
        }
        self.token("[")?;
        let x = self.number()?;
        self.token(",")?;
        let y = self.number()?;
        self.token(",")?;
        let z = self.number()?;
        self.blanks();
        self.take("]")?;
        Some(Some([x, y, z]))
    }
    fn member(&mut self) -> Option<(&'a str, Leg)> {
        let name = self.name()?;
        self.token(":")?;
        Some((name, self.value()?))
    }
    fn object(&mut self) -> Option<Vec<(&'a str, Leg)>> {
        let mut members = vec![];
        self.token("{")?;
        if self.take("}").is_none() {
            members.push(self.member()?);
            while self.token(",").is_some() {
                members.push(self.member()?);
            }
            self.take("}")?;
        }
        self.blanks();
        if self.rest.is_empty() { Some(members) } else { None }
    }
}

/// The legs in row order.
pub fn from_json(text: &[u8]) -> Result<[Leg; 6], u32> {
    let text = std::str::from_utf8(text).map_err(|_| 13u32)?;
    let members = Text { rest: text }.object().ok_or(13u32)?;
    if members.iter().filter_map(|(_, leg)| *leg).flatten().any(|x| x.abs() > 4.0) {
        return Err(2);
    }
    let mut legs = [None; 6];
    for (leg, name) in legs.iter_mut().zip(NAMES) {
        let mut of_name = members.iter().filter(|m| m.0 == name);
        *leg = of_name.next().ok_or(14u32)?.1;
    }
    if members.len() == 6 { Ok(legs) } else { Err(14) }
}

/// The text for a row of n bytes.
pub fn to_json(legs: &[Leg; 6], n: usize) -> Result<String, u32> {
    let numbers = || legs.iter().flatten().flatten();
    if numbers().any(|x| !x.is_finite()) {
        return Err(1);
    }
    if numbers().any(|x| x.abs() > 4.0) {
        return Err(2);
    }
    if n != 512 {
        return Err(5);
    }
    let value = |leg: &Leg| match leg {
        Some([x, y, z]) => format!("[{x:.8},{y:.8},{z:.8}]"),
        None => "null".to_string(),
    };
    let members: Vec<String> = WRITTEN.iter().map(|&l| format!("\"{}\":{}", NAMES[l], value(&legs[l]))).collect();
    Ok(format!("{{{}}}", members.join(",")))
}
