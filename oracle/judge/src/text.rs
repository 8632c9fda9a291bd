//! Numbers as text: floats are eight hexadecimal digits, words sixteen, halves four, all else decimal; blanks between.

/// The bits of a float, every NaN written 7fc00000: which NaN an operation gives is not fixed. The bits go through a black box, since a
/// compiler may otherwise take "7fc00000 if NaN, else itself" for "itself" (seen behind a square root, rustc 1.95 on aarch64).
pub fn bits(x: f32) -> u32 {
    let bits = std::hint::black_box(x.to_bits());
    if bits & 0x7fffffff > 0x7f800000 {
        0x7fc00000
    } else {
        bits
    }
}

pub fn hex(x: f32) -> String {
    format!("{:08x}", bits(x))
}

pub fn hexes(xs: &[f32]) -> String {
    xs.iter().map(|x| hex(*x)).collect::<Vec<_>>().join(" ")
}

pub fn words(ws: &[u64]) -> String {
    ws.iter().map(|w| format!("{w:016x}")).collect::<Vec<_>>().join(" ")
}

pub fn list<T: ToString>(xs: &[T]) -> String {
    xs.iter().map(|x| x.to_string()).collect::<Vec<_>>().join(" ")
}

/// Joins the parts that are not empty with one blank.
pub fn line(parts: &[String]) -> String {
    parts.iter().filter(|p| !p.is_empty()).cloned().collect::<Vec<_>>().join(" ")
}

/// The words of one line, taken one after the other.
pub struct Tokens<'a>(std::str::SplitWhitespace<'a>);

pub type Asked<T> = Result<T, String>;

impl<'a> Tokens<'a> {
    pub fn new(line: &'a str) -> Self {
        Self(line.split_whitespace())
    }

    pub fn word(&mut self) -> Asked<&'a str> {
        self.0.next().ok_or("the line is too short".into())
    }

    pub fn number(&mut self) -> Asked<usize> {
        let w = self.word()?;
        w.parse().map_err(|_| format!("not a number: {w}"))
    }

    pub fn hex(&mut self, digits: usize) -> Asked<u64> {
        let w = self.word()?;
        match u64::from_str_radix(w, 16) {
            Ok(n) if w.len() == digits => Ok(n),
            _ => Err(format!("not {digits} hexadecimal digits: {w}")),
        }
    }

    pub fn float(&mut self) -> Asked<f32> {
        Ok(f32::from_bits(self.hex(8)? as u32))
    }

    pub fn floats(&mut self, n: usize) -> Asked<Vec<f32>> {
        (0..n).map(|_| self.float()).collect()
    }

    pub fn words(&mut self, n: usize) -> Asked<Vec<u64>> {
        (0..n).map(|_| self.hex(16)).collect()
    }

    pub fn feeds(&mut self) -> Asked<Vec<(u64, f32)>> {
        let m = self.number()?;
        (0..m).map(|_| Ok((self.number()? as u64, self.float()?))).collect()
    }

    pub fn end(mut self) -> Asked<()> {
        match self.0.next() {
            None => Ok(()),
            Some(w) => Err(format!("too much on the line: {w}")),
        }
    }
}
