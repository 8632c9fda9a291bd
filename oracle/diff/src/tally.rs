//! What was compared, and what differed.

pub struct Tally {
    pub name: String,
    pub compared: u64,
    pub differ: u64,
    /// Zeros of the other sign, where the paper allows them.
    pub zeros: u64,
    /// Comparisons in which the port refused, as it should.
    pub refused: u64,
    /// Another count, with its name.
    pub apart: Option<(&'static str, u64)>,
    first: Vec<String>,
}

const SHOWN: usize = 3;

impl Tally {
    pub fn new(name: impl Into<String>) -> Self {
        Self { name: name.into(), compared: 0, differ: 0, zeros: 0, refused: 0, apart: None, first: Vec::new() }
    }

    #[inline(always)]
    pub fn note(&mut self, same: bool, tell: impl FnOnce() -> String) {
        self.compared += 1;
        if !same {
            self.differ += 1;
            if self.first.len() < SHOWN {
                self.first.push(tell());
            }
        }
    }

    pub fn print(&self) {
        let mut line = format!("{}: {} compared, {} differ", self.name, self.compared, self.differ);
        if self.zeros > 0 {
            line += &format!(", {} zeros of the other sign", self.zeros);
        }
        if self.refused > 0 {
            line += &format!(", {} refused as due", self.refused);
        }
        if let Some((what, count)) = self.apart {
            line += &format!(", {count} {what}");
        }
        println!("{line}");
        for f in &self.first {
            println!("    {f}");
        }
    }
}

/// Two rows of floats: equal up to the signs of zeros (if that is allowed), with how many zeros had the other sign. Every NaN is one.
pub fn same(ours: &[f32], theirs: &[f32], signs_free: bool) -> (bool, u64) {
    use oracle::text::bits;
    let mut zeros = 0;
    let mut all = ours.len() == theirs.len();
    for (a, b) in ours.iter().zip(theirs) {
        if bits(*a) != bits(*b) {
            if signs_free && *a == 0.0 && *b == 0.0 {
                zeros += 1;
            } else {
                all = false;
            }
        }
    }
    (all, zeros)
}
