//! Calls that another program answers. It is started once; each call is written to its standard input, and the answer is read from its
//! standard output. ../../x86/answer.c is such a program, linked with the x86-64 library. Nothing here knows a call: the types of its
//! arguments say what to send.
//!
//! A question: the number of bytes that follow; the number of bytes of a text, and the text; then the arguments in turn. The text is the
//! call's name and a word for each argument, with a zero byte at the end: `n` for a number (sent in eight bytes), `r4` for memory that is
//! only read, in elements of four bytes, `w4` for memory that may be written (each sent as its number of elements, then its bytes).
//! An answer: 1 if the call changed memory that it may not write, else 0; its value; then the bytes of each memory that it may write.
//! All numbers have eight bytes, and everything is little-endian, as both machines are.

use std::collections::BTreeMap;
use std::io::{Read, Write};
use std::process::{exit, Child, Command, Stdio};
use std::slice::{from_raw_parts, from_raw_parts_mut};
use std::sync::Mutex;

#[cfg(not(all(target_endian = "little", target_pointer_width = "64")))]
compile_error!("memory is sent as it lies: this needs a little-endian machine of 64 bits");

struct Other {
    child: Child,
    command: String,
    seen: BTreeMap<&'static str, Seen>,
}

/// What was asked of one call.
#[derive(Clone)]
pub struct Seen {
    /// A letter for each memory that it is lent: r or w.
    pub lent: Vec<char>,
    pub calls: u64,
    /// How often it changed what it may not write.
    pub changed: u64,
}

static OTHER: Mutex<Option<Other>> = Mutex::new(None);

/// Starts the program; the command is one for the shell.
pub fn start(command: &str) {
    let started = Command::new("sh").args(["-c", &format!("exec {command}")]).stdin(Stdio::piped()).stdout(Stdio::piped()).spawn();
    match started {
        Ok(child) => *OTHER.lock().unwrap() = Some(Other { child, command: command.into(), seen: BTreeMap::new() }),
        Err(e) => {
            eprintln!("diff: can't start {command}: {e}");
            exit(2)
        }
    }
}

/// What was asked so far, by name.
pub fn seen() -> BTreeMap<&'static str, Seen> {
    OTHER.lock().unwrap().as_ref().map(|o| o.seen.clone()).unwrap_or_default()
}

/// Has a program built for it make a mistake from now on, in one of every so many answers to a call.
pub fn plant(name: &'static str, fault: &str) {
    let mut q = Question::new(name);
    q.text = format!("plant {name} {fault}");
    q.calls = 0;
    q.answer();
}

pub struct Question {
    name: &'static str,
    text: String,
    body: Vec<u8>,
    /// A pointer whose length comes next.
    waiting: Option<Memory>,
    lent: Vec<char>,
    /// Memory that may be written, and its bytes.
    written: Vec<(*mut u8, usize)>,
    calls: u64,
}

struct Memory {
    at: *mut u8,
    size: usize,
    letter: char,
}

impl Question {
    pub fn new(name: &'static str) -> Self {
        Self { name, text: name.into(), body: Vec::new(), waiting: None, lent: Vec::new(), written: Vec::new(), calls: 1 }
    }

    fn number(&mut self, x: u64) {
        self.text += " n";
        self.body.extend(x.to_le_bytes());
    }

    fn memory(&mut self, m: Memory, count: usize) {
        self.text += &format!(" {}{}", m.letter, m.size);
        self.lent.push(m.letter);
        self.body.extend((count as u64).to_le_bytes());
        self.body.extend_from_slice(unsafe { from_raw_parts(m.at, count * m.size) });
        if m.letter == 'w' {
            self.written.push((m.at, count * m.size));
        }
    }

    /// Asks, and writes back what came.
    pub fn answer(mut self) -> u64 {
        let mut other = OTHER.lock().unwrap();
        let other = other.as_mut().expect("a program that answers");
        self.text.push('\0');
        let mut asked = Vec::with_capacity(16 + self.text.len() + self.body.len());
        asked.extend(((8 + self.text.len() + self.body.len()) as u64).to_le_bytes());
        asked.extend((self.text.len() as u64).to_le_bytes());
        asked.extend_from_slice(self.text.as_bytes());
        asked.append(&mut self.body);
        let mut told = [0; 16];
        let mut pass = || {
            other.child.stdin.as_mut().unwrap().write_all(&asked)?;
            let from = other.child.stdout.as_mut().unwrap();
            from.read_exact(&mut told)?;
            self.written.iter().try_for_each(|(at, bytes)| from.read_exact(unsafe { from_raw_parts_mut(*at, *bytes) }))
        };
        let passed = pass();
        let [changed, value] = [0, 8].map(|at| u64::from_le_bytes(told[at..at + 8].try_into().unwrap()));
        if passed.is_err() || changed > 1 {
            // A crash is the worst of differences; a program that never gave an answer is a wrong command.
            if passed.is_ok() {
                let _ = other.child.kill();
            }
            let status = other.child.wait().map(|s| s.to_string()).unwrap_or_default();
            eprintln!("diff: no answer to {} from {} ({status})", self.text.trim_end_matches('\0'), other.command);
            exit(if other.seen.is_empty() { 2 } else { 1 })
        }
        if self.calls > 0 {
            let seen = other.seen.entry(self.name).or_insert(Seen { lent: self.lent, calls: 0, changed: 0 });
            seen.calls += self.calls;
            seen.changed += changed;
        }
        value
    }
}

/// A call of one number for each of a row, in one question; the answers take the numbers' places.
pub fn each(name: &'static str, row: &mut [u32]) {
    let mut q = Question::new(name);
    q.text += " each";
    q.calls = row.len() as u64;
    row.as_mut_ptr().put(&mut q);
    row.len().put(&mut q);
    q.lent.clear();
    q.answer();
}

pub trait Argument {
    fn put(self, q: &mut Question);
}

impl<T> Argument for *const T {
    fn put(self, q: &mut Question) {
        q.waiting = Some(Memory { at: self as *mut u8, size: size_of::<T>(), letter: 'r' });
    }
}

impl<T> Argument for *mut T {
    fn put(self, q: &mut Question) {
        q.waiting = Some(Memory { at: self as *mut u8, size: size_of::<T>(), letter: 'w' });
    }
}

/// A length, behind a pointer.
impl Argument for usize {
    fn put(self, q: &mut Question) {
        match q.waiting.take() {
            Some(m) => q.memory(m, self),
            None => q.number(self as u64),
        }
    }
}

impl Argument for u32 {
    fn put(self, q: &mut Question) {
        q.number(self as u64);
    }
}

impl Argument for u16 {
    fn put(self, q: &mut Question) {
        q.number(self as u64);
    }
}
