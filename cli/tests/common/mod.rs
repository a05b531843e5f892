//! What the tests share: the tool as a process, and routines drawn at random.
#![allow(dead_code)]

use std::io::Write;
use std::path::{Path, PathBuf};
use std::process::{Command, Output, Stdio};
use tool::automaton::{Automaton, Tables};
use tool::record::{Shape, NODES, NULL, POINTERS, SIZE};

pub const EXAMPLES: [&str; 13] = [
    "reverse",
    "insert",
    "remove",
    "unlink",
    "clear",
    "clear-drop",
    "drop",
    "ring",
    "two-lists",
    "leak",
    "unlink-leak",
    "freed",
    "compared",
];

pub fn root() -> PathBuf {
    Path::new(env!("CARGO_MANIFEST_DIR")).parent().unwrap().to_path_buf()
}

pub fn example(name: &str) -> String {
    std::fs::read_to_string(root().join(format!("examples/{name}.txt"))).unwrap()
}

/// A folder of this test's own, empty at first.
pub fn folder(name: &str) -> PathBuf {
    let folder = Path::new(env!("CARGO_TARGET_TMPDIR")).join(name);
    let _ = std::fs::remove_dir_all(&folder);
    std::fs::create_dir_all(&folder).unwrap();
    folder
}

pub fn command() -> Command {
    let mut command = Command::new(env!("CARGO_BIN_EXE_currantplane"));
    command.current_dir(root());
    command
}

/// What the tool does with these words and this standard input.
pub fn tool(words: &[&str], input: &[u8]) -> Output {
    let mut child = command().args(words).stdin(Stdio::piped()).stdout(Stdio::piped()).stderr(Stdio::piped()).spawn().unwrap();
    // a tool that does not read its input closes the pipe
    let _ = child.stdin.take().unwrap().write_all(input);
    child.wait_with_output().unwrap()
}

/// What the tool prints for these words and this standard input, where it must succeed and say nothing else: two tools that fail and
/// print nothing are not to pass for equal.
pub fn printed(words: &[&str], input: &[u8]) -> Vec<u8> {
    let done = tool(words, input);
    assert_eq!((done.status.code(), text(&done.stderr)), (Some(0), String::new()), "{words:?}");
    assert!(!done.stdout.is_empty(), "{words:?} prints nothing");
    done.stdout
}

pub fn text(bytes: &[u8]) -> String {
    String::from_utf8(bytes.to_vec()).unwrap()
}

/// A stop and starting shapes in records, from what pointers hold and what follows each node; all other pointers are null.
pub fn records(shapes: &[(&[u8], &[u8])]) -> Vec<u8> {
    let mut out = [vec![b'S'], vec![0; SIZE - 1]].concat();
    for (held, next) in shapes {
        let mut shape = Shape { count: next.len(), pointers: [NULL; POINTERS], successors: [0; NODES] };
        shape.pointers[..held.len()].copy_from_slice(held);
        shape.successors[..next.len()].copy_from_slice(next);
        out.extend(shape.write());
    }
    out
}

/// The automaton of changed tables.
pub fn changed(whole: &Automaton, change: &dyn Fn(&mut Tables)) -> Automaton {
    let mut tables = whole.tables.clone();
    change(&mut tables);
    Automaton::read(tables)
}

/// The bytes of a location and of an edge where they stand.
pub fn location(tables: &mut Tables, number: usize) -> &mut [u8] {
    &mut tables.locations[SIZE * number..][..SIZE]
}

pub fn edge(tables: &mut Tables, number: usize) -> &mut [u8] {
    &mut tables.edges[SIZE * number..][..SIZE]
}

/// xorshift64*: small, fast, and the same everywhere.
pub struct Draw(u64);

impl Draw {
    pub fn new(seed: u64) -> Draw {
        Draw(seed.wrapping_mul(0x9e37_79b9_7f4a_7c15) | 1)
    }

    pub fn below(&mut self, n: usize) -> usize {
        self.0 ^= self.0 >> 12;
        self.0 ^= self.0 << 25;
        self.0 ^= self.0 >> 27;
        ((self.0.wrapping_mul(0x2545_f491_4f6c_dd1d) >> 16) % n.max(1) as u64) as usize
    }

    pub fn one_in(&mut self, n: usize) -> bool {
        self.below(n) == 0
    }

    /// A cell below n, null or undefined.
    fn value(&mut self, n: usize) -> u8 {
        match self.below(8) {
            0 => 0xfe,
            1 => 0xff,
            _ if n == 0 => 0xfe,
            _ => self.below(n) as u8,
        }
    }

    /// The pointers and cells of a heap with fewer than so many cells, each in use reachable.
    pub fn image(&mut self, most: usize) -> (Vec<u8>, Vec<u8>) {
        let n = self.below(most);
        let mut cells: Vec<u8> = (0..n).map(|i| if i + 1 < n && !self.one_in(3) { i as u8 + 1 } else { self.value(n) }).collect();
        let pointers: Vec<u8> = (0..6).map(|_| self.value(n)).collect();
        let mut seen = vec![false; n];
        for &p in &pointers {
            let mut at = p as usize;
            while at < n && !seen[at] {
                seen[at] = true;
                at = cells[at] as usize;
            }
        }
        (0..n).filter(|&c| !seen[c]).for_each(|c| cells[c] = 0xfd);
        (pointers, cells)
    }

    /// The shape of a random heap, folded by the proved library; none where it has too many nodes.
    fn shape(&mut self) -> Option<[u8; 32]> {
        let (pointers, cells) = self.image(16);
        let (refusal, record, _) = currantplane::fold(&pointers, &cells);
        (refusal.number == 0).then_some(record)
    }

    /// The records of a routine that the checks of the input pass, with at most so many statements.
    pub fn routine(&mut self, most: usize) -> Vec<u8> {
        let n = 1 + self.below(most);
        let pointers = 1 + self.below(6);
        let mut out: Vec<u8> = (0..n).flat_map(|s| self.statement(s, n, pointers)).collect();
        let mut shapes: Vec<[u8; 32]> = Vec::new();
        let wanted = if self.one_in(8) { 16 } else { 1 + self.below(2) };
        while shapes.len() < wanted {
            shapes.extend(self.shape().filter(|s| !shapes.contains(s)));
        }
        out.extend(shapes.concat());
        out
    }

    fn statement(&mut self, s: usize, n: usize, pointers: usize) -> [u8; 32] {
        let op = [1, 2, 2, 3, 3, 3, 4, 5, 5, 6, 6, 7, 8, 9, 9, 10, 10, 11, 12, 12, 13, 13, 0][self.below(23)];
        // a long routine would seldom get far past many stops
        let op = if op == 0 && n > 20 && !self.one_in(4) { 10 } else { op };
        let target = |d: &mut Draw| if d.one_in(3) { d.below(n) as u8 } else { ((s + 1) % n) as u8 };
        let mut record = [0; 32];
        record[0] = b'S';
        record[1] = op;
        if matches!(op, 1..=9 | 12 | 13) {
            record[2] = self.below(pointers) as u8;
        }
        if matches!(op, 2 | 3 | 5 | 9 | 12) {
            record[3] = self.below(pointers) as u8;
        }
        if op != 0 {
            record[4] = target(self);
        }
        if (8..=10).contains(&op) {
            record[5] = target(self);
        }
        record
    }
}
