//! Reading and writing plan files. wgpu-core has no such calls: beside the port's stand plain ones over vectors, with the checks that a plan
//! asks for and no others.
use crate::cases::{Case, Tested};
use crate::port;
use std::hint::black_box;

const DEEPEST: usize = 8;
const HEAD: usize = 3;
const USE: usize = 15;

#[derive(Clone, Copy, PartialEq)]
enum Item {
    Opened,
    Use([u8; USE]),
    Closed,
}

/// A refusal's number.
type Refused = u32;

/// Reads the fields of a file, or of a group that stands in so many.
fn read(mut bytes: &[u8], deep: usize, items: &mut Vec<Item>) -> Result<(), Refused> {
    while !bytes.is_empty() {
        let &[tag, low, high, ref rest @ ..] = bytes else {
            return Err(20);
        };
        let size = usize::from(u16::from_le_bytes([low, high]));
        if size > rest.len() {
            return Err(20);
        }
        let (content, after) = rest.split_at(size);
        match tag {
            1 if deep == DEEPEST => return Err(23),
            1 => {
                items.push(Item::Opened);
                read(content, deep + 1, items)?;
                items.push(Item::Closed);
            }
            2 => items.push(Item::Use(content.try_into().map_err(|_| 22u32)?)),
            _ => return Err(21),
        }
        bytes = after;
    }
    Ok(())
}

/// Writes a file: a group's length when it is closed. What is wrong is told in its order, once all of the list is seen.
fn write(items: &[Item], file: &mut Vec<u8>) -> Result<(), Refused> {
    let mut open = vec![];
    let (mut deep, mut long) = (false, false);
    for item in items {
        match item {
            Item::Opened => {
                open.push(file.len() + HEAD);
                deep |= open.len() > DEEPEST;
                file.extend([1, 0, 0]);
            }
            Item::Use(bytes) => {
                file.extend([2, USE as u8, 0]);
                file.extend(bytes);
            }
            Item::Closed => {
                let start = open.pop().ok_or(24u32)?;
                let size = file.len() - start;
                long |= size > usize::from(u16::MAX);
                file[start - 2..start].copy_from_slice(&(size as u16).to_le_bytes());
            }
        }
    }
    match (open.is_empty(), deep, long) {
        (false, ..) => Err(24),
        (_, true, _) => Err(23),
        (.., true) => Err(25),
        _ => Ok(()),
    }
}

/// So many items: uses alone, or by tens, in each four groups one in another, and two uses in the innermost.
fn items(pattern: &str, count: u32) -> Vec<Item> {
    let item = |k: u32| match (pattern, k % 10) {
        ("nested", 0..=3) => Item::Opened,
        ("nested", 6..=9) => Item::Closed,
        ("nested" | "flat", _) => {
            Item::Use(std::array::from_fn(|byte| (k as usize * 31 + byte) as u8))
        }
        _ => panic!("no such pattern: {pattern}"),
    };
    (0..count).map(item).collect()
}

/// Items as the port has them, 16 bytes each.
fn flattened(items: &[Item]) -> Vec<u8> {
    let one = |item: &Item| {
        let (kind, bytes) = match item {
            Item::Opened => (1, [0; USE]),
            Item::Use(bytes) => (2, *bytes),
            Item::Closed => (3, [0; USE]),
        };
        std::iter::once(kind).chain(bytes)
    };
    items.iter().flat_map(one).collect()
}

/// The same plan on both sides, as a file and as items, and room for what is read or written.
struct Plan {
    file: Vec<u8>,
    items: Vec<Item>,
    port_items: Vec<u8>,
    rust_read: Vec<Item>,
    port_read: Vec<u8>,
    rust_written: Vec<u8>,
    port_written: Vec<u8>,
}

impl Plan {
    fn new(pattern: &str, count: u32) -> Self {
        let items = items(pattern, count);
        let port_items = flattened(&items);
        let mut file = vec![];
        assert_eq!(write(&items, &mut file), Ok(()));
        Self {
            rust_read: Vec::with_capacity(items.len()),
            port_read: vec![0; port_items.len()],
            rust_written: Vec::with_capacity(file.len()),
            port_written: vec![0; file.len()],
            file,
            items,
            port_items,
        }
    }

    fn rust_reads(&mut self) {
        self.rust_read.clear();
        assert_eq!(read(black_box(&self.file), 0, &mut self.rust_read), Ok(()));
        black_box(&self.rust_read);
    }

    fn rust_writes(&mut self) {
        self.rust_written.clear();
        assert_eq!(
            write(black_box(&self.items), &mut self.rust_written),
            Ok(())
        );
        black_box(&self.rust_written);
    }

    fn port_reads(&mut self) {
        let answer = port::read_plan(black_box(&self.file), &mut self.port_read);
        assert!(answer.answer.kind == 0 && answer.count == self.items.len());
    }

    fn port_writes(&mut self) {
        let answer = port::write_plan(black_box(&self.port_items), &mut self.port_written);
        assert!(answer.answer.kind == 0 && answer.count == self.file.len());
    }

    /// Both come to the same, before anything is measured.
    fn compare(&mut self) {
        self.rust_reads();
        self.rust_writes();
        self.port_reads();
        self.port_writes();
        assert!(self.rust_read == self.items && self.port_read == self.port_items);
        assert!(self.rust_written == self.file && self.port_written == self.file);
    }
}

/// Reading or writing a plan, over and over.
pub struct PlanCall {
    plan: Plan,
    writing: bool,
}

impl PlanCall {
    pub fn new(call: &str, items: u32, pattern: &str) -> Self {
        let mut plan = Plan::new(pattern, items);
        plan.compare();
        let writing = match call {
            "read_plan" => false,
            "write_plan" => true,
            _ => panic!("no such call: {call}"),
        };
        Self { plan, writing }
    }

    /// Bytes of the file.
    pub fn bytes(&self) -> usize {
        self.plan.file.len()
    }
}

impl Case for PlanCall {
    fn rust(&mut self, laps: u32) {
        let part = if self.writing {
            Plan::rust_writes
        } else {
            Plan::rust_reads
        };
        (0..laps).for_each(|_| part(&mut self.plan));
    }

    fn port(&mut self, laps: u32) {
        let part = if self.writing {
            Plan::port_writes
        } else {
            Plan::port_reads
        };
        (0..laps).for_each(|_| part(&mut self.plan));
    }
}

impl Tested for PlanCall {
    fn calls(&self) -> u32 {
        1
    }

    /// The calls are handed no set.
    fn test(&self, _: u32) {}
}
