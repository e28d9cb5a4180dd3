//! How deep settle_call writes below its caller's stack pointer, over tapes.

use super::library::Ours;
use crate::node::{Node, RECORD};
use crate::write;

const WORDS: usize = 32 * 1024;
const PAINT: u64 = 0x5e77_1e5e_1e77_5ea1;

/// A painted stack.
struct Stack(Vec<u64>);

impl Stack {
    fn new() -> Stack {
        Stack(vec![PAINT; WORDS + 2])
    }

    /// Its end, on a multiple of 16.
    fn top(&mut self) -> *mut u64 {
        let end = self.0.as_mut_ptr_range().end;
        end.wrapping_sub(end as usize / 8 % 2)
    }

    /// The bytes from the top down to the last one written, painted again.
    fn depth(&mut self) -> usize {
        let untouched = self.0.iter().take_while(|w| **w == PAINT).count();
        assert!(untouched > 0, "the stack was too small");
        let depth = self.top() as usize - self.0[untouched..].as_ptr() as usize;
        self.0[untouched..].fill(PAINT);
        depth
    }
}

/// Over a set of tapes.
#[derive(Default)]
pub struct Depths {
    pub records: usize,
    /// By the record's kind byte, 0 for refused ones.
    pub deepest: [usize; 18],
}

/// Every record of every tape, with the outputs compared.
pub fn of(tapes: &[&[u8]]) -> Depths {
    let mut stack = Stack::new();
    let mut depths = Depths::default();
    for tape in tapes {
        let mut records = records(tape).into_iter();
        let Some(new) = records.next() else { continue };
        let (ours, node) = (Ours::new(new), Node::new(&new[2..]));
        assert_eq!(ours.as_ref().err(), node.as_ref().err(), "the sides differ at new");
        let (Ok(mut ours), Ok(mut node)) = (ours, node) else { continue };
        for record in records {
            let number = step(&mut ours, &mut node, &mut stack, record);
            let kind = if number == 0 { record[3] } else { 0 };
            let most = &mut depths.deepest[usize::from(kind)];
            *most = stack.depth().max(*most);
            depths.records += 1;
        }
    }
    depths
}

fn step(ours: &mut Ours, node: &mut Node, stack: &mut Stack, record: &[u8]) -> u8 {
    let a = ours.call_on(stack.top(), record);
    let (mut told, mut number) = (Vec::new(), 0);
    match node.call(&record[2..]) {
        Ok(outputs) => outputs.iter().for_each(|o| write::output(o, node.first, &mut told)),
        Err(n) => number = n,
    }
    assert!(a.number == number && ours.told(a.len) == told, "the sides differ on a tape at {record:02x?}");
    number
}

/// The whole records of a tape, each with its length.
fn records(mut tape: &[u8]) -> Vec<&[u8]> {
    let mut all = Vec::new();
    while let [a, b, ..] = tape
        && let Some((record, rest)) = tape.split_at_checked(2 + usize::from(u16::from_be_bytes([*a, *b])))
    {
        all.push(record);
        tape = rest;
    }
    all
}
