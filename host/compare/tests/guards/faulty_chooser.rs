//! The proved guard with a fault in its choice of the lock that answers. Which products
//! open it says itself, asked for each product alone; the fault is in what is made of
//! that, so it is all there is.

use compare::guard::{Cells, Guard, Own, coded, outcome};
use reference::call::Call;
use reference::guard::Answer;
use reference::journal::Record;
use reference::operations::EXECUTE;
use rotundaaloe::raw::{self, Locks};
use testing::choice::{Asked, Fault, Lock};
use testing::faults::Suspect;

/// What the proved guard knows of a segment's locks: a row for each product, with the
/// lock, the number of literals and the operations in one cell, then the literals.
type Table = <Locks as IntoIterator>::Item;
type Row = [u32; 8];

const ACCEPTED: u32 = 0;
const FULL: u32 = 10;
const DENIED: u32 = 14;
const NOT_GRANTED: u32 = 15;

/// A lock's number and operations.
fn head(row: &Row) -> (u16, u16) {
    ((row[0] / 65_536) as u16, (row[0] % 16) as u16)
}

fn literals(row: &Row) -> &[u32] {
    let count = row[0] / 16 % 8;
    &row[1..=count as usize]
}

/// Of S and D keys the upper half is barred, of U and R keys the odd rows of 65,536.
fn is_barred(literal: &u32) -> bool {
    match literal {
        0..65_536 => *literal >= 32_768,
        _ => literal / 65_536 % 2 == 1,
    }
}

pub struct Faulty {
    cells: Box<Cells>,
    /// None for the right choice.
    fault: Option<Fault>,
}

impl Suspect for Faulty {
    type Fault = Fault;

    fn new(fault: Option<Fault>) -> Faulty {
        let cells = Box::new(Guard::new().cells().clone());
        Faulty { cells, fault }
    }

    fn agrees(&mut self, record: &Record, right: Answer) -> bool {
        self.call(record) == coded(right)
    }
}

impl Faulty {
    fn call(&mut self, record: &Record) -> u32 {
        let Record {
            letter, a, b, c, ..
        } = *record;
        // A call adds to what is held, so it is asked before.
        let asked = Call::of(record).and_then(|call| self.asked(call));
        let answer = raw::call(&mut self.cells, letter, a, b, c, &record.text);
        match (outcome(answer), asked) {
            (ACCEPTED | FULL | DENIED | NOT_GRANTED, Some(asked)) => {
                coded(asked.answer(self.fault))
            }
            _ => answer,
        }
    }

    /// What a C or an A asks for. None for other calls, and where there can't be such a
    /// segment.
    fn asked(&mut self, call: Call) -> Option<Asked> {
        let (segment, operation) = match call {
            Call::CallSegment { segment, .. } => (segment, EXECUTE),
            Call::Access {
                segment, operation, ..
            } => (segment, operation),
            _ => return None,
        };
        let (own, segment) = (Own::of(call)?, usize::from(segment));
        let table = *self.cells.locks.get(segment)?;
        let rows = table.iter().take_while(|row| row[0] != 0);
        let asked: Vec<(&Row, u32)> = rows
            .map(|row| (row, self.outcome_by(row, own, segment, operation)))
            .collect();
        self.cells.locks[segment] = table;
        let locks = asked.chunk_by(|(row, _), (next, _)| head(row) == head(next));
        let locks = locks.map(|products| {
            let (number, operations) = head(products[0].0);
            let opens = |outcome: u32| [ACCEPTED, FULL].contains(&outcome);
            let products = products.iter();
            let products = products.map(|(row, outcome)| (opens(*outcome), literals(row)));
            let products: Vec<(bool, &[u32])> = products.collect();
            Lock::new(number, operations, &products, is_barred)
        });
        Some(Asked {
            operation,
            is_full: asked.iter().any(|(_, outcome)| *outcome == FULL),
            locks: locks.collect(),
        })
    }

    /// The outcome where the segment has this product alone, to grant the operation.
    fn outcome_by(&mut self, row: &Row, own: Own, segment: usize, operation: u16) -> u32 {
        let mut alone = Table::default();
        alone[0] = *row;
        alone[0][0] = row[0] / 16 * 16 + u32::from(operation % 8);
        self.cells.locks[segment] = alone;
        match own {
            Own::CallSegment { thread, segment } => {
                let outcome = outcome(raw::call_segment(&mut self.cells, thread, segment));
                if outcome == ACCEPTED {
                    raw::return_call(&mut self.cells, thread);
                }
                outcome
            }
            Own::Access {
                thread,
                segment,
                operation,
            } => outcome(raw::access(&self.cells, thread, segment, operation)),
            Own::ReturnCall { .. } => unreachable!("it asks for no operation"),
        }
    }
}
