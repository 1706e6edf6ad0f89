//! The cells as bytes, each number with its low byte first.

use crate::raw::Cells;

pub fn put_cells(cells: &Cells, bytes: &mut Vec<u8>) {
    put_large(&cells.registry, bytes);
    put_small(&cells.makers, bytes);
    put_small(cells.segments.as_flattened().as_flattened(), bytes);
    put_large(cells.locks.as_flattened().as_flattened(), bytes);
    put_small(cells.threads.as_flattened().as_flattened(), bytes);
}

/// Those of the bytes that [`put_cells`] puts.
pub fn get_cells(mut bytes: &[u8]) -> Box<Cells> {
    let mut cells = Box::new(Cells::EMPTY);
    let rest = &mut bytes;
    get_large(rest, &mut cells.registry);
    get_small(rest, &mut cells.makers);
    get_small(rest, cells.segments.as_flattened_mut().as_flattened_mut());
    get_large(rest, cells.locks.as_flattened_mut().as_flattened_mut());
    get_small(rest, cells.threads.as_flattened_mut().as_flattened_mut());
    cells
}

fn put_small(numbers: &[u16], bytes: &mut Vec<u8>) {
    bytes.extend(numbers.iter().flat_map(|number| number.to_le_bytes()));
}

fn put_large(numbers: &[u32], bytes: &mut Vec<u8>) {
    bytes.extend(numbers.iter().flat_map(|number| number.to_le_bytes()));
}

fn get_small(bytes: &mut &[u8], numbers: &mut [u16]) {
    for number in numbers {
        *number = u16::from_le_bytes(next(bytes));
    }
}

fn get_large(bytes: &mut &[u8], numbers: &mut [u32]) {
    for number in numbers {
        *number = u32::from_le_bytes(next(bytes));
    }
}

fn next<const N: usize>(bytes: &mut &[u8]) -> [u8; N] {
    let (next, rest) = bytes.split_first_chunk().expect("every cell has bytes");
    *bytes = rest;
    *next
}
