// The same work as the program `measure`, in plain Rust: a table of rows searched one after another, the same rows found by cells, and the standard library's binary heap.
use std::cmp::Reverse;
use std::collections::BinaryHeap;
use std::hint::black_box;
use std::time::Instant;

const PLACES: usize = 1024;

#[derive(Clone)]
struct Row {
    name: [u8; 128],
    len: u8,
    used: bool,
}

fn name_of(number: usize) -> [u8; 8] {
    let mut name = *b"record..";
    name[6] = (number / 128 % 128) as u8 + 128;
    name[7] = (number % 128) as u8 + 128;
    name
}

fn find_table(rows: &[Row], name: &[u8]) -> Option<usize> {
    rows.iter().position(|r| r.used && &r.name[..r.len as usize] == name)
}

fn next(x: u32) -> u32 {
    x.wrapping_mul(1664525).wrapping_add(1013904223)
}

fn report(what: &str, sum: u64, start: Instant) {
    let nanos = start.elapsed().as_nanos();
    println!("{what} {sum}");
    eprintln!("{what} {nanos} ns");
}

fn filled() -> Vec<Row> {
    let mut rows = vec![Row { name: [0; 128], len: 0, used: false }; PLACES];
    for (number, row) in rows.iter_mut().enumerate() {
        row.name[..8].copy_from_slice(&name_of(number));
        row.len = 8;
        row.used = true;
    }
    rows
}

fn table(rounds: u32) {
    let rows = filled();
    let start = Instant::now();
    let mut sum = 0u64;
    for _ in 0..rounds {
        for number in 0..2 * PLACES {
            if let Some(place) = find_table(black_box(&rows), &name_of(number)) {
                sum = sum.wrapping_add(place as u64);
            }
        }
    }
    report("table find", sum, start);
}

// The search rule of the hashed index, written plainly.
fn fnv(name: &[u8]) -> u64 {
    name.iter().fold(0xcbf29ce484222325, |h, x| (h ^ *x as u64).wrapping_mul(0x100000001b3))
}

fn find_index(rows: &[Row], cells: &[Option<u16>], name: &[u8]) -> Option<usize> {
    let start = (fnv(name) >> 32) as usize;
    for j in 0..cells.len() {
        let place = cells[(start + j) % cells.len()]? as usize;
        if rows[place].used && &rows[place].name[..rows[place].len as usize] == name {
            return Some(place);
        }
    }
    None
}

fn index(rounds: u32) {
    let rows = filled();
    let mut cells = vec![None; 2048];
    for number in 0..PLACES {
        let mut at = (fnv(&name_of(number)) >> 32) as usize % 2048;
        while cells[at].is_some() {
            at = (at + 1) % 2048;
        }
        cells[at] = Some(number as u16);
    }
    let start = Instant::now();
    let mut sum = 0u64;
    for _ in 0..rounds {
        for number in 0..2 * PLACES {
            if let Some(place) = find_index(black_box(&rows), &cells, &name_of(number)) {
                sum = sum.wrapping_add(place as u64);
            }
        }
    }
    report("index find", sum, start);
}

fn drain(rounds: u32) {
    let start = Instant::now();
    let mut queue = BinaryHeap::with_capacity(PLACES);
    let (mut sum, mut x) = (0u64, 1u32);
    for _ in 0..rounds {
        for place in 0..PLACES {
            x = next(x);
            queue.push(Reverse((x, place)));
        }
        for turn in 0..PLACES {
            if let Some(Reverse((_, place))) = queue.pop() {
                sum = sum.wrapping_add((place as u64).wrapping_mul(turn as u64));
            }
        }
    }
    report("heap insert and take", sum, start);
}

// The standard heap cannot change an entry: it is made anew from its entries.
fn rerank(rounds: u32) {
    let start = Instant::now();
    let mut queue = BinaryHeap::with_capacity(PLACES);
    let (mut sum, mut x) = (0u64, 1u32);
    for place in 0..PLACES {
        x = next(x);
        queue.push(Reverse((x, place)));
    }
    for _ in 0..rounds {
        for _ in 0..PLACES {
            x = next(x);
            let place = (x / 65536) as usize % PLACES;
            let mut entries = queue.into_vec();
            for Reverse(entry) in entries.iter_mut() {
                if entry.1 == place {
                    entry.0 = x;
                    break;
                }
            }
            queue = BinaryHeap::from(entries);
            if let Some(Reverse((_, least))) = queue.peek() {
                sum = sum.wrapping_add(*least as u64);
            }
        }
    }
    report("heap rerank", sum, start);
}

fn main() {
    let rounds = std::env::args().nth(1).map_or(1, |a| a.parse().unwrap());
    table(rounds);
    index(rounds);
    drain(rounds);
    rerank(rounds);
}
