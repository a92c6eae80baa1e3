//! The workloads of the arena and of the rows of exponents in plain Rust: a vector with reserved room, and plain loops.
//!
//! usage: plain WORKLOAD SIZE REPETITIONS, where WORKLOAD is `cells`, `add`, `divide`, `compare` or `degree`.

use std::cmp::Ordering;

// ---- rows of exponents

/// Writes the sums, where none passes 65,535; else answers false and writes nothing.
fn rows_add(a: &[u16], b: &[u16], into: &mut [u16]) -> bool {
    let mut passes = false;
    for (&x, &y) in a.iter().zip(b) {
        passes |= x.overflowing_add(y).1;
    }
    if passes {
        return false;
    }
    for ((place, &x), &y) in into.iter_mut().zip(a).zip(b) {
        *place = x.wrapping_add(y);
    }
    true
}

/// Writes the differences, where no entry of `a` is below that of `b`; else answers false and writes nothing.
fn rows_divide(a: &[u16], b: &[u16], into: &mut [u16]) -> bool {
    let mut falls = false;
    for (&x, &y) in a.iter().zip(b) {
        falls |= x < y;
    }
    if falls {
        return false;
    }
    for ((place, &x), &y) in into.iter_mut().zip(a).zip(b) {
        *place = x.wrapping_sub(y);
    }
    true
}

/// Compares by the first entry that differs.
fn rows_compare(a: &[u16], b: &[u16]) -> Ordering {
    for (x, y) in a.iter().zip(b) {
        if x != y {
            return x.cmp(y);
        }
    }
    Ordering::Equal
}

/// The sum of the entries.
fn row_degree(a: &[u16]) -> u32 {
    a.iter().map(|&x| u32::from(x)).sum()
}

// ---- the workloads

/// The number of rows in a table.
const ROWS: usize = 64;

/// How far apart the rows of a table begin.
const ROOM: usize = 64;

/// A row of a table.
fn row(table: &[u16], number: usize, size: usize) -> &[u16] {
    &table[number * ROOM..number * ROOM + size]
}

/// Rows of so many entries, to each of which a number is added.
fn table(size: usize, more: u16) -> Vec<u16> {
    let mut entries = Vec::with_capacity(ROWS * ROOM);
    for place in 0..ROWS * ROOM {
        let two = place % ROOM == place / ROOM * 7 % size;
        entries.push(if two { 2 + more } else { 1 + more });
    }
    entries
}

/// Adds each row of the one table to a row of the other, and counts the sums.
#[inline(never)]
fn add_all(left: &[u16], right: &[u16], into: &mut [u16], size: usize, shift: usize) -> u64 {
    let mut sums = 0;
    for k in 0..ROWS {
        let b = row(right, (k + shift) % ROWS, size);
        let to = &mut into[k * ROOM..k * ROOM + size];
        if rows_add(row(left, k, size), b, to) {
            sums += 1;
        }
    }
    sums
}

/// Divides each row of the one table by a row of the other, and counts the quotients.
#[inline(never)]
fn divide_all(left: &[u16], right: &[u16], into: &mut [u16], size: usize, shift: usize) -> u64 {
    let mut quotients = 0;
    for k in 0..ROWS {
        let b = row(right, (k + shift) % ROWS, size);
        let to = &mut into[k * ROOM..k * ROOM + size];
        if rows_divide(row(left, k, size), b, to) {
            quotients += 1;
        }
    }
    quotients
}

/// Compares each row of a table with another of its rows.
#[inline(never)]
fn compare_all(rows: &[u16], size: usize, shift: usize) -> u64 {
    let mut sum = 0;
    for k in 0..ROWS {
        let b = row(rows, (k + shift) % ROWS, size);
        sum += match rows_compare(row(rows, k, size), b) {
            Ordering::Less => 0,
            Ordering::Equal => 1,
            Ordering::Greater => 2,
        };
    }
    sum
}

/// Adds up the degrees of all rows of a table.
#[inline(never)]
fn degree_all(rows: &[u16], size: usize, shift: usize) -> u64 {
    let mut sum = 0;
    for k in 0..ROWS {
        sum += u64::from(row_degree(row(rows, (k + shift) % ROWS, size)));
    }
    sum
}

fn mixed(sum: u64, value: u64) -> u64 {
    sum.wrapping_mul(1_000_003).wrapping_add(value)
}

/// Makes a row call for each row of the tables, so many times, and answers a checksum.
fn rows(workload: &str, size: usize, count: u64) -> u64 {
    let left = table(size, 5);
    let right = table(size, 1);
    let mut into = table(size, 0);
    let mut sum = 0;
    for repetition in 0..count {
        let shift = repetition as usize % ROWS;
        let told = match workload {
            "add" => add_all(&left, &right, &mut into, size, shift),
            "divide" => divide_all(&left, &right, &mut into, size, shift),
            "compare" => compare_all(&left, size, shift),
            "degree" => degree_all(&left, size, shift),
            _ => panic!("no workload has this name"),
        };
        sum = mixed(sum, told);
    }
    for &value in &into {
        sum = mixed(sum, u64::from(value));
    }
    sum
}

/// Writes so many cells and adds them up, so many times, and answers a checksum.
fn cells(size: usize, count: u64) -> u64 {
    let mut cells: Vec<u64> = Vec::with_capacity(size);
    let mut sum = 0;
    for repetition in 0..count {
        sum = mixed(sum, written_total(&mut cells, size, repetition));
    }
    sum
}

/// Writes so many cells, adds them up, and gives them up again.
#[inline(never)]
fn written_total(cells: &mut Vec<u64>, size: usize, repetition: u64) -> u64 {
    for number in 0..size {
        cells.push(number as u64 ^ repetition);
    }
    let mut total: u64 = 0;
    for &cell in cells.iter() {
        total = total.wrapping_add(cell);
    }
    cells.clear();
    total
}

fn main() {
    let words: Vec<String> = std::env::args().skip(1).collect();
    let [workload, size, count] = words.as_slice() else {
        panic!("usage: plain WORKLOAD SIZE REPETITIONS");
    };
    let size: usize = size.parse().expect("a number of cells or entries");
    let count = count.parse().expect("a number of repetitions");
    let sum = match workload.as_str() {
        "cells" => cells(size, count),
        _ => rows(workload, size, count),
    };
    println!("{sum}");
}
