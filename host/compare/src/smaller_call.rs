//! Smaller calls that still differ.

use crate::call::{Call, Memory, Outcome, SIDE};
use crate::settings;
use crate::shrink::{Cases, shrink, smaller_bytes};
use entries::Layout;
use std::ops::Range;

/// The largest grid that is made smaller. The Rust's steps take a time that grows by the square of it.
const LARGEST: usize = 10_000;

/// Describes the smallest call found that differs, what was expected of it and what came. `expected` and `library` are
/// of the call itself.
pub fn difference(call: &Call, expected: &Outcome, library: &Outcome, memory: &mut Memory) -> String {
    if call.rule().is_ok() && call.macroblocks() > LARGEST {
        return format!("\n{call}\n{}", expected.against(library, call));
    }
    if !call.differs(memory) {
        return format!("\n{call}\n{}\n  (but not when called again)", expected.against(library, call));
    }
    let call = shrink(call.clone(), simpler, |call| call.differs(memory));
    format!("\n{call}\n{}", call.expected().against(&call.library(memory), &call))
}

pub fn simpler(call: &Call) -> Cases<'_, Call> {
    let config = settings::simpler(&call.config).into_iter().map(|config| Call { config, ..call.clone() });
    let accepted = call.rule().is_ok() && call.layout.columns > 0 && call.layout.rows > 0;
    let grids: Cases<Call> = if accepted { grids(call) } else { Box::new(std::iter::empty()) };
    Box::new(grids.chain(starts(call)).chain(config).chain(lists(call)).chain(samples(call)))
}

/// Parts of the grid, and the whole grid without samples outside it.
fn grids(call: &Call) -> Cases<'_, Call> {
    let Layout { columns, rows, .. } = call.layout;
    let parts = move |n: usize| [0..n / 2, n / 2..n, 0..n - 1, 1..n].into_iter().filter(|part| !part.is_empty());
    let of_columns = parts(columns).map(move |part| (part, 0..rows));
    let of_rows = parts(rows).map(move |part| (0..columns, part));
    let whole =
        (call.planes.iter().map(Vec::len).sum::<usize>() > columns * rows * 384).then_some((0..columns, 0..rows));
    let smaller = of_columns.chain(of_rows).filter(move |(c, r)| c.len() * r.len() < columns * rows).chain(whole);
    Box::new(smaller.flat_map(|(columns, rows)| {
        let part = part(call, columns, rows);
        let n = part.macroblocks();
        let (start, allowance) = (call.start.min(n), call.allowance.min(n + 1));
        let calls = [(start, call.allowance), (start, allowance), (0, allowance), (0, 1), (n - 1, 1), (0, n), (n, 0)];
        calls.map(|(start, allowance)| Call { start, allowance, ..part.clone() })
    }))
}

/// The call on a part of its grid, without samples outside it.
fn part(call: &Call, columns: Range<usize>, rows: Range<usize>) -> Call {
    let layout =
        Layout { columns: columns.len(), rows: rows.len(), y_stride: 16 * columns.len(), uv_stride: 8 * columns.len() };
    let plane = |plane: usize| -> Vec<u8> {
        let row = |row: usize| &call.planes[plane][row * call.stride(plane)..];
        let samples = |part: &Range<usize>| SIDE[plane] * part.start..SIDE[plane] * part.end;
        samples(&rows).flat_map(|r| row(r)[samples(&columns)].iter().copied()).collect()
    };
    let list = |list: &Vec<u8>| -> Vec<u8> {
        let row = |row: usize| list.iter().copied().skip(row * call.layout.columns);
        rows.clone().flat_map(|r| row(r).skip(columns.start).take(columns.len())).collect()
    };
    Call { layout, planes: std::array::from_fn(plane), lists: call.lists.each_ref().map(list), ..call.clone() }
}

fn smaller_numbers(n: usize) -> impl Iterator<Item = usize> {
    [0, n / 2, n.wrapping_sub(1)].into_iter().filter(move |smaller| *smaller < n)
}

fn starts(call: &Call) -> impl Iterator<Item = Call> {
    let starts = smaller_numbers(call.start).map(|start| Call { start, ..call.clone() });
    let allowances = smaller_numbers(call.allowance).map(|allowance| Call { allowance, ..call.clone() });
    starts.chain(allowances)
}

/// A whole list of 0, or one smaller entry.
fn lists(call: &Call) -> impl Iterator<Item = Call> {
    let with = |list: usize, entries: Vec<u8>| {
        let mut smaller = call.clone();
        smaller.lists[list] = entries;
        smaller
    };
    (0..5).flat_map(move |list| {
        let entries = &call.lists[list];
        let zeros = entries.iter().any(|entry| *entry > 0).then(|| with(list, vec![0; entries.len()]));
        let one = (0..entries.len()).flat_map(move |place| {
            smaller_bytes(entries[place]).map(move |smaller| {
                let mut entries = entries.clone();
                entries[place] = smaller;
                with(list, entries)
            })
        });
        zeros.into_iter().chain(one)
    })
}

/// A shorter plane, a plane with all samples lowered, one of whose bands of rows or columns is at its smallest sample,
/// or, when few samples are not, one smaller sample.
fn samples(call: &Call) -> impl Iterator<Item = Call> {
    let with = |plane: usize, samples: Vec<u8>| {
        let mut smaller = call.clone();
        smaller.planes[plane] = samples;
        smaller
    };
    (0..3).flat_map(move |plane| {
        let samples = &call.planes[plane];
        let stride = call.stride(plane).clamp(1, samples.len().max(1));
        let smallest = samples.iter().copied().min().unwrap_or(0);
        let least = if call.rule().is_ok() && call.macroblocks() > 0 { call.layout.least_length(plane) } else { 0 };
        let shorter = (samples.len() > least).then(|| with(plane, samples[..least].to_vec()));
        let lower = smaller_bytes(smallest)
            .map(move |lowest| with(plane, samples.iter().map(|sample| sample - smallest + lowest).collect()));
        let height = samples.len().div_ceil(stride);
        let rows = bands(height).map(move |band| (band, 0..stride));
        let columns = bands(stride).map(move |band| (0..height, band));
        let flat = rows.chain(columns).filter_map(move |(rows, columns)| {
            let mut flat = samples.clone();
            let inside = |i: &usize| rows.contains(&(i / stride)) && columns.contains(&(i % stride));
            (0..flat.len()).filter(inside).for_each(|i| flat[i] = smallest);
            (flat != *samples).then(|| with(plane, flat))
        });
        let others = || (0..samples.len()).filter(move |i| samples[*i] > smallest);
        let few = others().count() <= 128;
        let one = others().filter(move |_| few).flat_map(move |i| {
            smaller_bytes(samples[i]).filter(move |smaller| *smaller >= smallest).map(move |smaller| {
                let mut samples = samples.clone();
                samples[i] = smaller;
                with(plane, samples)
            })
        });
        shorter.into_iter().chain(lower).chain(flat).chain(one)
    })
}

/// All of `0..n`, its halves, quarters and so on.
fn bands(n: usize) -> impl Iterator<Item = Range<usize>> {
    let widths = std::iter::successors(Some(n), |width| (*width > 1).then_some(width.div_ceil(2)));
    widths.flat_map(move |width| (0..n).step_by(width.max(1)).map(move |first| first..(first + width).min(n)))
}
