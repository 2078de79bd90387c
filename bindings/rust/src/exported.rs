//! The exported functions behind safe ones: the only module with `unsafe`.

use crate::calls::{PlanNumbers, StepNumbers, WorkNumbers};

/// The same declarations as in `bindings/planner.h`, which says what each call needs.
mod raw {
    extern "C" {
        pub fn planner_check(sheet: *const u8, sheet_length: usize) -> u8;
        pub fn planner_step(
            sheet: *const u8,
            sheet_length: usize,
            node: u64,
            code: u16,
            number: *mut u64,
            cost: *mut i64,
            reward: *mut i64,
            units: *mut i64,
        ) -> u8;
        pub fn planner_plan(
            sheet: *const u8,
            sheet_length: usize,
            nodes: *mut u64,
            nodes_length: usize,
            potentials: *mut i64,
            potentials_length: usize,
            steps: *mut u16,
            steps_length: usize,
            p: *mut i64,
            q: *mut i64,
            n: *mut i64,
            s: *mut i64,
            m: *mut i64,
            units: *mut i64,
            cost: *mut i64,
            reward: *mut i64,
        ) -> u8;
        pub fn planner_work(
            sheet: *const u8,
            sheet_length: usize,
            waits: *mut u16,
            waits_length: usize,
            edges: *mut u16,
            edges_length: usize,
            stem: *mut i64,
            cycle: *mut i64,
        ) -> u8;
    }
}

pub fn check(sheet: &[u8]) -> u8 {
    // SAFETY: pointer and count are those of one slice, which is only read.
    unsafe { raw::planner_check(sheet.as_ptr(), sheet.len()) }
}

pub fn step(sheet: &[u8], node: u64, code: u16, numbers: &mut StepNumbers) -> u8 {
    // SAFETY: pointer and count are those of one slice, which is only read; each number is another
    // field of what is lent to be written.
    unsafe {
        raw::planner_step(
            sheet.as_ptr(),
            sheet.len(),
            node,
            code,
            &mut numbers.number,
            &mut numbers.cost,
            &mut numbers.reward,
            &mut numbers.units,
        )
    }
}

pub fn plan(
    sheet: &[u8],
    nodes: &mut [u64],
    potentials: &mut [i64],
    steps: &mut [u16],
    numbers: &mut PlanNumbers,
) -> u8 {
    // SAFETY: each pointer and count are those of one slice, of which the sheet is only read; the
    // others and the fields are lent to be written, so that no two of them overlap.
    unsafe {
        raw::planner_plan(
            sheet.as_ptr(),
            sheet.len(),
            nodes.as_mut_ptr(),
            nodes.len(),
            potentials.as_mut_ptr(),
            potentials.len(),
            steps.as_mut_ptr(),
            steps.len(),
            &mut numbers.p,
            &mut numbers.q,
            &mut numbers.n,
            &mut numbers.s,
            &mut numbers.m,
            &mut numbers.units,
            &mut numbers.cost,
            &mut numbers.reward,
        )
    }
}

pub fn work(sheet: &[u8], waits: &mut [u16], edges: &mut [u16], numbers: &mut WorkNumbers) -> u8 {
    // SAFETY: as in `plan`.
    unsafe {
        raw::planner_work(
            sheet.as_ptr(),
            sheet.len(),
            waits.as_mut_ptr(),
            waits.len(),
            edges.as_mut_ptr(),
            edges.len(),
            &mut numbers.stem,
            &mut numbers.cycle,
        )
    }
}
