//! Design files for requests, good and bad ones.

use super::constraints::breakable_constraint;
use super::counters::counter_design;
use super::faults;
use super::limit::large_design;
use super::products::product_design;
use super::trees::{
    any_plan, breakable, busy_plan, chain_design, crowded_plan, deep_plan, design, lengthen,
    tiny_plan, Plan,
};
use crate::builder::file_bytes;
use crate::design::{check, Design, MAX_FILE, MAX_MOVERS};
use crate::designs::all_files;
use crate::random::Random;

/// A file for CHECK: mostly with faults.
pub fn any_file(random: &mut Random) -> Vec<u8> {
    let plan = any_plan(random);
    match random.below(100) {
        0..=19 => file_bytes(&design(random, plan)),
        20..=21 => file_bytes(&long_design(random)),
        22..=24 => faults::file_of_edge_length(random),
        _ => faults::faulty_file(random, plan),
    }
}

/// A design and its file; in some requests the file has faults.
pub fn any_design(random: &mut Random) -> (Design, Vec<u8>) {
    if random.chance(1) {
        let long = random.chance(50);
        let design = if long { long_design(random) } else { large_design(random).0 };
        let file = file_bytes(&design);
        return (design, file);
    }
    let plan = any_plan(random);
    let design = match random.below(20) {
        0 => any_known(random),
        1..=3 => counter_design(random),
        _ => accepted(random, plan),
    };
    let file = file_or_fault(random, &design);
    (design, file)
}

/// Half of them have cells whose events and guards a run reads, and properties
/// that break on the way.
pub fn design_to_replay(random: &mut Random) -> (Design, Vec<u8>) {
    let design = match random.below(10) {
        0..=4 => return any_design(random),
        5 => counter_design(random),
        _ => {
            let plan = busy_plan(random);
            breakable_design(random, plan)
        }
    };
    let file = file_or_fault(random, &design);
    (design, file)
}

/// As `any_design`, with few movers and bits.
pub fn small_design(random: &mut Random) -> (Design, Vec<u8>) {
    let design = if random.chance(40) { chain_design(random) } else { tiny_design(random) };
    let file = file_or_fault(random, &design);
    (design, file)
}

/// As `small_design`, with one product.
pub fn design_with_product(random: &mut Random) -> (Design, Vec<u8>) {
    let design = product_design(random);
    let file = file_or_fault(random, &design);
    (design, file)
}

/// As `small_design`, with a counter near an end.
pub fn design_with_counter(random: &mut Random) -> (Design, Vec<u8>) {
    let design = counter_design(random);
    let file = file_or_fault(random, &design);
    (design, file)
}

/// Mostly a small design; else one with a product, a counter, deep trees or many movers, or a known one.
pub fn design_to_encode(random: &mut Random) -> (Design, Vec<u8>) {
    let design = match random.below(20) {
        0 | 1 => {
            let plan = deep_plan(random);
            accepted(random, plan)
        }
        2 => {
            let plan = crowded_plan(random);
            accepted(random, plan)
        }
        3 => any_known(random),
        4 | 5 => product_design(random),
        6 | 7 => counter_design(random),
        _ => return small_design(random),
    };
    let file = file_or_fault(random, &design);
    (design, file)
}

fn tiny_design(random: &mut Random) -> Design {
    let plan = tiny_plan(random);
    breakable_design(random, plan)
}

/// A design whose properties a few steps may break, in most cases.
fn breakable_design(random: &mut Random, plan: Plan) -> Design {
    let mut design = accepted(random, plan);
    if random.chance(60) {
        design.invariant = breakable(random, &design);
    }
    if design.constraint.is_some() && random.chance(60) {
        design.constraint = Some(breakable_constraint(random, &design));
    }
    design
}

/// A design that CHECK accepts; a plan may be off by one in its movers.
fn accepted(random: &mut Random, plan: Plan) -> Design {
    let movers = plan.movers.clamp(1, MAX_MOVERS);
    design(random, Plan { movers, ..plan })
}

fn file_or_fault(random: &mut Random, design: &Design) -> Vec<u8> {
    match random.below(100) {
        0..=4 => {
            let plan = tiny_plan(random);
            faults::faulty_file(random, plan)
        }
        5..=7 => faults::damaged(random, design.clone()),
        8 => file_without_right_movers(random),
        _ => file_bytes(design),
    }
}

/// No mover, or one too many, and no other fault.
fn file_without_right_movers(random: &mut Random) -> Vec<u8> {
    let movers = random.pick(&[0, MAX_MOVERS + 1]);
    let plan = crowded_plan(random);
    file_bytes(&design(random, Plan { movers, ..plan }))
}

/// A known design, small or large.
pub fn any_known(random: &mut Random) -> Design {
    let files = all_files();
    let file = &files[random.below(files.len())].1;
    check(file).expect("a known design is accepted")
}

/// A design of the greatest length, or one byte more or less.
fn long_design(random: &mut Random) -> Design {
    let plan = tiny_plan(random);
    let mut design = design(random, plan);
    let length = random.pick(&[MAX_FILE - 1, MAX_FILE, MAX_FILE, MAX_FILE + 1]);
    lengthen(random, &mut design, length);
    design
}
