//! S and B: for each speed and each rate that an area can have, and beyond those, up to what 16 bits hold.
use crate::{counted, same};
use reference::random::Random;
use reference::*;

/// Random pairs with a rate or a speed that no area has.
const PAIRS: u64 = 4_000;
const EACH: u64 = 200;

pub fn compare(seed: u64) {
    within(seed);
    beyond(seed);
    corners(seed);
}

/// S, and B: what is still run after this cycle is S of the speed that a cycle of full braking leaves.
fn within(seed: u64) {
    let mut compared: u64 = 0;
    for b in 1..=TOP_SPEED {
        for v in 0..=TOP_SPEED {
            same_ways(seed, b, v);
            compared += 1;
        }
    }
    counted("braking: S and B compared, for each speed from 0 and each rate from 1", compared, 2001 * 2000);
    // "b = 1 and v = 2000 gives 2,001,000"
    let way = rbu::braking_distance(1, 2000);
    same(seed, "S(2000) with b = 1", way, 2_001_000);
    println!("braking: b 1, v 2000: {way}");
}

fn same_ways(seed: u64, b: u16, v: u16) {
    same(seed, format_args!("S({v}) with b = {b}"), u64::from(rbu::braking_distance(b, v)), s(b.into(), v.into()));
    let rest = rbu::braking_distance(b, v.saturating_sub(b));
    same(seed, format_args!("B({v}) with b = {b}"), u64::from(rest), b_rest(b.into(), v.into()));
}

/// What is left for the last turn. R-5 of document 02: "lower it by `b` each turn, to 0 at the last".
fn last_kept(b: u16, v: u16) -> u16 {
    match v % b {
        0 => v.min(b),
        rest => rest,
    }
}

/// Random pairs. The rates are of all sizes, so that some sums have very many turns.
fn beyond(seed: u64) {
    let mut random = Random::new(seed);
    let mut seen = [
        ("with a speed to 2000", 0, 10),
        ("of 2,000 turns or more", 0, EACH),
        ("with a way above 4,000,000", 0, EACH),
        ("with rate and speed together above 65,535", 0, EACH),
        ("whose last kept speed is b", 0, EACH),
        ("whose last kept speed is one below b", 0, EACH),
        ("whose last kept speed is 1", 0, EACH),
    ];
    let mut pairs: u64 = 0;
    while pairs < PAIRS {
        let greatest = 0xffff >> random.within(0, 15);
        let b = random.edgy(1, greatest) as u16;
        let v = match random.draw() % 4 {
            // about a multiple of the rate
            0 => (u64::from(b) * random.within(1, 0xffff / u64::from(b)) + random.within(0, 2)).saturating_sub(1).min(0xffff) as u16,
            _ => random.edgy(0, 0xffff) as u16,
        };
        if b.max(v) <= TOP_SPEED {
            continue;
        }
        same_ways(seed, b, v);
        pairs += 1;
        let last = last_kept(b, v);
        let is_so = [
            v <= TOP_SPEED,
            v / b >= TOP_SPEED,
            s(b.into(), v.into()) > LONGEST.into(),
            v.checked_add(b).is_none(),
            v > 0 && last == b,
            v > 0 && last == b - 1,
            last == 1,
        ];
        seen.iter_mut().zip(is_so).for_each(|((_, count, _), so)| *count += u64::from(so));
    }
    counted("braking: random pairs with a rate or a speed above 2000, to 65,535", pairs, PAIRS);
    for (what, count, least) in seen {
        counted(format_args!("braking: these {what}"), count, least);
    }
}

/// Rate, speed, and the way by hand. Of a rate of 0 the papers say nothing; include/rbu.h says "0 at a rate of 0".
const CORNERS: [(u16, u16, u32); 14] = [
    (1, 65_535, 2_147_450_880),
    (2, 65_535, 1_073_741_824),
    (32_767, 65_535, 98_304),
    (32_768, 65_535, 98_302),
    (65_534, 65_535, 65_536),
    (65_535, 65_535, 65_535),
    (65_535, 65_534, 65_534),
    (65_535, 1, 1),
    (65_535, 0, 0),
    (1, 1, 1),
    (1, 0, 0),
    (0, 0, 0),
    (0, 1, 0),
    (0, 65_535, 0),
];

fn corners(seed: u64) {
    for (rate, speed, way) in CORNERS {
        same(seed, format_args!("the braking distance at rate {rate} and speed {speed}"), rbu::braking_distance(rate, speed), way);
        // the second program has no end of the sum at a rate of 0
        if rate > 0 {
            same(seed, format_args!("S({speed}) with b = {rate}, by hand"), u64::from(way), s(rate.into(), speed.into()));
        }
    }
    for speed in 0..=u16::MAX {
        same(seed, format_args!("the braking distance at rate 0 and speed {speed}"), rbu::braking_distance(0, speed), 0);
    }
    println!("braking: {} corners of rate and speed by hand, and every speed at a rate of 0", CORNERS.len());
}
