//! Damage to valid files: of items, of numbers and of bytes, mostly little of it, so that reading gets far before it refuses.

use crate::codes::*;
use crate::dice::Dice;
use crate::make_sites::Made;
use crate::site::{bundle_numbers, write_number, Fact, Rule};

/// A file as the bytes of its numbers.
type Numbers = Vec<Vec<u8>>;

/// Values at which some limit or kind begins or ends.
const EDGES: [u32; 22] =
    [0, 1, 2, 3, 4, 5, 31, 32, 33, 63, 64, 65, 95, 96, 127, 128, 512, 513, 4_096, 4_097, 65_535, 65_536];

/// The two files of a site, either or both of them damaged, or sometimes neither.
pub fn damage_site(dice: &mut Dice, mut made: Made) -> (Vec<u8>, Vec<u8>) {
    let (in_rules, in_bundle) = dice.pick(&[(true, false), (false, true), (false, true), (true, true), (false, false)]);
    if in_rules && dice.one_in(3) {
        damage_rules(dice, &mut made);
    }
    if in_bundle && dice.one_in(3) {
        damage_facts(dice, &mut made.facts);
    }
    let rules = damage_file(dice, numbers_of(&made.file.numbers()), in_rules);
    let bundle = damage_file(dice, numbers_of(&bundle_numbers(&made.facts)), in_bundle);
    match dice.below(200) {
        0 => (bundle, rules),
        1 => (rules, Vec::new()),
        2 => (Vec::new(), bundle),
        _ => (rules, bundle),
    }
}

fn numbers_of(values: &[u32]) -> Numbers {
    values.iter().map(|&value| shortest(value)).collect()
}

fn shortest(value: u32) -> Vec<u8> {
    let mut bytes = Vec::new();
    write_number(&mut bytes, value);
    bytes
}

/// A functional rule and a role inclusion that leads to its role, put in anywhere.
fn damage_rules(dice: &mut Dice, made: &mut Made) {
    if made.roles.is_empty() {
        return;
    }
    let (q, left) = (dice.pick(&made.roles), dice.pick(&made.roles));
    let right = if dice.one_in(2) { q } else { inverse(q) };
    for rule in [Rule::Functional(q), Rule::RoleIncluded(left, right)] {
        let place = dice.below(made.file.rules.len() + 1);
        made.file.rules.insert(place, rule);
    }
}

/// Facts swapped, doubled, turned round or taken out.
fn damage_facts(dice: &mut Dice, facts: &mut Vec<Fact>) {
    if facts.is_empty() {
        return;
    }
    let (one, other) = (dice.below(facts.len()), dice.below(facts.len()));
    match dice.below(5) {
        0 => facts.swap(one, other),
        1 => facts.insert(one, facts[one]),
        2 => facts.insert(other, facts[one]),
        3 => facts.reverse(),
        _ => {
            facts.remove(one);
        }
    }
}

fn damage_file(dice: &mut Dice, mut numbers: Numbers, damaged: bool) -> Vec<u8> {
    if !damaged {
        return numbers.concat();
    }
    for _ in 0..dice.below(3) {
        damage_number(dice, &mut numbers);
    }
    let mut bytes = numbers.concat();
    if dice.one_in(2) {
        damage_bytes(dice, &mut bytes);
    }
    bytes
}

fn damage_number(dice: &mut Dice, numbers: &mut Numbers) {
    if numbers.is_empty() {
        return;
    }
    let (one, other) = (dice.below(numbers.len()), dice.below(numbers.len()));
    match dice.below(10) {
        0 => lengthen(&mut numbers[one]),
        1 => numbers[one] = over(dice),
        2 | 3 => numbers[one] = shortest(dice.pick(&EDGES)),
        4 | 5 => numbers[one] = beside(dice, &numbers[one]),
        6 => numbers.swap(one, other),
        7 => numbers.insert(one, numbers[other].clone()),
        8 => {
            numbers.remove(one);
        }
        _ if dice.one_in(2) => numbers[0] = shortest(dice.pick(&EDGES)),
        _ => numbers[0] = beside(dice, &numbers[0]),
    }
}

/// A longer form of the same value.
fn lengthen(number: &mut Vec<u8>) {
    if let Some(last) = number.last_mut() {
        *last |= 0x80;
    }
    number.push(0);
}

/// Three bytes that are no number: too large, a top bit on the third, or a third one that is 0.
fn over(dice: &mut Dice) -> Vec<u8> {
    let third = dice.pick(&[0, 4, 5, 0x7F, 0x80, 0x84, 0xFF]);
    vec![0x80 | dice.byte(), 0x80 | dice.byte(), third]
}

/// The number one more or one less.
fn beside(dice: &mut Dice, number: &[u8]) -> Vec<u8> {
    let value = number.iter().rev().fold(0u32, |sum, byte| sum << 7 | u32::from(byte & 0x7F));
    shortest(if dice.one_in(2) { value + 1 } else { value.saturating_sub(1) })
}

fn damage_bytes(dice: &mut Dice, bytes: &mut Vec<u8>) {
    let place = dice.below(bytes.len() + 1);
    match dice.below(8) {
        0 | 1 => bytes.truncate(place),
        2 => bytes.insert(place, dice.byte()),
        3 => bytes.push(dice.byte()),
        4 => bytes.extend([0; 3]),
        _ => damage_byte(dice, bytes),
    }
}

/// One byte taken out, changed, or with one bit turned.
fn damage_byte(dice: &mut Dice, bytes: &mut Vec<u8>) {
    if bytes.is_empty() {
        return;
    }
    let place = dice.below(bytes.len());
    match dice.below(4) {
        0 => {
            bytes.remove(place);
        }
        1 => bytes[place] = dice.byte(),
        _ => bytes[place] ^= 1 << dice.below(8),
    }
}
