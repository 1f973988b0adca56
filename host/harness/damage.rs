//! Damaged copies of inputs: units flipped, cut, put in or taken from another, and fields moved about.

use crate::input::Input;
use crate::random::Random;
use crate::tree::Payload;

pub fn damaged(random: &mut Random, input: &Input, other: &Input) -> Input {
    let mut input = input.clone();
    for _ in 0..*random.pick(&[1, 1, 1, 2, 4]) {
        match random.below(10) {
            0..=3 => units(random, &mut input.d1, &other.d1),
            4..=6 => fields(random, &mut input, other),
            7 => strings(random, &mut input),
            8 => units(random, &mut input.d2, &other.d2),
            _ => rest(random, &mut input),
        }
    }
    input
}

fn units(random: &mut Random, units: &mut Vec<u16>, other: &[u16]) {
    let at = random.below(units.len() + 1);
    let end = (at + 1 + random.below(8)).min(units.len());
    match random.below(8) {
        0 | 1 if at < units.len() => units[at] ^= 1 << random.below(8),
        2 if at < units.len() => units[at] = *random.pick(&[0, 1, 2, 0x7f, 0x80, 0xff, 0x100, 0xd800]),
        3 => units.truncate(at),
        4 => drop(units.drain(at.min(end)..end)),
        5 => {
            let again = units[at.min(end)..end].to_vec();
            units.splice(at..at, again);
        }
        6 => {
            let start = random.below(other.len() + 1);
            let taken = &other[start..(start + random.below(40)).min(other.len())];
            units.splice(at.min(end)..end, taken.iter().copied());
        }
        _ => units.insert(at, random.next() as u16 & 0xff),
    }
}

/// Takes out, doubles, moves or exchanges whole fields, with right lengths.
fn fields(random: &mut Random, input: &mut Input, other: &Input) {
    let (Some(mut payload), Some(mut donor)) = (Payload::of(&input.d1), Payload::of(&other.d1)) else {
        return units(random, &mut input.d1, &other.d1);
    };
    let mut taken = None;
    let from = random.below(donor.count());
    donor.change(from, &mut |nodes, place| taken = Some(nodes[place].clone()));
    let number = random.below(payload.count());
    payload.change(number, &mut |nodes, place| match (random.below(6), &taken) {
        (0, _) => drop(nodes.remove(place)),
        (1, _) => nodes.insert(place, nodes[place].clone()),
        (2, _) => {
            let with = random.below(nodes.len());
            nodes.swap(place, with);
        }
        (3, Some(taken)) => nodes[place].value = taken.value.clone(),
        (4, Some(taken)) => nodes.insert(place, taken.clone()),
        _ => nodes[place].tag ^= 8 << random.below(4),
    });
    input.d1 = payload.d1();
}

fn strings(random: &mut Random, input: &mut Input) {
    if crate::limits::before_reading(input).is_some_and(|number| number < 4) {
        return;
    }
    let mut strings: Vec<Vec<u16>> = input.strings().map(<[u16]>::to_vec).collect();
    let place = random.below(strings.len());
    match random.below(3) {
        0 if !strings.is_empty() => drop(strings.remove(place)),
        1 if !strings.is_empty() => strings.insert(place, strings[place].clone()),
        _ if !strings.is_empty() => {
            let with = random.below(strings.len());
            strings.swap(place, with);
        }
        _ => {}
    }
    input.set_strings(&strings);
}

fn rest(random: &mut Random, input: &mut Input) {
    match random.below(4) {
        0 => input.k = *random.pick(&[1, 2, 3, 4, 5, 0, 6]),
        1 => input.mv[0] = *random.pick(&[0, 1, 2, 3, -1]),
        2 if !input.ends.is_empty() => {
            let at = random.below(input.ends.len());
            input.ends[at] = input.ends[at].wrapping_add(*random.pick(&[1, u32::MAX]));
        }
        _ => {
            if let Some((0, units)) = input.d1.split_first() {
                input.d1 = crate::forms::packed(&units.iter().map(|unit| *unit as u8).collect::<Vec<_>>());
            }
        }
    }
}
