//! Damage to saved files, of every kind.

use driver::Random;

use crate::files::{mend, MOST_RECORDS, UNIT};

/// A kind of damage, and how it alters a file, with another one at hand; `None` where it doesn't apply.
pub struct Damage {
    pub name: &'static str,
    alter: fn(&mut Vec<u8>, &[u8], &mut Random) -> Option<()>,
}

fn below(random: &mut Random, bound: usize) -> Option<usize> {
    (bound > 0).then(|| random.below(bound as u32) as usize)
}

/// Any byte of a file, the first of its unit's often.
fn any_byte(file: &[u8], random: &mut Random) -> Option<usize> {
    let byte = below(random, file.len())?;
    Some(if random.one_in(2) { byte / UNIT * UNIT + byte % UNIT % 40 } else { byte }.min(file.len() - 1))
}

/// Where any whole unit begins.
fn any_unit(file: &[u8], random: &mut Random) -> Option<usize> {
    Some(UNIT * below(random, file.len() / UNIT)?)
}

/// Where any record of a unit begins, a used one mostly.
fn any_record(file: &[u8], unit: usize, random: &mut Random) -> Option<usize> {
    let used = usize::from(file[unit + 2]).clamp(1, MOST_RECORDS);
    let records = if random.one_in(8) { MOST_RECORDS } else { used };
    Some(unit + 4 + 8 * below(random, records)?)
}

fn field(file: &[u8], at: usize) -> u16 {
    u16::from_le_bytes([file[at], file[at + 1]])
}

fn put_field(file: &mut [u8], at: usize, field: u16) {
    file[at..at + 2].copy_from_slice(&field.to_le_bytes());
}

/// Another number for a field: a little more or less, or one at some edge.
fn another(field: u16, random: &mut Random) -> u16 {
    const EDGES: [u16; 16] = [0, 1, 2, 3, 62, 63, 64, 255, 256, 511, 512, 1_023, 1_024, 1_025, 2_000, 65_535];
    match random.below(4) {
        0 => field.wrapping_add(1 + random.below(3) as u16),
        1 => field.wrapping_sub(1 + random.below(3) as u16),
        2 => field ^ 1 << random.below(16),
        _ => random.pick(&EDGES).expect("some"),
    }
}

/// Puts another number in a field.
fn change_field(file: &mut [u8], at: usize, random: &mut Random) {
    let changed = another(field(file, at), random);
    put_field(file, at, changed);
}

/// Exchanges so many bytes at two places.
fn exchange(file: &mut [u8], one: usize, other: usize, bytes: usize) -> Option<()> {
    let kept = file[one..one + bytes].to_vec();
    file.copy_within(other..other + bytes, one);
    file[other..other + bytes].copy_from_slice(&kept);
    (one != other).then_some(())
}

/// The kinds of damage.
pub const DAMAGES: [Damage; 24] = [
    Damage {
        name: "a byte is another",
        alter: |file, _, random| {
            let byte = any_byte(file, random)?;
            file[byte] = file[byte].wrapping_add(1 + random.below(255) as u8);
            Some(())
        },
    },
    Damage {
        name: "a bit is another",
        alter: |file, _, random| {
            let byte = any_byte(file, random)?;
            file[byte] ^= 1 << random.below(8);
            Some(())
        },
    },
    Damage {
        name: "many bytes are others",
        alter: |file, _, random| {
            let (byte, bytes) = (any_byte(file, random)?, 2 + random.below(600) as usize);
            file.iter_mut().skip(byte).take(bytes).for_each(|byte| *byte = random.below(256) as u8);
            Some(())
        },
    },
    Damage {
        name: "two words, and the sum stays",
        alter: |file, _, random| {
            let unit = any_unit(file, random)?;
            let by = if random.one_in(2) { 1 << random.below(32) } else { 1 + random.below(3) };
            let mut any_word = || {
                let words = if random.one_in(2) { 127 } else { 9 };
                unit + 4 * random.below(words) as usize
            };
            let (one, other) = (any_word(), any_word());
            let word = |file: &[u8], at: usize| u32::from_le_bytes(file[at..at + 4].try_into().expect("four bytes"));
            let raised = word(file, one).wrapping_add(by).to_le_bytes();
            file[one..one + 4].copy_from_slice(&raised);
            let lowered = word(file, other).wrapping_sub(by).to_le_bytes();
            file[other..other + 4].copy_from_slice(&lowered);
            (one != other).then_some(())
        },
    },
    Damage {
        name: "a field of a record is another",
        alter: |file, _, random| {
            let unit = any_unit(file, random)?;
            let record = any_record(file, unit, random)?;
            change_field(file, record + 2 * random.below(4) as usize, random);
            Some(())
        },
    },
    Damage {
        name: "fields of a few records are raised",
        alter: |file, _, random| {
            let unit = any_unit(file, random)?;
            for _ in 0..2 + random.below(4) {
                let at = any_record(file, unit, random)? + 2 * random.below(4) as usize;
                let raised = field(file, at).saturating_add(random.below(900) as u16);
                put_field(file, at, raised);
            }
            Some(())
        },
    },
    Damage {
        name: "a count is another",
        alter: |file, _, random| {
            let unit = any_unit(file, random)?;
            change_field(file, unit + 2, random);
            Some(())
        },
    },
    Damage {
        name: "a kind is another",
        alter: |file, _, random| {
            let unit = any_unit(file, random)?;
            let other = if random.one_in(2) { 3 - file[unit].min(2) } else { random.below(256) as u8 };
            put_field(file, unit, other.into());
            Some(())
        },
    },
    Damage {
        name: "two records of a unit change places",
        alter: |file, _, random| {
            let unit = any_unit(file, random)?;
            let (one, other) = (any_record(file, unit, random)?, any_record(file, unit, random)?);
            exchange(file, one, other, 8)
        },
    },
    Damage {
        name: "two records of two units change places",
        alter: |file, _, random| {
            let (unit, next) = (any_unit(file, random)?, any_unit(file, random)?);
            let (one, other) = (any_record(file, unit, random)?, any_record(file, next, random)?);
            exchange(file, one, other, 8)
        },
    },
    Damage {
        name: "two fields change places",
        alter: |file, _, random| {
            let unit = any_unit(file, random)?;
            let record = any_record(file, unit, random)?;
            let [one, other] = [(); 2].map(|()| record + 2 * random.below(4) as usize);
            exchange(file, one, other, 2)
        },
    },
    Damage {
        name: "a record stands for another",
        alter: |file, _, random| {
            let unit = any_unit(file, random)?;
            let (one, other) = (any_record(file, unit, random)?, any_record(file, unit, random)?);
            file.copy_within(one..one + 8, other);
            (one != other).then_some(())
        },
    },
    Damage {
        name: "a record is left out",
        alter: |file, _, random| {
            let unit = any_unit(file, random)?;
            let record = any_record(file, unit, random)?;
            file.copy_within(record + 8..unit + 508, record);
            file[unit + 500..unit + 508].fill(0);
            let count = field(file, unit + 2).wrapping_sub(1);
            put_field(file, unit + 2, count);
            Some(())
        },
    },
    Damage {
        name: "a record stands twice",
        alter: |file, _, random| {
            let unit = any_unit(file, random)?;
            let record = any_record(file, unit, random)?;
            file.copy_within(record..unit + 500, record + 8);
            let count = field(file, unit + 2).wrapping_add(1);
            put_field(file, unit + 2, count);
            Some(())
        },
    },
    Damage {
        name: "an unused byte is not zero",
        alter: |file, _, random| {
            let unit = any_unit(file, random)?;
            let used = 8 * usize::from(file[unit + 2]).min(MOST_RECORDS);
            let byte = unit + 4 + used + below(random, 504 - used)?;
            file[byte] = 1 + random.below(255) as u8;
            Some(())
        },
    },
    Damage {
        name: "two units change places",
        alter: |file, _, random| {
            let (one, other) = (any_unit(file, random)?, any_unit(file, random)?);
            exchange(file, one, other, UNIT)
        },
    },
    Damage {
        name: "a unit stands twice",
        alter: |file, _, random| {
            let unit = any_unit(file, random)?;
            let copy = file[unit..unit + UNIT].to_vec();
            file.splice(unit..unit, copy);
            Some(())
        },
    },
    Damage {
        name: "a unit is left out",
        alter: |file, _, random| {
            let unit = any_unit(file, random)?;
            file.drain(unit..unit + UNIT);
            Some(())
        },
    },
    Damage {
        name: "a unit is of another file",
        alter: |file, other, random| {
            let (unit, from) = (any_unit(file, random)?, any_unit(other, random)?);
            let replaced = if random.one_in(2) { UNIT } else { 0 };
            file.splice(unit..unit + replaced, other[from..from + UNIT].iter().copied());
            Some(())
        },
    },
    Damage {
        name: "another file follows",
        alter: |file, other, _| {
            file.extend(other);
            (!other.is_empty()).then_some(())
        },
    },
    Damage {
        name: "cut between units",
        alter: |file, _, random| {
            let unit = any_unit(file, random)?;
            file.truncate(unit);
            Some(())
        },
    },
    Damage {
        name: "cut within a unit",
        alter: |file, _, random| {
            let length = any_byte(file, random)?;
            file.truncate(length);
            Some(())
        },
    },
    Damage {
        name: "bytes follow",
        alter: |file, _, random| {
            let byte = if random.one_in(2) { 0 } else { random.below(256) as u8 };
            let bytes = random.pick(&[1, 4, 8, 511, 512, 513, 1_024]).expect("some");
            file.extend(vec![byte; bytes]);
            Some(())
        },
    },
    Damage {
        name: "a byte is left out, and all after it move",
        alter: |file, _, random| {
            let byte = any_byte(file, random)?;
            file.remove(byte);
            if random.one_in(2) {
                file.push(0);
            }
            Some(())
        },
    },
];

/// Gives every whole unit the sum that it must have.
pub fn mend_all(file: &mut [u8]) {
    file.chunks_exact_mut(UNIT).for_each(mend);
}

/// Damages a file, once or a few times, and mends the sums after it as often as not. Gives the kind of the last damage.
pub fn damage(file: &mut Vec<u8>, other: &[u8], random: &mut Random) -> Option<&'static str> {
    let mut last = None;
    for _ in 0..if random.one_in(4) { 2 + random.below(3) } else { 1 } {
        let damage = &DAMAGES[random.below(DAMAGES.len() as u32) as usize];
        if (damage.alter)(file, other, random).is_some() {
            last = Some(damage.name);
        }
    }
    if !random.one_in(3) {
        mend_all(file);
    }
    last
}
