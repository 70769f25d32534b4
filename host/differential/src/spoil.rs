//! Wrong answers put in by hand, one kind at a time, to show that each is caught.

use driver::{Call, Release};

use crate::compare::run_records;
use crate::console::{Block, Command, Console};
use crate::files::{mend, MOST_RECORDS, UNIT};
use crate::loads::records_of_file;
use crate::saves::save_records;

type Words = [u32; 5];

/// A kind of wrong answer, and how it alters the answer to a request: `None` where it doesn't apply.
pub struct Wrong {
    pub name: &'static str,
    alter: fn(Words, Words) -> Option<Words>,
}

/// The kinds. The last two are about the list as a whole.
pub const WRONG: [Wrong; 12] = [
    Wrong {
        name: "an add answers the next node",
        alter: |[code, ..], [refused, a, b, c, d]| (code == 1 && refused == 0).then_some([0, a + 1, b, c, d]),
    },
    Wrong {
        name: "an add answers the next port",
        alter: |[code, i, o, ..], [refused, a, b, c, d]| {
            (code == 1 && refused == 0 && i + o > 0).then_some([0, a, b + 1, c, d])
        },
    },
    Wrong {
        name: "a link answers its ends the other way round",
        alter: |[code, ..], [refused, a, b, c, d]| (code == 4 && refused == 0).then_some([0, c, d, a, b]),
    },
    Wrong {
        name: "a link answers the next offset",
        alter: |[code, ..], [refused, a, b, c, d]| (code == 4 && refused == 0 && b > 0).then_some([0, a, b + 1, c, d]),
    },
    Wrong {
        name: "a cut answers that nothing was found",
        alter: |[code, ..], [refused, found, ..]| (code == 5 && refused == 0 && found == 1).then_some([0; 5]),
    },
    Wrong {
        name: "a resize answers one event less",
        alter: |[code, ..], [refused, events, ..]| {
            (code == 3 && refused == 0 && events > 0).then_some([0, events - 1, 0, 0, 0])
        },
    },
    Wrong {
        name: "refusal 12 carries the other direction",
        alter: |_, [refused, a, b, direction, _]| (refused == 12).then_some([12, a, b, 1 - direction, 0]),
    },
    Wrong {
        name: "a link is refused for lack of space though there is some",
        alter: |[code, ..], [refused, ..]| (code == 4 && refused == 0).then_some([10, 0, 0, 0, 0]),
    },
    Wrong {
        name: "a hidden port is taken for a dead one",
        alter: |_, [refused, a, ..]| (refused == 8).then_some([7, a, 0, 0, 0]),
    },
    Wrong {
        name: "the counts have one link more",
        alter: |[code, ..], [refused, a, b, c, d]| (code == 9 && refused == 0).then_some([0, a, b, c + 1, d]),
    },
    Wrong { name: "a list of wrong length is run", alter: |_, _| None },
    Wrong { name: "a list of wrong length clears the answer buffer", alter: |_, _| None },
];

/// A kind of wrong listing, and how it alters what the console writes for a command, where it applies.
pub struct WrongListing {
    pub name: &'static str,
    alter: fn(&mut Block) -> bool,
}

/// The kinds of wrong listings.
pub const WRONG_LISTINGS: [WrongListing; 7] = [
    WrongListing {
        name: "a listing leaves out its first item",
        alter: |block| {
            let applies = block.len() > 1;
            if applies {
                block.remove(0);
            }
            applies
        },
    },
    WrongListing {
        name: "a listing has its first item twice",
        alter: |block| {
            let applies = block.len() > 1;
            if applies {
                block.insert(0, block[0].clone());
            }
            applies
        },
    },
    WrongListing {
        name: "a listing has its first two items the other way round",
        alter: |block| {
            let applies = block.len() > 2;
            if applies {
                block.swap(0, 1);
            }
            applies
        },
    },
    WrongListing {
        name: "a move list reports a moved port as removed",
        alter: |block| {
            let words: Vec<&str> = block[0].split_whitespace().collect();
            let applies = block.len() > 1 && words.len() == 3 && words[1] == "0";
            if applies {
                block[0] = format!("  {} 1 {}", words[0], words[2]);
            }
            applies
        },
    },
    WrongListing {
        name: "a sheet ends with its first refused entry",
        alter: |block| {
            let refused = block.iter().position(|line| line.starts_with("  refused"));
            let applies = refused.is_some_and(|place| place + 2 < block.len());
            if applies {
                let last = block.len() - 1;
                block.drain(refused.expect("some") + 1..last);
            }
            applies
        },
    },
    WrongListing {
        name: "a saved unit has a wrong sum",
        alter: |block| {
            let applies = block[0].len() == 2 + 2 * 512;
            if applies {
                let last = if block[0].ends_with('0') { "1" } else { "0" };
                block[0].replace_range(2 + 2 * 512 - 1.., last);
            }
            applies
        },
    },
    WrongListing {
        name: "an entry of a sheet has the answer of the one before it",
        alter: |block| {
            let place =
                (1..block.len()).find(|place| block[*place].starts_with("  ok") && block[place - 1] != block[*place]);
            if let Some(place) = place {
                block[place] = block[place - 1].clone();
            }
            place.is_some()
        },
    },
];

/// A kind of wrong command, and what is done in place of each.
pub struct WrongCommand {
    pub name: &'static str,
    alter: fn(Command) -> Command,
}

/// The kinds of wrong commands.
pub const WRONG_COMMANDS: [WrongCommand; 4] = [
    WrongCommand {
        name: "the link that leaves no stub is the link of ports",
        alter: |command| match command {
            Command::LinkClean(a, b) => Command::Call(Call::Link { a, b }),
            other => other,
        },
    },
    WrongCommand {
        name: "the link that leaves no stub takes its ports the other way round",
        alter: |command| match command {
            Command::LinkClean(a, b) => Command::LinkClean(b, a),
            other => other,
        },
    },
    WrongCommand {
        name: "every new wiring is of release 1",
        alter: |command| match command {
            Command::New(_) => Command::New(Release::One),
            other => other,
        },
    },
    WrongCommand {
        name: "every new wiring is of release 2",
        alter: |command| match command {
            Command::New(_) => Command::New(Release::Two),
            other => other,
        },
    },
];

/// A save's answer: the file's length, or the number of the refusal.
type Saved = Result<usize, u32>;

/// A kind of wrong save, and how it alters the answer and the buffer: `None` where it doesn't apply.
pub struct WrongSave {
    pub name: &'static str,
    alter: fn(Saved, &mut [u8]) -> Option<Saved>,
}

/// Alters the first unit of a file for which that can be done, and gives it the sum that it then must have. The unit comes as
/// its kind, its count and the bytes of its records.
fn in_a_unit(saved: Saved, buffer: &mut [u8], alter: impl Fn(u8, &mut u8, &mut [u8]) -> bool) -> Option<Saved> {
    let altered = buffer[..saved.ok()?].chunks_exact_mut(UNIT).any(|unit| {
        let (head, records) = unit.split_at_mut(4);
        let altered = alter(head[0], &mut head[2], &mut records[..8 * MOST_RECORDS]);
        mend(unit);
        altered
    });
    altered.then_some(saved)
}

/// Alters the first two neighbouring records of a kind for which that can be done.
fn in_two_records(records: &mut [u8], count: u8, alter: impl Fn(&mut [u8]) -> bool) -> bool {
    (1..usize::from(count)).any(|record| alter(&mut records[8 * (record - 1)..8 * (record + 1)]))
}

/// The kinds of wrong saves.
pub const WRONG_SAVES: [WrongSave; 17] = [
    WrongSave { name: "a file's length has a unit more", alter: |saved, _| Some(Ok(saved.ok()? + UNIT)) },
    WrongSave {
        name: "an empty graph is a unit of zeros",
        alter: |saved, buffer| {
            (saved == Ok(0)).then_some(())?;
            buffer.get_mut(..UNIT)?.fill(0);
            Some(Ok(UNIT))
        },
    },
    WrongSave {
        name: "a sum is one too large",
        alter: |saved, buffer| {
            let unit = buffer[..saved.ok()?].chunks_exact_mut(UNIT).last()?;
            unit[508] = unit[508].wrapping_add(1);
            Some(saved)
        },
    },
    WrongSave {
        name: "an unused record is not zero",
        alter: |saved, buffer| {
            in_a_unit(saved, buffer, |_, count, records| {
                let applies = usize::from(*count) < MOST_RECORDS;
                if applies {
                    records[8 * MOST_RECORDS - 1] = 1;
                }
                applies
            })
        },
    },
    WrongSave {
        name: "a block's outputs come before its inputs",
        alter: |saved, buffer| {
            in_a_unit(saved, buffer, |kind, count, records| {
                let mut blocks = records.chunks_exact_mut(8).take((*count).into());
                kind == 1
                    && blocks.any(|record| {
                        let applies = record[..2] != record[2..4];
                        record[..4].rotate_left(2);
                        applies
                    })
            })
        },
    },
    WrongSave {
        name: "a rank is one too high",
        alter: |saved, buffer| {
            in_a_unit(saved, buffer, |kind, _, records| {
                records[4] = records[4].wrapping_add(u8::from(kind == 2));
                kind == 2
            })
        },
    },
    WrongSave {
        name: "a position is one too high",
        alter: |saved, buffer| {
            in_a_unit(saved, buffer, |kind, _, records| {
                records[6] = records[6].wrapping_add(u8::from(kind == 2));
                kind == 2
            })
        },
    },
    WrongSave {
        name: "wires are not sorted by their inputs",
        alter: |saved, buffer| {
            in_a_unit(saved, buffer, |kind, count, records| {
                kind == 2
                    && in_two_records(records, *count, |two| {
                        let applies = two[..6] == two[8..14] && two[6..8] != two[14..];
                        if applies {
                            two.rotate_left(8);
                        }
                        applies
                    })
            })
        },
    },
    WrongSave {
        name: "two wires between the same ports are one",
        alter: |saved, buffer| {
            in_a_unit(saved, buffer, |kind, count, records| {
                let of_count =
                    |record: &usize| records[8 * (record - 1)..8 * record] == records[8 * record..8 * (record + 1)];
                let Some(record) = (1..usize::from(*count)).find(of_count).filter(|_| kind == 2) else { return false };
                records.copy_within(8 * (record + 1).., 8 * record);
                records[8 * (MOST_RECORDS - 1)..].fill(0);
                *count -= 1;
                true
            })
        },
    },
    WrongSave {
        name: "fields have their most significant byte first",
        alter: |saved, buffer| {
            in_a_unit(saved, buffer, |_, _, records| {
                let applies = records[0] != records[1];
                records.swap(0, 1);
                applies
            })
        },
    },
    WrongSave {
        name: "wires come before blocks",
        alter: |saved, buffer| {
            let file = &mut buffer[..saved.ok()?];
            let blocks = file.chunks_exact(UNIT).position(|unit| unit[0] == 2)?;
            file.rotate_left(UNIT * blocks);
            Some(saved)
        },
    },
    WrongSave {
        name: "a byte past the file is cleared",
        alter: |saved, buffer| {
            *buffer.get_mut(saved.ok()?)? = 0;
            Some(saved)
        },
    },
    WrongSave {
        name: "a buffer that just holds the file is refused",
        alter: |saved, buffer| (saved == Ok(buffer.len()) && !buffer.is_empty()).then_some(Err(15)),
    },
    WrongSave {
        name: "a short buffer is written to",
        alter: |saved, buffer| {
            (saved == Err(15)).then_some(())?;
            *buffer.first_mut()? = 1;
            Some(saved)
        },
    },
    WrongSave { name: "a short buffer is told as refusal 1", alter: |saved, _| (saved == Err(15)).then_some(Err(1)) },
    WrongSave { name: "a list of wrong length is saved", alter: |saved, _| (saved == Err(1)).then_some(Ok(0)) },
    WrongSave {
        name: "a list of wrong length clears the buffer",
        alter: |saved, buffer| {
            (saved == Err(1)).then(|| buffer.fill(0))?;
            Some(saved)
        },
    },
];

/// As the linked entry that saves, with a wrong answer or file where the kind applies.
pub fn spoiled_save(kind: usize, requests: &[u8], file: &mut [u8]) -> Saved {
    let saved = save_records(requests, file);
    let wrong = kind.checked_sub(WRONG.len() + WRONG_LISTINGS.len() + WRONG_COMMANDS.len());
    let wrong = wrong.and_then(|wrong| WRONG_SAVES.get(wrong));
    wrong.and_then(|wrong| (wrong.alter)(saved, file)).unwrap_or(saved)
}

/// A load's answer: the requests' length, or the number of the refusal.
type Loaded = Result<usize, u32>;

/// A kind of wrong load, and how it alters the answer and the buffer: `None` where it doesn't apply.
pub struct WrongLoad {
    pub name: &'static str,
    alter: fn(&[u8], Loaded, &mut [u8]) -> Option<Loaded>,
}

/// Loads a file that is refused for its layout after altering each unit, which comes as its kind, its count and the bytes of its
/// records; applies where the altered file is accepted.
fn overlooked(file: &[u8], loaded: Loaded, buffer: &mut [u8], alter: impl Fn(u8, u8, &mut [u8])) -> Option<Loaded> {
    (loaded == Err(17)).then_some(())?;
    let mut altered = file.to_vec();
    for unit in altered.chunks_exact_mut(UNIT) {
        let (head, records) = unit.split_at_mut(4);
        alter(head[0], head[2], &mut records[..8 * MOST_RECORDS]);
        mend(unit);
    }
    records_of_file(&altered, buffer).ok().map(Ok)
}

/// The last request, if it is a link.
fn last_link(loaded: Loaded, buffer: &mut [u8]) -> Option<&mut [u8]> {
    buffer[..loaded.ok()?].chunks_exact_mut(20).last().filter(|request| request[0] == 4)
}

/// The kinds of wrong loads.
pub const WRONG_LOADS: [WrongLoad; 21] = [
    WrongLoad { name: "a wrong sum is told as 17", alter: |_, loaded, _| (loaded == Err(16)).then_some(Err(17)) },
    WrongLoad { name: "a wrong layout is told as 16", alter: |_, loaded, _| (loaded == Err(17)).then_some(Err(16)) },
    WrongLoad {
        name: "the layout of a unit is tested before the sum of a later one",
        alter: |file, loaded, _| {
            let first = file.get(..UNIT)?;
            let broken = records_of_file(first, &mut []) == Err(17);
            (loaded == Err(16) && broken).then_some(Err(17))
        },
    },
    WrongLoad {
        name: "a file with a wrong sum is accepted",
        alter: |_, loaded, _| (loaded == Err(16)).then_some(Ok(0)),
    },
    WrongLoad {
        name: "what follows the last whole unit is overlooked",
        alter: |file, loaded, buffer| {
            let whole = &file[..file.len() / UNIT * UNIT];
            (loaded == Err(16) && whole != file).then(|| records_of_file(whole, buffer))
        },
    },
    WrongLoad {
        name: "wires that are not sorted are accepted",
        alter: |file, loaded, buffer| {
            overlooked(file, loaded, buffer, |kind, count, records| {
                let used = &mut records[..8 * usize::from(count).min(MOST_RECORDS)];
                if kind == 2 {
                    let mut wires: Vec<Vec<u8>> = used.chunks_exact(8).map(<[u8]>::to_vec).collect();
                    wires.sort_by_key(|wire| [1, 0, 3, 2, 5, 4, 7, 6].map(|byte: usize| wire[byte]));
                    used.copy_from_slice(&wires.concat());
                }
            })
        },
    },
    WrongLoad {
        name: "unused records that are not zero are accepted",
        alter: |file, loaded, buffer| {
            overlooked(file, loaded, buffer, |_, count, records| {
                records[8 * usize::from(count).min(MOST_RECORDS)..].fill(0)
            })
        },
    },
    WrongLoad {
        name: "a block's last two fields may be any",
        alter: |file, loaded, buffer| {
            overlooked(file, loaded, buffer, |kind, _, records| {
                let blocks = records.chunks_exact_mut(8).filter(|_| kind == 1);
                blocks.for_each(|block| block[4..].fill(0));
            })
        },
    },
    WrongLoad {
        name: "a position is held against the count of the other side",
        alter: |file, loaded, buffer| {
            overlooked(file, loaded, buffer, |kind, _, records| {
                let blocks = records.chunks_exact_mut(8).filter(|_| kind == 1);
                blocks.for_each(|block| block[..4].rotate_left(2));
            })
        },
    },
    WrongLoad { name: "a block too wide is told as 10", alter: |_, loaded, _| (loaded == Err(3)).then_some(Err(10)) },
    WrongLoad {
        name: "a lack of space is told as a block too wide",
        alter: |_, loaded, _| (loaded == Err(10)).then_some(Err(3)),
    },
    WrongLoad {
        name: "a wiring without space is loaded in part",
        alter: |_, loaded, _| (loaded == Err(10)).then_some(Ok(0)),
    },
    WrongLoad {
        name: "a link names the input first",
        alter: |_, loaded, buffer| {
            last_link(loaded, buffer)?[4..12].rotate_left(4);
            Some(loaded)
        },
    },
    WrongLoad {
        name: "a link names the next port",
        alter: |_, loaded, buffer| {
            let link = last_link(loaded, buffer)?;
            link[8] = link[8].wrapping_add(1);
            Some(loaded)
        },
    },
    WrongLoad {
        name: "a link is left out",
        alter: |_, loaded, buffer| {
            last_link(loaded, buffer)?;
            Some(Ok(loaded.ok()? - 20))
        },
    },
    WrongLoad {
        name: "links come before adds",
        alter: |_, loaded, buffer| {
            last_link(loaded, buffer)?;
            buffer[..loaded.ok()?].rotate_right(20);
            Some(loaded)
        },
    },
    WrongLoad {
        name: "a byte past the requests is cleared",
        alter: |_, loaded, buffer| {
            *buffer.get_mut(loaded.ok()?)? = 0;
            Some(loaded)
        },
    },
    WrongLoad {
        name: "a refused load writes to the buffer",
        alter: |_, loaded, buffer| {
            loaded.err()?;
            *buffer.first_mut()? = 1;
            Some(loaded)
        },
    },
    WrongLoad {
        name: "a short buffer is told as no space",
        alter: |_, loaded, _| (loaded == Err(15)).then_some(Err(10)),
    },
    WrongLoad {
        name: "a buffer that just holds the requests is refused",
        alter: |_, loaded, buffer| (loaded == Ok(buffer.len()) && !buffer.is_empty()).then_some(Err(15)),
    },
    WrongLoad {
        name: "a file of no bytes is refused",
        alter: |file, loaded, _| (file.is_empty() && loaded.is_ok()).then_some(Err(16)),
    },
];

/// As the linked entry that loads, with a wrong answer or wrong requests where the kind applies.
pub fn spoiled_load(kind: usize, file: &[u8], requests: &mut [u8]) -> Loaded {
    let loaded = records_of_file(file, requests);
    let wrong = kind.checked_sub(KINDS - WRONG_LOADS.len()).and_then(|wrong| WRONG_LOADS.get(wrong));
    wrong.and_then(|wrong| (wrong.alter)(file, loaded, requests)).unwrap_or(loaded)
}

/// All kinds: those of answers, of listings, of commands, of saves and of loads.
pub const KINDS: usize =
    WRONG.len() + WRONG_LISTINGS.len() + WRONG_COMMANDS.len() + WRONG_SAVES.len() + WRONG_LOADS.len();

/// As a console, with one listing altered, the last of the script that the kind applies to, or with every command altered.
pub fn spoiled_console(kind: usize, console: &Console, script: &[Command]) -> Result<Vec<Block>, String> {
    let Some(wrong) = kind.checked_sub(WRONG.len()) else { return console(script) };
    if let Some(wrong) = wrong.checked_sub(WRONG_LISTINGS.len()) {
        let Some(wrong) = WRONG_COMMANDS.get(wrong) else { return console(script) };
        let altered: Vec<Command> = script.iter().map(|command| (wrong.alter)(*command)).collect();
        return console(&altered);
    }
    let mut blocks = console(script)?;
    blocks.iter_mut().rev().filter(|block| !block.is_empty()).any(|block| (WRONG_LISTINGS[wrong].alter)(block));
    Ok(blocks)
}

/// As the linked entry, with one answer altered: the last of the list that the kind applies to.
pub fn spoiled(kind: usize, requests: &[u8], answers: &mut [u8]) -> u32 {
    let returned = run_records(requests, answers);
    match (returned, kind) {
        (1, 10) => return 0,
        (1, 11) => answers.fill(0),
        _ => {}
    }
    if returned == 1 || kind >= WRONG.len() {
        return returned;
    }
    let read = |bytes: &[u8]| -> Words {
        std::array::from_fn(|place| u32::from_le_bytes(bytes[4 * place..4 * place + 4].try_into().expect("four bytes")))
    };
    for (request, answer) in requests.chunks_exact(20).zip(answers.chunks_exact_mut(20)).rev() {
        if let Some(wrong) = (WRONG[kind].alter)(read(request), read(answer)) {
            let bytes: Vec<u8> = wrong.iter().flat_map(|word| word.to_le_bytes()).collect();
            answer.copy_from_slice(&bytes);
            break;
        }
    }
    0
}
