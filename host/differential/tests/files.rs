//! The reader of saved files, rule by rule, on small files made by hand; that it reads what the writer writes; and that the
//! benchmark's plain writer and reader do the same.

use differential::broken::damage;
use differential::files::{mend, read, View, UNIT};
use differential::history::History;
use differential::lists::{to_save, SAVED};
use differential::{plain, plain_files};
use driver::{Random, NODE_SLOTS, PORT_SLOTS};

/// A unit of these fields from its start, the rest zeros, with its sum.
fn unit(fields: &[u16]) -> Vec<u8> {
    let mut bytes: Vec<u8> = fields.iter().flat_map(|field| field.to_le_bytes()).collect();
    bytes.resize(UNIT, 0);
    mend(&mut bytes);
    bytes
}

/// Two blocks, (0,1) and (2,0), and wires from the one output to these inputs.
fn kit(inputs: &[u16]) -> Vec<u8> {
    let wires: Vec<u16> = inputs.iter().flat_map(|input| [0, 0, 1, *input]).collect();
    let count = [2, inputs.len() as u16];
    [unit(&[1, 2, 0, 1, 0, 0, 2, 0, 0, 0]), unit(&[&count[..], &wires].concat())].concat()
}

/// So many blocks of (1,1) in one unit.
fn blocks(count: u16) -> Vec<u8> {
    unit(&[&[1, count][..], &[1, 1, 0, 0].repeat(count.into())].concat())
}

/// So many wires from the first block to itself in one unit.
fn wires(count: u16) -> Vec<u8> {
    unit(&[&[2, count][..], &[0; 4].repeat(count.into())].concat())
}

#[test]
fn by_hand() {
    let view = |wires: &[[u16; 4]]| View { blocks: vec![[0, 1], [2, 0]], wires: wires.to_vec() };
    let file = kit(&[0, 1, 1]);
    assert_eq!(file[..12], [1, 0, 2, 0, 0, 0, 1, 0, 0, 0, 0, 0]);
    assert_eq!((&file[508..512], &file[1_020..]), (&[3, 0, 3, 0][..], &[5, 0, 5, 0][..]));
    assert_eq!(read(&file), Ok(view(&[[0, 0, 1, 0], [0, 0, 1, 1], [0, 0, 1, 1]])));
    assert_eq!(read(&file).unwrap().file(), file);
    assert_eq!(read(&[]), Ok(View::default()));
    assert_eq!(View::default().file(), []);
    // What stands before the end of a unit is a file as well.
    assert_eq!(read(&file[..512]), Ok(view(&[])));
}

#[test]
fn written_and_read() {
    for blocks in [0, 1, 2, 62, 63, 64, 125, 126, 127, 512] {
        for wires in [0, 1, 62, 63, 64, 125, 126, 127, 1_024] {
            let wire = |number: u16| [number % blocks, 0, number * 7 % blocks, 1];
            let mut view = View { blocks: vec![[2, 1]; blocks.into()], ..View::default() };
            if blocks > 0 {
                view.wires = (0..wires).map(wire).collect();
                view.wires.sort();
            }
            let file = view.file();
            assert_eq!(file.len(), UNIT * (view.blocks.len().div_ceil(63) + view.wires.len().div_ceil(63)));
            assert_eq!(read(&file), Ok(view));
        }
    }
    let longest = View { blocks: vec![[2, 2]; NODE_SLOTS], wires: vec![[0; 4]; PORT_SLOTS / 2] };
    assert_eq!(longest.file().len(), kanhtrev::LONGEST_FILE);
}

#[test]
fn lengths_and_sums_come_first() {
    let file = kit(&[0]);
    for length in [1, 2, 511, 513, 600, 1_023] {
        assert_eq!(read(&file[..length]), Err(16));
    }
    assert_eq!(read(&[&file[..], &[0]].concat()), Err(16));
    for byte in 0..file.len() {
        let mut damaged = file.clone();
        damaged[byte] ^= 1;
        assert_eq!(read(&damaged), Err(16), "byte {byte}");
    }
    // The first unit breaks the layout and the second has a wrong sum.
    let mut damaged = [unit(&[7]), file[512..].to_vec()].concat();
    assert_eq!(read(&damaged), Err(17));
    damaged[600] ^= 1;
    assert_eq!(read(&damaged), Err(16));
    // The sum goes round at 4,294,967,296.
    assert_eq!(unit(&[1, 3, 0, 65_535, 0, 0, 1, 1, 0, 0])[508..], [2, 0, 3, 0]);
}

#[test]
fn kinds_and_counts() {
    for kind in [0, 3, 256, 257, 65_535] {
        assert_eq!(read(&unit(&[kind, 1])), Err(17), "kind {kind}");
    }
    for count in [0, 64, 256, 257, 65_535] {
        assert_eq!(read(&unit(&[1, count])), Err(17), "count {count}");
    }
    assert_eq!(read(&unit(&[1, 1])), Ok(View { blocks: vec![[0, 0]], wires: vec![] }));
    assert_eq!(read(&unit(&[1, 63])).map(|view| view.blocks.len()), Ok(63));
    // Zeros throughout: the sum is right, the kind is not.
    assert_eq!(read(&[0; UNIT]), Err(17));
}

#[test]
fn order_of_units() {
    let accepted = |units: &[Vec<u8>]| read(&units.concat()).map(|view| (view.blocks.len(), view.wires.len()));
    assert_eq!(accepted(&[blocks(63), blocks(1), wires(63), wires(63), wires(2)]), Ok((64, 128)));
    assert_eq!(accepted(&[blocks(63), wires(63)]), Ok((63, 63)));
    assert_eq!(accepted(&[blocks(1), blocks(63)]), Err(17));
    assert_eq!(accepted(&[blocks(62), blocks(1)]), Err(17));
    assert_eq!(accepted(&[blocks(1), wires(62), wires(1)]), Err(17));
    assert_eq!(accepted(&[wires(1), blocks(1)]), Err(17));
    assert_eq!(accepted(&[blocks(63), wires(1), blocks(1)]), Err(17));
    assert_eq!(accepted(&[wires(1)]), Err(17));
}

#[test]
fn zeros() {
    let fields = |at: usize, value: u16| {
        let mut fields = vec![0; 254];
        fields[..6].copy_from_slice(&[1, 1, 2, 3, 0, 0]);
        fields[at] = value;
        read(&unit(&fields))
    };
    // The last two fields of a block, and every unused record.
    for at in 4..254 {
        assert_eq!(fields(at, 0), Ok(View { blocks: vec![[2, 3]], wires: vec![] }));
        for value in [1, 255, 256, 65_535] {
            assert_eq!(fields(at, value), Err(17), "field {at}");
        }
    }
}

#[test]
fn order_of_wires() {
    assert!(read(&kit(&[0, 0, 1, 1])).is_ok());
    assert_eq!(read(&kit(&[1, 0])), Err(17));
    // Fields are compared as numbers, the first first, and over the border of two units.
    let two = |one: [u16; 4], other: [u16; 4]| {
        let records: Vec<u16> = [one, other].concat();
        read(&[unit(&[1, 2, 300, 300, 0, 0, 300, 300]), unit(&[&[2, 2][..], &records].concat())].concat()).is_ok()
    };
    let sorted = [[0, 0, 1, 299], [0, 1, 0, 0], [0, 255, 0, 0], [0, 256, 0, 0], [1, 0, 0, 255], [1, 0, 0, 256]];
    for (place, one) in sorted.iter().enumerate() {
        for (other_place, other) in sorted.iter().enumerate() {
            assert_eq!(two(*one, *other), place <= other_place, "{one:?}, {other:?}");
        }
    }
    let units = |last: u16, next: u16| {
        let first: Vec<u16> = (0..63).flat_map(|wire| [0, 0, 0, if wire == 62 { last } else { 0 }]).collect();
        let first = unit(&[&[2, 63][..], &first].concat());
        read(&[unit(&[1, 1, 9, 1]), first, unit(&[2, 1, 0, 0, 0, next])].concat()).is_ok()
    };
    assert!(units(3, 3) && units(3, 4) && !units(3, 2));
}

#[test]
fn ranks_and_positions() {
    // Blocks (5,2) and (3,7): an output is held against the source's second count, an input against the target's first.
    let wire =
        |record: [u16; 4]| read(&[unit(&[1, 2, 5, 2, 0, 0, 3, 7]), unit(&[&[2, 1][..], &record].concat())].concat());
    for source in 0..4 {
        for output in 0..9 {
            for target in 0..4 {
                for input in 0..9 {
                    let there = source < 2 && target < 2 && output < [2, 7][source] && input < [5, 3][target];
                    let record = [source, output, target, input].map(|field| field as u16);
                    assert_eq!(wire(record).is_ok(), there, "{record:?}");
                }
            }
        }
    }
    // Held against the record, be it ever so wide.
    let wide = |input: u16| read(&[unit(&[1, 1, 2_000, 1]), unit(&[2, 1, 0, 0, 0, input])].concat());
    assert!(wide(1_999).is_ok());
    assert_eq!(wide(2_000), Err(17));
}

#[test]
fn what_the_sum_does_not_see() {
    // Two records that change places; two blocks give another wiring, two wires another order.
    let mut file = kit(&[0, 1]);
    file[512 + 4..512 + 20].rotate_left(8);
    assert_eq!(read(&file), Err(17));
    let mut file = unit(&[1, 2, 0, 1, 0, 0, 2, 0]);
    file[4..20].rotate_left(8);
    assert_eq!(read(&file), Ok(View { blocks: vec![[2, 0], [0, 1]], wires: vec![] }));
}

#[test]
fn the_plain_writer() {
    for list in (0..SAVED).map(to_save) {
        let words = |bytes: &[u8]| u32::from_le_bytes(bytes.try_into().unwrap());
        let record = |bytes: &[u8]| std::array::from_fn(|word| words(&bytes[4 * word..4 * word + 4]));
        let records: Vec<[u32; 5]> = list.requests.chunks_exact(20).map(record).collect();
        let (history, graph) = (History::of(&records), plain::graph(&list.requests));
        let answers: Vec<_> = history.steps.iter().map(|step| step.expected).collect();
        assert!(driver::to_bytes(&answers) == list.answers, "{}", list.name);
        let file = View::of(&history.oracle).file();
        let mut buffer = vec![0xA5; file.len() + 10];
        assert_eq!(plain_files::save(&graph, &mut buffer), Some(file.len()), "{}", list.name);
        assert!(buffer[..file.len()] == file && buffer[file.len()..] == [0xA5; 10], "{}", list.name);
        assert_eq!(plain_files::save(&graph, &mut buffer[..file.len() - 1]), None);
    }
}

#[test]
fn the_plain_reader() {
    let again = |file: &[u8]| {
        let graph = plain_files::load(file)?;
        let mut buffer = vec![0xA5; file.len()];
        assert_eq!(plain_files::save(&graph, &mut buffer), Some(file.len()));
        Ok::<_, u32>(buffer)
    };
    let mut random = Random::new(1);
    let mut accepted = 0;
    for list in (0..SAVED).map(to_save) {
        let mut file = vec![0; kanhtrev::LONGEST_FILE];
        let length = plain_files::save(&plain::graph(&list.requests), &mut file).unwrap();
        file.truncate(length);
        assert!(again(&file) == Ok(file.clone()), "{}", list.name);
        // Damaged as the reader of the runs sees it, as long as no block is too wide.
        for _ in 0..2_000 {
            let mut damaged = file.clone();
            damage(&mut damaged, &kit(&[0, 1]), &mut random);
            let read = read(&damaged);
            let wide = |view: &View| view.blocks.iter().any(|[one, other]| u32::from(*one) + u32::from(*other) > 1_024);
            match read {
                Ok(view) if wide(&view) => assert_eq!(again(&damaged), Err(3)),
                Ok(_) => {
                    assert!(again(&damaged) == Ok(damaged));
                    accepted += 1;
                }
                Err(refusal) => assert_eq!(again(&damaged), Err(refusal)),
            }
        }
    }
    assert!(accepted > 100);
}
