//! The wiring that answers each call: the kit's blocks by name, ports by place, undo, files, and what is refused.

use std::collections::hash_map::DefaultHasher;
use std::error::Error as _;
use std::hash::{Hash, Hasher};

use kanhtrev::{
    longest_of, merge_bytes, path_of, Answer, Direction, Error, List, Node, Place, Port, Refusal, View, Wiring, SLOTS,
};

/// The kit: receiver, gyro and wheel sensor into fusion, which feeds display, recorder and valve.
fn kit() -> Wiring {
    let mut wiring = Wiring::new();
    let mut add = |name: &str, incoming, outgoing| wiring.add(name, incoming, outgoing).unwrap();
    let (receiver, gyro, wheel) = (add("receiver", 0, 1), add("gyro", 0, 1), add("wheel sensor", 0, 1));
    let fusion = add("fusion", 3, 1);
    let sinks = [add("display", 1, 0), add("recorder", 1, 0), add("valve", 1, 0)];
    for (position, sensor) in (0..).zip([receiver, gyro, wheel]) {
        wiring.link(sensor.output(0), fusion.input(position)).unwrap();
    }
    for sink in sinks {
        wiring.link(sink.input(0), fusion.output(0)).unwrap();
    }
    wiring
}

fn places(wiring: &Wiring) -> Vec<(Place, Place)> {
    wiring.wires().iter().map(|wire| (wire.from.place, wire.to.place)).collect()
}

#[test]
fn the_kit() {
    let wiring = kit();
    assert_eq!((wiring.blocks().len(), wiring.wires().len()), (7, 6));
    let fusion = wiring.find("fusion").unwrap();
    assert_eq!(wiring.name(fusion), Some("fusion"));
    assert_eq!(wiring.wires_at(fusion.output(0)).count(), 3);
    let valve = wiring.find("valve").unwrap();
    assert_eq!(wiring.wires_at(valve.input(0)).next().unwrap().from.place, fusion.output(0));
    assert_eq!(wiring.view(), &wiring.list().view().unwrap());
    assert!(wiring.list().run().iter().all(Result::is_ok));
}

#[test]
fn one_wire_is_cut_and_the_others_stay() {
    let mut wiring = kit();
    let before = places(&wiring);
    let recorder = wiring.find("recorder").unwrap();
    let wire = *wiring.wires_at(recorder.input(0)).next().unwrap();
    wiring.cut(wire).unwrap();
    assert_eq!(wiring.wires().len(), 5);
    assert_eq!(wiring.cut(wire), Err(Error::NoWire(wire)));
    assert!(wiring.undo().unwrap());
    assert_eq!(places(&wiring), before);
    let fusion = wiring.find("fusion").unwrap();
    assert_eq!(wiring.unlink(fusion.output(0)), Ok(3));
    assert_eq!(wiring.unlink(fusion.output(0)), Ok(0));
    assert_eq!(wiring.wires().len(), 3);
}

#[test]
fn ports_have_new_numbers_after_a_resize() {
    let mut wiring = kit();
    let fusion = wiring.find("fusion").unwrap();
    let (before, held) = (wiring.view().port(fusion.output(0)).unwrap(), wiring.wires()[0]);
    wiring.resize(fusion, 4, 1).unwrap();
    assert_ne!(wiring.view().port(fusion.output(0)).unwrap(), before);
    assert_eq!(wiring.wires().len(), 6);
    let gyro = wiring.find("gyro").unwrap();
    wiring.link(gyro.output(0), fusion.input(3)).unwrap();
    assert_eq!(wiring.wires_at(fusion.input(3)).count(), 1);
    wiring.cut(held).unwrap(); // a wire from before the resize is found by its places
    assert_eq!(wiring.wires().len(), 6);
    wiring.resize(fusion, 0, 1).unwrap();
    assert_eq!(wiring.wires().len(), 3);
    let none = Place { node: fusion, side: Direction::Incoming, position: 0 };
    assert_eq!(wiring.link(gyro.output(0), none), Err(Error::NoPort(none)));
}

#[test]
fn refused_calls_leave_nothing() {
    let mut wiring = kit();
    let (list, view) = (wiring.list().clone(), wiring.view().clone());
    let [gyro, valve] = ["gyro", "valve"].map(|name| wiring.find(name).unwrap());
    let same = |direction| move |refused: Refusal| matches!(refused, Refusal::SameDirection { direction: own, .. } if own == direction);
    let refused = |done: Result<(), Error>, expected: &dyn Fn(Refusal) -> bool| match done {
        Err(Error::Refused(refusal)) => assert!(expected(refusal), "{refusal}"),
        other => panic!("{other:?}"),
    };
    refused(wiring.link(valve.input(0), valve.input(0)).map(drop), &same(Direction::Incoming));
    refused(wiring.link(gyro.output(0), gyro.output(0)).map(drop), &same(Direction::Outgoing));
    refused(wiring.add("wide", 1_025, 0).map(drop), &|refusal| refusal == Refusal::TooManyPorts);
    refused(wiring.add("wider", u32::MAX, u32::MAX).map(drop), &|refusal| refusal == Refusal::TooManyPorts);
    refused(wiring.remove(Node(u32::MAX)), &|refusal| refusal == Refusal::NodeNotLive);
    refused(wiring.remove(Node(7)), &|refusal| refusal == Refusal::NodeHidden);
    refused(wiring.resize(Node(99), 1, 1), &|refusal| refusal == Refusal::NodeNotLive);
    refused(wiring.name_block(Node(99), "ghost"), &|refusal| refusal == Refusal::NodeNotLive);
    let beyond = gyro.output(u32::MAX);
    assert_eq!(wiring.link(beyond, valve.input(0)), Err(Error::NoPort(beyond)));
    assert_eq!(wiring.unlink(Node(7).output(0)), Err(Error::NoPort(Node(7).output(0))));
    assert_eq!(wiring.add("gyro", 0, 1), Err(Error::NameTaken("gyro".into())));
    assert_eq!(wiring.name_block(valve, "gyro"), Err(Error::NameTaken("gyro".into())));
    assert_eq!((wiring.list(), wiring.view()), (&list, &view));
}

#[test]
fn all_is_taken_back() {
    let mut wiring = kit();
    let gyro = wiring.find("gyro").unwrap();
    wiring.remove(gyro).unwrap();
    assert_eq!((wiring.find("gyro"), wiring.wires().len()), (None, 5));
    let compass = wiring.add("compass", 0, 1).unwrap();
    assert_eq!(compass, gyro, "the number that was given back last is the first to be used again");
    assert_eq!(wiring.name(gyro), Some("compass"));
    wiring.undo().unwrap();
    wiring.undo().unwrap();
    assert_eq!((wiring.find("gyro"), wiring.wires().len()), (Some(gyro), 6));
    assert_eq!(wiring.list(), kit().list());
    while wiring.undo().unwrap() {}
    assert!(wiring.list().is_empty() && wiring.blocks().is_empty() && wiring.find("gyro").is_none());
    assert_eq!(wiring.undo(), Ok(false));
    // a name that was given away meanwhile is not taken from the block that has it
    let (a, b) = (wiring.add("a", 0, 0).unwrap(), wiring.add("b", 0, 0).unwrap());
    wiring.remove(a).unwrap();
    wiring.name_block(b, "a").unwrap();
    wiring.undo().unwrap();
    assert_eq!((wiring.find("a"), wiring.name(a)), (Some(b), None));
}

#[test]
fn saved_and_loaded_on_the_next_tractor() {
    let mut wiring = kit();
    let gyro = wiring.find("gyro").unwrap();
    wiring.remove(gyro).unwrap();
    let file = wiring.save().unwrap();
    let mut next = Wiring::load(&file).unwrap();
    assert_eq!((next.blocks().len(), next.wires().len(), next.save().unwrap()), (6, 5, file.clone()));
    assert!(next.find("receiver").is_none());
    // ranks are positions among the blocks by ascending number
    for (rank, block) in wiring.blocks().iter().enumerate() {
        next.name_block(next.blocks()[rank].node, wiring.name(block.node).unwrap()).unwrap();
    }
    let named = |wiring: &Wiring| {
        let mut wires: Vec<String> = wiring
            .wires()
            .iter()
            .map(|wire| {
                [wire.from, wire.to]
                    .map(|end| format!("{:?} {}", wiring.name(end.place.node), end.place.position))
                    .join(" to ")
            })
            .collect();
        wires.sort();
        wires
    };
    assert_eq!(named(&next), named(&wiring));
    assert_eq!(next.undo(), Ok(false), "a load is not taken back");
    for length in [1, 511, 513, 1_000] {
        assert_eq!(Wiring::load(&file[..length]).unwrap_err(), Error::Refused(Refusal::WrongSum));
    }
    assert!(Wiring::load(&[]).unwrap().blocks().is_empty());
    let damaged: Vec<u8> = file.iter().map(|byte| byte ^ 1).collect();
    assert_eq!(Wiring::load(&damaged).unwrap_err(), Error::Refused(Refusal::WrongSum));
}

#[test]
fn merged_with_the_sprayer() {
    let steering = kit();
    let mut sprayer = Wiring::new();
    let flow = sprayer.add("flow meter", 0, 1).unwrap();
    let (control, nozzle) = (sprayer.add("control", 2, 1).unwrap(), sprayer.add("nozzle", 1, 0).unwrap());
    sprayer.link(flow.output(0), control.input(0)).unwrap();
    sprayer.link(control.output(0), nozzle.input(0)).unwrap();
    let mut both = steering.merge(&sprayer).unwrap();
    assert_eq!((both.blocks().len(), both.wires().len()), (10, 8));
    let [fusion, control] = ["fusion", "control"].map(|name| both.find(name).unwrap());
    assert_eq!(control, Node(8));
    both.link(fusion.output(0), control.input(1)).unwrap();
    assert_eq!(both.wires_at(fusion.output(0)).count(), 4);
    // nothing on either side changes nothing, and the grouping makes no difference
    assert_eq!(steering.merge(&Wiring::new()).unwrap().save(), steering.save());
    assert_eq!(Wiring::new().merge(&steering).unwrap().save(), steering.save());
    let mut third = Wiring::new();
    third.add("lamp", 1, 0).unwrap();
    let left = steering.merge(&sprayer).unwrap().merge(&third).unwrap();
    let right = steering.merge(&sprayer.merge(&third).unwrap()).unwrap();
    assert_eq!(left.save(), right.save());
    assert_eq!(steering.merge(&steering).unwrap_err(), Error::NameTaken("receiver".into()));
    let mut full = Wiring::new();
    for block in 0..3 {
        full.add(format!("full {block}"), 512, 512).unwrap();
    }
    assert_eq!(full.merge(&third).unwrap_err(), Error::Refused(Refusal::NoSpace));
    let mut file = vec![7; 100];
    assert_eq!(merge_bytes(&[0], &[], &mut file), Err(Refusal::WrongSum));
    assert_eq!(merge_bytes(&steering.save().unwrap(), &[], &mut file), Err(Refusal::BufferShort));
    assert_eq!(file, [7; 100]);
}

#[test]
fn the_way_to_the_valve() {
    let mut wiring = kit();
    let [receiver, gyro, fusion, valve] =
        ["receiver", "gyro", "fusion", "valve"].map(|name| wiring.find(name).unwrap());
    assert_eq!(wiring.longest(valve), Ok(0));
    for (node, time) in [(receiver, 2_500), (gyro, 900), (fusion, 6_100), (valve, 600)] {
        wiring.set_time(node, time).unwrap();
    }
    assert_eq!((wiring.longest(valve), wiring.path(valve)), (Ok(9_200), Ok(vec![receiver, fusion, valve])));
    wiring.set_time(gyro, u16::MAX).unwrap();
    assert_eq!((wiring.longest(valve), wiring.path(valve)), (Ok(72_235), Ok(vec![gyro, fusion, valve])));
    wiring.remove(gyro).unwrap();
    assert_eq!((wiring.longest(valve), wiring.time(gyro)), (Ok(9_200), 0));
    wiring.undo().unwrap();
    assert_eq!((wiring.longest(valve), wiring.time(gyro)), (Ok(72_235), u16::MAX));
    // merged, the blocks behind have their times
    let both = Wiring::new().merge(&wiring).unwrap();
    assert_eq!(both.longest(both.find("valve").unwrap()), Ok(72_235));
    // a cycle can reach the valve and not the gyro
    wiring.resize(fusion, 4, 1).unwrap();
    wiring.link(fusion.output(0), fusion.input(3)).unwrap();
    assert_eq!(wiring.longest(valve), Err(Error::Refused(Refusal::Cycle)));
    assert_eq!(wiring.path(fusion), Err(Error::Refused(Refusal::Cycle)));
    assert_eq!((wiring.longest(gyro), wiring.path(gyro)), (Ok(65_535), Ok(vec![gyro])));
    wiring.undo().unwrap();
    assert_eq!(wiring.longest(valve), Ok(72_235));
    for none in [Node(99), Node(u32::MAX)] {
        assert_eq!(wiring.longest(none), Err(Error::Refused(Refusal::NodeNotLive)));
        assert_eq!(wiring.set_time(none, 1), Err(Error::Refused(Refusal::NodeNotLive)));
    }
    assert_eq!(wiring.longest(Node(7)), Err(Error::Refused(Refusal::NodeHidden)));
    // by the list: times of a wrong length come after the block, and a short list of blocks is left alone
    let (list, times) = (wiring.list(), vec![1; SLOTS]);
    assert_eq!(list.path(&times, valve).map(|path| path.len()), Ok(3));
    for length in [0, SLOTS - 1, SLOTS + 1] {
        assert_eq!(list.longest(&vec![1; length], valve), Err(Refusal::TimesLength));
        assert_eq!(list.longest(&vec![1; length], Node(99)), Err(Refusal::NodeNotLive));
    }
    let mut short = [7; 2];
    assert_eq!(path_of(list.bytes(), &times, valve, &mut short), Err(Refusal::BufferShort));
    assert_eq!(path_of(&list.bytes()[1..], &times, valve, &mut short), Err(Refusal::Length));
    assert_eq!(longest_of(&list.bytes()[1..], &[], valve), Err(Refusal::Length));
    assert_eq!(short, [7; 2]);
}

/// Random calls, good and bad: what the wiring answers and shows is what its list gives, and no number makes it panic.
#[test]
fn as_its_list() {
    let mut state = 5_u64;
    let mut below = move |bound: u64| {
        state = state.wrapping_mul(6_364_136_223_846_793_005).wrapping_add(1_442_695_040_888_963_407);
        ((state >> 33) % bound) as u32
    };
    let mut wiring = Wiring::new();
    for turn in 0..600 {
        let node = |random: u32| Node(if random % 37 == 0 { u32::MAX - random } else { random % 9 });
        let place = |below: &mut dyn FnMut(u64) -> u32| {
            let (block, position) = (node(below(1_000)), below(4));
            if below(2) == 0 {
                block.input(position)
            } else {
                block.output(position)
            }
        };
        let before = (wiring.list().clone(), wiring.view().clone());
        let done = match below(10) {
            0 | 1 => wiring.add(format!("block {turn}"), below(4), below(4)).is_ok(),
            2 => wiring.remove(node(below(1_000))).is_ok(),
            3 => wiring.resize(node(below(1_000)), below(5), below(5)).is_ok(),
            4 => wiring.unlink(place(&mut below)).is_ok(),
            5 => match wiring.wires().get(below(4) as usize).copied() {
                Some(wire) => wiring.cut(wire).is_ok(),
                None => continue,
            },
            6 => wiring.undo().unwrap(),
            _ => match wiring.link(place(&mut below), place(&mut below)) {
                Ok(wire) => wiring.wires().contains(&wire),
                Err(_) => false,
            },
        };
        assert_eq!(wiring.view(), &wiring.list().view().unwrap());
        assert!(done || (wiring.list(), wiring.view()) == (&before.0, &before.1));
        assert!(wiring.list().run().iter().all(Result::is_ok));
        for block in wiring.blocks() {
            assert!(wiring.name(block.node).is_some());
        }
    }
    assert!(wiring.blocks().len() > 3);
}

#[test]
fn a_list_tells_new_port_numbers() {
    let mut list = List::new();
    list.add(1, 1);
    list.add(1, 1);
    list.link(Port(1), Port(2));
    let resize = list.resize(Node(0), 2, 1);
    assert_eq!(list.run()[resize], Ok(Answer::Resized { events: 2 }));
    let View { blocks, wires } = list.view().unwrap();
    assert_eq!(blocks[0].first_port, Some(Port(4)));
    assert_eq!((blocks[0].input(1), blocks[0].output(0), blocks[0].output(1)), (Some(Port(5)), Some(Port(6)), None));
    assert_eq!((wires[0].from.port, wires[0].to.port), (Port(6), Port(2)));
    assert!(list.pop() && list.pop());
    assert_eq!(list.view().unwrap().wires, []);
    assert!(list.pop() && list.pop() && !list.pop());
    assert_eq!(list.view().unwrap(), View::default());
}

#[test]
fn refusals_in_words() {
    let hash = |refusal: Refusal| {
        let mut hasher = DefaultHasher::new();
        refusal.hash(&mut hasher);
        hasher.finish()
    };
    assert_eq!(Refusal::PortNotLive(Port(9)).to_string(), "there is no port 9 (refusal 7)");
    assert_ne!(hash(Refusal::PortNotLive(Port(9))), hash(Refusal::PortNotLive(Port(8))));
    let error = Error::from(Refusal::NoSpace);
    assert_eq!(error.to_string(), "there is no room left (refusal 10)");
    assert!(error.source().is_some_and(|source| source.is::<Refusal>()));
    assert_eq!(Error::NoPort(Node(3).output(0)).to_string(), "there is no output 0 of block 3");
    assert!(Error::NameTaken("gyro".into()).source().is_none());
}
