//! The bench wiring through the typed list: cases A to J, K's answers, and its file.

use kanhtrev::{
    load_bytes, run_bytes, save_bytes, Answer, Counts, Direction, List, Node, Port, Refusal, Subport, LONGEST_FILE,
    LONGEST_LOAD,
};

type Ends = (Subport, Subport);

/// The list after so many links of cases A to C.
fn after(links: usize) -> List {
    let mut list = List::new();
    list.add(0, 1);
    list.add(2, 0);
    for (a, b) in [(0, 1), (0, 2), (0, 2)].into_iter().take(links) {
        list.link(Port(a), Port(b));
    }
    list
}

/// The answer to one more call.
fn then(mut list: List, call: impl FnOnce(&mut List) -> usize) -> Result<Answer, Refusal> {
    let place = call(&mut list);
    list.run()[place]
}

fn linked((a, b): Ends) -> Result<Answer, Refusal> {
    Ok(Answer::Linked { a, b })
}

fn end(port: u32, offset: u16) -> Result<Answer, Refusal> {
    Ok(Answer::End(Some(Port(port).at(offset))))
}

fn counts(nodes: u32, ports: u32, links: u32) -> Result<Answer, Refusal> {
    Ok(Answer::Counts(Counts { nodes, ports, links }))
}

#[test]
fn links_and_counts() {
    let answers = after(3).run();
    assert_eq!(answers[0], Ok(Answer::Added { node: Node(0), first_port: Some(Port(0)) }));
    assert_eq!(answers[1], Ok(Answer::Added { node: Node(1), first_port: Some(Port(1)) }));
    assert_eq!(answers[2], linked((Port(0).at(0), Port(1).at(0))));
    assert_eq!(answers[3], linked((Port(0).at(1), Port(2).at(0))));
    assert_eq!(answers[4], linked((Port(0).at(2), Port(2).at(1))));
    for links in 0..=3 {
        assert_eq!(then(after(links), List::counts), counts(2, 3, links as u32));
    }
    assert_eq!(then(after(3), |list| list.subport_link(Port(0).at(1))), end(2, 0));
}

#[test]
fn refused_links() {
    let same = |a, b, direction| Err(Refusal::SameDirection { a: Port(a), b: Port(b), direction });
    assert_eq!(then(after(1), |list| list.link(Port(1), Port(2))), same(4, 2, Direction::Incoming));
    assert_eq!(then(after(0), |list| list.link(Port(0), Port(0))), same(0, 0, Direction::Outgoing));
    assert_eq!(then(after(0), |list| list.link(Port(0), Port(9))), Err(Refusal::SecondPortNotLive(Port(9))));
    assert_eq!(then(after(0), |list| list.link(Port(9), Port(0))), Err(Refusal::PortNotLive(Port(9))));
    assert_eq!(then(after(2), |list| list.link(Port(0), Port(3))), Err(Refusal::PortHidden(Port(3))));
    let twice = |list: &mut List| list.link_subports(Port(0).at(1), Port(1).at(0));
    assert_eq!(then(after(2), twice), Err(Refusal::AlreadyLinked(Port(5))));
}

#[test]
fn cuts() {
    assert_eq!(then(after(2), |list| list.unlink(Port(0))), end(0, 0));
    assert_eq!(then(after(2), |list| list.unlink(Port(2))), end(5, 0));
    assert_eq!(then(after(2), |list| list.unlink_subport(Port(2).at(0))), end(0, 1));
    assert_eq!(then(after(0), |list| list.unlink(Port(0))), Ok(Answer::End(None)));
    assert_eq!(then(after(1), |list| list.subport_link(Port(1).at(5))), end(0, 0));
    assert_eq!(then(after(2), |list| list.subport_link(Port(0).at(2))), Err(Refusal::NoSuchOffset(Port(0))));
    assert_eq!(then(after(2), |list| list.subport_link(Port(0).at(65_535))), Err(Refusal::Malformed));
}

#[test]
fn nodes_and_space() {
    assert_eq!(then(after(2), |list| list.remove(Node(2))), Err(Refusal::NodeHidden));
    assert_eq!(then(after(2), |list| list.remove(Node(7))), Err(Refusal::NodeNotLive));
    assert_eq!(then(after(2), |list| list.remove(Node(1))), Ok(Answer::Removed));
    let mut list = after(0);
    list.resize(Node(0), 0, 0);
    assert_eq!(then(list, |list| list.add(0, 1)), Ok(Answer::Added { node: Node(2), first_port: Some(Port(0)) }));
    let mut list = List::new();
    list.add(512, 512);
    list.add(512, 512);
    assert_eq!(
        then(list.clone(), |list| list.add(0, 1)),
        Ok(Answer::Added { node: Node(2), first_port: Some(Port(2_048)) })
    );
    list.add(0, 1);
    assert_eq!(then(list.clone(), |list| list.add(512, 512)), Err(Refusal::NoSpace));
    assert_eq!(then(list.clone(), |list| list.add(0, 0)), Ok(Answer::Added { node: Node(3), first_port: None }));
    assert_eq!(then(list, |list| list.add(512, 513)), Err(Refusal::TooManyPorts));
}

#[test]
fn the_resize_of_case_k() {
    let mut list = List::new();
    list.add(1, 1);
    list.add(0, 2);
    list.link(Port(2), Port(0));
    list.link(Port(3), Port(0));
    assert_eq!(then(list.clone(), |list| list.resize(Node(0), 0, 1)), Ok(Answer::Resized { events: 2 }));
    list.resize(Node(0), 0, 1);
    assert_eq!(then(list, List::counts), counts(2, 3, 0));
}

#[test]
fn lengths() {
    let list = after(1);
    for (request_bytes, answer_bytes) in [(59, 59), (60, 40), (60, 80), (0, 20), (19, 0)] {
        let mut answers = vec![0xA5; answer_bytes];
        assert_eq!(run_bytes(&list.bytes()[..request_bytes], &mut answers), Err(Refusal::Length));
        assert!(answers.iter().all(|byte| *byte == 0xA5), "the answer buffer was changed");
    }
    assert_eq!(run_bytes(&[], &mut []), Ok(()));
    assert!(List::new().run().is_empty());
}

/// The file of the bench wiring after case C, byte for byte.
fn file() -> Vec<u8> {
    let mut bytes = vec![1, 0, 2, 0, 0, 0, 1, 0, 0, 0, 0, 0, 2, 0, 0, 0, 0, 0, 0, 0];
    bytes.resize(508, 0);
    bytes.extend([3, 0, 3, 0]);
    bytes.extend([2, 0, 3, 0, 0, 0, 0, 0, 1, 0, 0, 0, 0, 0, 0, 0, 1, 0, 1, 0, 0, 0, 0, 0, 1, 0, 1, 0]);
    bytes.resize(1_020, 0);
    bytes.extend([5, 0, 5, 0]);
    bytes
}

#[test]
fn saved() {
    assert_eq!(after(3).save().unwrap(), file());
    assert_eq!(List::new().save().unwrap(), []);
    // Ranks in place of node numbers, and an order of the wires that is not that of their making.
    let mut list = List::new();
    list.add(0, 0);
    list.add(0, 1);
    list.add(2, 0);
    list.remove(Node(0));
    for input in [2, 1, 2] {
        list.link(Port(0), Port(input));
    }
    assert_eq!(list.save().unwrap(), file());
}

#[test]
fn room_for_a_file() {
    let (list, file) = (after(3), file());
    for room in [1_024, 1_025, 1_600, LONGEST_FILE] {
        let mut buffer = vec![0xA5; room];
        assert_eq!(save_bytes(list.bytes(), &mut buffer), Ok(1_024));
        assert_eq!(buffer[..1_024], file);
        assert!(buffer[1_024..].iter().all(|byte| *byte == 0xA5), "bytes past the file were changed");
    }
    let refused = |request_bytes, room, refusal: Refusal| {
        let mut buffer = vec![0xA5; room];
        assert_eq!(save_bytes(&list.bytes()[..request_bytes], &mut buffer), Err(refusal));
        assert!(buffer.iter().all(|byte| *byte == 0xA5), "the buffer was changed");
    };
    for room in [0, 1, 511, 512, 1_023] {
        refused(100, room, Refusal::BufferShort);
    }
    for (request_bytes, room) in [(99, 0), (99, 1_024), (1, 0), (81, LONGEST_FILE)] {
        refused(request_bytes, room, Refusal::Length);
    }
    assert_eq!(save_bytes(&[], &mut []), Ok(0));
}

#[test]
fn loaded() {
    let list = List::load(&file()).unwrap();
    assert_eq!(list.bytes(), after(3).bytes());
    assert_eq!(list.save().unwrap(), file());
    assert!(List::load(&[]).unwrap().is_empty());
    // The first unit alone: the two blocks.
    assert_eq!(List::load(&file()[..512]).unwrap().bytes(), after(0).bytes());
    for length in [1, 511, 513, 1_023] {
        assert_eq!(List::load(&file()[..length]).unwrap_err(), Refusal::WrongSum);
    }
}

/// A file of one unit of blocks, with its sum.
fn blocks(counts: &[[u16; 2]]) -> Vec<u8> {
    let mut bytes = vec![1, 0, counts.len() as u8, 0];
    for [incoming, outgoing] in counts {
        bytes.extend([*incoming, *outgoing, 0, 0].iter().flat_map(|field| field.to_le_bytes()));
    }
    bytes.resize(508, 0);
    let words = bytes.chunks_exact(4).map(|word| u32::from_le_bytes(word.try_into().unwrap()));
    let sum = words.fold(0, u32::wrapping_add);
    bytes.extend(sum.to_le_bytes());
    bytes
}

#[test]
fn refused_files() {
    let refused = |file: &[u8]| List::load(file).unwrap_err();
    assert_eq!(refused(&blocks(&[[2_000, 0]])), Refusal::TooManyPorts);
    let full = [[1_024, 0], [0, 1_024], [1, 1_023]];
    assert_eq!(refused(&blocks(&[&full[..], &[[1, 0]]].concat())), Refusal::NoSpace);
    assert_eq!(refused(&blocks(&[&full[..], &[[1, 0], [2_000, 0]]].concat())), Refusal::NoSpace);
    assert_eq!(refused(&blocks(&[&full[..], &[[2_000, 0], [1, 0]]].concat())), Refusal::TooManyPorts);
    assert_eq!(List::load(&blocks(&[&full[..], &[[0, 0]]].concat())).unwrap().len(), 4);
    let mut damaged = file();
    damaged[512 + 4..512 + 20].rotate_left(8);
    assert_eq!(refused(&damaged), Refusal::WrongLayout);
    damaged[0] = 2;
    assert_eq!(refused(&damaged), Refusal::WrongSum);
}

#[test]
fn room_for_requests() {
    let (list, file) = (after(3), file());
    for room in [100, 101, 1_000, LONGEST_LOAD] {
        let mut buffer = vec![0xA5; room];
        assert_eq!(load_bytes(&file, &mut buffer), Ok(100));
        assert_eq!(&buffer[..100], list.bytes());
        assert!(buffer[100..].iter().all(|byte| *byte == 0xA5), "bytes past the requests were changed");
    }
    let refused = |file: &[u8], room, refusal: Refusal| {
        let mut buffer = vec![0xA5; room];
        assert_eq!(load_bytes(file, &mut buffer), Err(refusal));
        assert!(buffer.iter().all(|byte| *byte == 0xA5), "the buffer was changed");
    };
    for room in [0, 1, 20, 80, 99] {
        refused(&file, room, Refusal::BufferShort);
        // What is wrong with a file is told first.
        refused(&file[..600], room, Refusal::WrongSum);
        refused(&file[512..], room, Refusal::WrongLayout);
        refused(&blocks(&[[1_024, 1]]), room, Refusal::TooManyPorts);
    }
    assert_eq!(load_bytes(&[], &mut []), Ok(0));
}

#[test]
fn a_kit_may_refuse_its_own_save() {
    // Three wires at one output free a block of 3, which the add after them takes; loading adds all blocks first.
    let filled = |rest| {
        let mut list = List::new();
        list.add(0, 1);
        list.add(3, 0);
        for input in 1..=3 {
            list.link(Port(0), Port(input));
        }
        list.add(0, 3);
        list.add(1_024, 0);
        list.add(1_024, 0);
        list.add(rest, 0);
        list
    };
    let accepted = |list: &List| list.run().iter().all(Result::is_ok);
    let most = (0..1_024).rev().find(|rest| accepted(&filled(*rest))).unwrap();
    assert_eq!(List::load(&filled(most).save().unwrap()).unwrap_err(), Refusal::NoSpace);
    let less = (0..most).rev().find(|rest| List::load(&filled(*rest).save().unwrap()).is_ok()).unwrap();
    assert_eq!(most - less, 3);
    assert_eq!(List::load(&filled(less).save().unwrap()).unwrap().save().unwrap(), filled(less).save().unwrap());
}
