//! The typed list of the safe crate says what the records say.

use differential::history::{History, Record};
use driver::{Answer, Call, End, Shape};
use kanhtrev::{Answer as Typed, Direction, List, Node, Port, Refusal, Subport};

fn subport(end: End) -> Option<Subport> {
    Some(Port(end.port).at(end.offset.try_into().ok()?))
}

/// Adds the call to a list, if its types can say it.
fn push(list: &mut List, record: Record) -> Option<usize> {
    Some(match Call::from_record(record)? {
        Call::Add { incoming, outgoing } => list.add(incoming, outgoing),
        Call::Remove { node } => list.remove(Node(node)),
        Call::Resize { node, incoming, outgoing } => list.resize(Node(node), incoming, outgoing),
        Call::Link { a, b } => list.link(Port(a), Port(b)),
        Call::Unlink { port } => list.unlink(Port(port)),
        Call::LinkSubports { a, b } => list.link_subports(subport(a)?, subport(b)?),
        Call::UnlinkSubport { end } => list.unlink_subport(subport(end)?),
        Call::SubportLink { end } => list.subport_link(subport(end)?),
        Call::Counts => list.counts(),
    })
}

fn words(answer: Result<Typed, Refusal>) -> Answer {
    let end = |end: Subport| [end.port.0, end.offset.into()];
    match answer {
        Ok(Typed::Added { node, first_port }) => [0, node.0, first_port.map_or(0, |port| port.0), 0, 0],
        Ok(Typed::Removed) => [0; 5],
        Ok(Typed::Resized { events }) => [0, events, 0, 0, 0],
        Ok(Typed::Linked { a, b }) => [0, end(a)[0], end(a)[1], end(b)[0], end(b)[1]],
        Ok(Typed::End(far)) => far.map_or([0; 5], |far| [0, 1, end(far)[0], end(far)[1], 0]),
        Ok(Typed::Counts(counts)) => [0, counts.nodes, counts.ports, counts.links, 0],
        Err(refusal) => match refusal {
            Refusal::PortNotLive(port)
            | Refusal::PortHidden(port)
            | Refusal::NoSuchOffset(port)
            | Refusal::SecondPortNotLive(port)
            | Refusal::AlreadyLinked(port) => [refusal.number(), port.0, 0, 0, 0],
            Refusal::SameDirection { a, b, direction } => {
                [12, a.0, b.0, u32::from(direction == Direction::Outgoing), 0]
            }
            _ => [refusal.number(), 0, 0, 0, 0],
        },
    }
}

#[test]
fn typed_answers_are_those_of_the_records() {
    for seed in 0..20 {
        let drawn = History::draw(&Shape::ALL[seed as usize % Shape::ALL.len()], seed, 400);
        let mut list = List::new();
        let mut said = Vec::new();
        for step in &drawn.steps {
            if push(&mut list, step.record).is_some() {
                said.push(step.record);
            }
        }
        let expected: Vec<Answer> = History::of(&said).steps.iter().map(|step| step.expected).collect();
        let answers: Vec<Answer> = list.run().into_iter().map(words).collect();
        assert_eq!(answers, expected, "seed {seed}");
    }
}
