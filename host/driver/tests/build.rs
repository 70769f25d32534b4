//! Wirings built as a file has them: the same calls, graphs and refusals as call by call.

use driver::{Call, Oracle, Random, Release, NODE_SLOTS};

/// The calls made one by one, up to the first refusal.
fn one_by_one(release: Release, blocks: &[[u16; 2]], wires: &[[u16; 4]]) -> Result<(Vec<Call>, Oracle), u32> {
    let mut oracle = Oracle::made_for(release);
    let mut calls = Vec::new();
    let mut first = vec![0];
    let accepted = |oracle: &mut Oracle, call| match oracle.ask(call).expected().expect("no resize")[0] {
        0 => Ok(()),
        refusal => Err(refusal),
    };
    for [incoming, outgoing] in blocks.iter().map(|counts| counts.map(u32::from)) {
        let call = Call::Add { incoming, outgoing };
        accepted(&mut oracle, call)?;
        calls.push(call);
        first.push(first[first.len() - 1] + incoming + outgoing);
    }
    for [source, output, target, input] in wires.iter().map(|wire| wire.map(u32::from)) {
        let inputs = u32::from(blocks[source as usize][0]);
        let call = Call::Link { a: first[source as usize] + inputs + output, b: first[target as usize] + input };
        accepted(&mut oracle, call)?;
        calls.push(call);
    }
    Ok((calls, oracle))
}

fn built(blocks: &[[u16; 2]], wires: &[[u16; 4]]) -> Result<usize, u32> {
    built_for(Release::One, blocks, wires)
}

/// The number of calls, or of the refusal; both ways must agree.
fn built_for(release: Release, blocks: &[[u16; 2]], wires: &[[u16; 4]]) -> Result<usize, u32> {
    match (Oracle::build(release, blocks, wires), one_by_one(release, blocks, wires)) {
        (Ok((calls, oracle)), Ok((others, other))) => {
            assert_eq!(calls, others);
            assert!(oracle.graph() == other.graph() && oracle.tables() == other.tables());
            Ok(calls.len())
        }
        (Err(refusal), Err(other)) => {
            assert_eq!(refusal, other, "{blocks:?} {wires:?}");
            Err(refusal)
        }
        (one, other) => panic!("{:?} at once, {:?} one by one", one.map(|_| ()), other.map(|_| ())),
    }
}

#[test]
fn at_the_limits() {
    assert_eq!(built(&[], &[]), Ok(0));
    assert_eq!(built(&[[2_000, 0]], &[]), Err(3));
    assert_eq!(built(&[[1_024, 0], [0, 1_024], [1, 1_023], [0, 0]], &[]), Ok(4));
    assert_eq!(built(&[[1_024, 0], [0, 1_024], [1, 1_023], [0, 1]], &[]), Err(10));
    // Too wide and past the table.
    assert_eq!(built(&[[1_024, 0], [0, 1_024], [1, 1_023], [0, 1_025]], &[]), Err(3));
    assert_eq!(built(&[[1_024, 0], [0, 1_024], [1, 1_023], [0, 1], [0, 1_025]], &[]), Err(10));
    assert_eq!(built(&[[0, 0]; NODE_SLOTS], &[]), Ok(1_024));
    assert_eq!(built(&[[0, 0]; NODE_SLOTS + 1], &[]), Err(10));
    assert_eq!(built(&[[1, 1]; NODE_SLOTS], &[[0, 0, 1, 0]]), Ok(1_025));
    // A second wire at a port takes a node, and none is left.
    assert_eq!(built(&[[1, 1]; NODE_SLOTS], &[[0, 0, 1, 0], [0, 0, 2, 0]]), Err(10));
}

#[test]
fn wires_at_one_output() {
    for count in (1..700).step_by(7).chain([510, 511, 512]) {
        let wires: Vec<[u16; 4]> = (0..count).map(|input| [0, 0, 1, input]).collect();
        assert_eq!(built(&[[0, 1], [count, 0]], &wires).is_ok(), count < 512, "{count} wires");
    }
}

/// P21: 18 where a link would give it, and 10 only at a wire before.
#[test]
fn second_wires_into_an_input() {
    let wires = [[0, 0, 1, 0], [0, 0, 1, 1], [0, 1, 1, 0]];
    let with = |last| [[0, 2], [2, 0], [1_024, 0], [1_024, 0], [last, 0]];
    for (blocks, one, two) in [(&with(0)[..2], Ok(5), 18), (&with(1_017), Err(10), 18), (&with(1_018), Err(10), 10)] {
        assert_eq!(built_for(Release::One, blocks, &wires), one);
        assert_eq!(built_for(Release::Two, blocks, &wires), Err(two));
        assert!(built_for(Release::Two, &blocks[..2], &wires[..2]).is_ok());
    }
}

#[test]
fn at_random() {
    let mut random = Random::new(1);
    let mut refused = [0; 2];
    let mut taken = 0;
    for _ in 0..400 {
        let most = [3, 30, 600][random.below(3) as usize];
        let ports = [3, 9, 400][random.below(3) as usize];
        let mut count = |bound: u32| random.below(bound) as u16;
        let blocks: Vec<[u16; 2]> = (0..1 + count(most)).map(|_| [1 + count(ports), 1 + count(ports)]).collect();
        let wires: Vec<[u16; 4]> = (0..count(200))
            .map(|_| {
                let [source, target] = [(); 2].map(|()| count(blocks.len() as u32));
                let [output, input] =
                    [blocks[source as usize][1], blocks[target as usize][0]].map(u32::from).map(&mut count);
                [source, output, target, input]
            })
            .collect();
        refused[usize::from(built(&blocks, &wires).is_err())] += 1;
        taken += u32::from(built_for(Release::Two, &blocks, &wires) == Err(18));
    }
    assert!(refused.iter().all(|count| *count > 50) && taken > 50, "{refused:?}, {taken}");
}
