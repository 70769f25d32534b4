//! Both programs on one history, and what each must say of a call.

use std::collections::{BTreeMap, BTreeSet};

use crate::plain::{End, Plain};
use crate::program::{Program, Reply};

/// A port of a sketch: side 0 incoming, 1 outgoing.
#[derive(Clone, Copy, Debug, PartialEq, Eq, PartialOrd, Ord)]
pub struct Port {
    pub block: u32,
    pub side: u32,
    pub position: u32,
}

/// A call by places.
#[derive(Clone, Debug)]
pub enum Say {
    Add([u32; 2]),
    Remove(u32),
    Resize(u32, [u32; 2]),
    Link(Port, Port),
    LinkClean(Port, Port),
    LinkEnds(End, End),
    Sheet(Vec<(Port, Port)>),
    Cut(Port),
    CutEnd(End),
    Ask(End),
    Tidy(Port),
    FanOut(Port),
    BlockFanOut(u32),
    Counts,
}

/// A block of the kit: its node, and the numbers of its ports by side.
#[derive(Clone, Debug)]
struct Held {
    node: u32,
    ports: [Vec<u32>; 2],
}

/// What happened to a call.
#[derive(Clone, Copy, Debug, PartialEq, Eq)]
pub enum Outcome {
    Same,
    /// The kit refused for lack of space: the history ends here.
    NoSpace,
}

/// A number that is never live.
const DEAD: u32 = 4_000_000_000;

pub struct Pair {
    sketch: Program,
    wiring: Program,
    plain: Plain,
    blocks: BTreeMap<u32, Held>,
    pub calls: u64,
    pub listings: u64,
    /// How often each refusal was given by both.
    pub refusals: BTreeMap<u32, u64>,
}

fn text(port: Port) -> String {
    format!("{} {} {}", port.block, port.side, port.position)
}

fn end_text(end: End) -> String {
    format!("{} {}", text(end.0), end.1)
}

fn end_of(numbers: &[u32]) -> Option<End> {
    match *numbers {
        [block, side, position, offset] => Some((Port { block, side, position }, offset)),
        _ => None,
    }
}

fn expect<T: PartialEq + std::fmt::Debug>(what: &str, sketch: T, other: T) -> Result<(), String> {
    if sketch == other {
        return Ok(());
    }
    Err(format!("{what}: the sketch says {sketch:?}, expected {other:?}"))
}

impl Pair {
    pub fn new(sketch: Program, wiring: Program) -> Self {
        let (blocks, refusals) = (BTreeMap::new(), BTreeMap::new());
        Self { sketch, wiring, plain: Plain::new(false), blocks, calls: 0, listings: 0, refusals }
    }

    /// An empty wiring and an empty sketch of a release.
    pub fn begin(&mut self, release: u32) -> Result<(), String> {
        self.sketch.ask(&format!("new {release}"))?;
        self.wiring.ask(&format!("new {release}"))?;
        self.plain = Plain::new(release == 2);
        self.blocks.clear();
        Ok(())
    }

    pub fn names(&self) -> Vec<u32> {
        self.blocks.keys().copied().collect()
    }

    pub fn counts(&self, name: u32) -> [u32; 2] {
        self.blocks.get(&name).map_or([0, 0], |block| [block.ports[0].len() as u32, block.ports[1].len() as u32])
    }

    fn node(&self, name: u32) -> u32 {
        self.blocks.get(&name).map_or(DEAD, |block| block.node)
    }

    fn number(&self, port: Port) -> u32 {
        let block = self.blocks.get(&port.block);
        block.and_then(|block| block.ports[port.side as usize].get(port.position as usize)).copied().unwrap_or(DEAD)
    }

    fn name_of(&self, node: u32) -> Option<u32> {
        self.blocks.iter().find(|(_, block)| block.node == node).map(|(name, _)| *name)
    }

    fn port_of(&self, number: u32) -> Option<Port> {
        self.blocks.iter().find_map(|(&name, held)| {
            (0..2).find_map(|side| {
                let place = held.ports[side as usize].iter().position(|port| *port == number)?;
                Some(Port { block: name, side, position: place as u32 })
            })
        })
    }

    /// The ports of a block of the kit, by side, as it lists them.
    fn ports_of(&mut self, node: u32) -> Result<[Vec<u32>; 2], String> {
        let mut ports = [Vec::new(), Vec::new()];
        for (side, ports) in ports.iter_mut().enumerate() {
            let listed = self.wiring.ask(&format!("subports {node} {side}"))?;
            *ports = listed.items.iter().map(|item| item[0]).collect();
            ports.dedup();
        }
        Ok(ports)
    }

    fn both(&mut self, sketch: &str, wiring: &str) -> Result<(Reply, Reply), String> {
        self.calls += 1;
        Ok((self.sketch.ask(sketch)?, self.wiring.ask(wiring)?))
    }

    fn kit_link(&self, said: &Result<Vec<u32>, u32>) -> Option<Result<(End, End), u32>> {
        match said {
            Err(number) => Some(Err(*number)),
            Ok(numbers) => match **numbers {
                [a, o, b, r] => Some(Ok(((self.port_of(a)?, o), (self.port_of(b)?, r)))),
                _ => None,
            },
        }
    }

    fn sketch_link(said: &Result<Vec<u32>, u32>) -> Option<Result<(End, End), u32>> {
        match said {
            Err(number) => Some(Err(*number)),
            Ok(numbers) if numbers.len() == 8 => Some(Ok((end_of(&numbers[..4])?, end_of(&numbers[4..])?))),
            Ok(_) => None,
        }
    }

    /// The place that the kit gives beside a far end: node, side and position, with the offset before them.
    fn kit_found(&self, numbers: &[u32]) -> Option<Option<End>> {
        match *numbers {
            [0, 0, 0] => Some(None),
            [1, _, offset, node, side, position] => {
                Some(Some((Port { block: self.name_of(node)?, side, position }, offset)))
            }
            _ => None,
        }
    }

    fn tell(&mut self, refused: Option<u32>) {
        if let Some(number) = refused {
            *self.refusals.entry(number).or_default() += 1;
        }
    }

    /// A call that gives no value: both accept it, or refuse it alike.
    fn done(&mut self, sketch: String, wiring: String, plain: Result<(), u32>) -> Result<Outcome, String> {
        let (a, b) = self.both(&sketch, &wiring)?;
        expect(&sketch, a.said.clone().map(|_| ()), plain)?;
        if b.said == Err(10) && a.said != Err(10) {
            return Ok(Outcome::NoSpace);
        }
        expect(&sketch, a.said.clone().map(|_| ()), b.said.map(|_| ()))?;
        self.tell(a.said.err());
        Ok(Outcome::Same)
    }

    fn linked(&mut self, sketch: String, wiring: String, plain: Result<(End, End), u32>) -> Result<Outcome, String> {
        let (a, b) = self.both(&sketch, &wiring)?;
        let said = Self::sketch_link(&a.said).ok_or(format!("{sketch}: {a:?}"))?;
        expect(&sketch, said, plain)?;
        if b.said == Err(10) && said != Err(10) {
            return Ok(Outcome::NoSpace);
        }
        expect(&sketch, said, self.kit_link(&b.said).ok_or(format!("{wiring}: {b:?}"))?)?;
        self.tell(said.err());
        Ok(Outcome::Same)
    }

    fn found(&mut self, sketch: String, wiring: String, plain: Result<Option<End>, u32>) -> Result<Outcome, String> {
        let (a, b) = self.both(&sketch, &wiring)?;
        let said = match &a.said {
            Err(number) => Err(*number),
            Ok(numbers) if *numbers == [0] => Ok(None),
            Ok(numbers) => Ok(end_of(&numbers[1..])),
        };
        expect(&sketch, said, plain)?;
        let kit = match &b.said {
            Err(number) => Err(*number),
            Ok(numbers) => Ok(self.kit_found(numbers).ok_or(format!("{wiring}: {b:?}"))?),
        };
        expect(&sketch, said, kit)?;
        self.tell(said.err());
        Ok(Outcome::Same)
    }

    fn counted(&mut self, sketch: String, wiring: String, plain: Result<Vec<u32>, u32>) -> Result<Outcome, String> {
        let (a, b) = self.both(&sketch, &wiring)?;
        expect(&sketch, a.said.clone(), plain)?;
        expect(&sketch, a.said.clone(), b.said)?;
        self.tell(a.said.err());
        Ok(Outcome::Same)
    }

    /// Gives a call to both programs and to the plain sketch, and compares what they say.
    pub fn say(&mut self, say: &Say) -> Result<Outcome, String> {
        match say {
            Say::Add(counts) => self.add(*counts),
            Say::Remove(name) => {
                let (sketch, wiring) = (format!("remove {name}"), format!("remove {}", self.node(*name)));
                let plain = self.plain.remove(*name);
                let outcome = self.done(sketch, wiring, plain)?;
                self.blocks.remove(name);
                Ok(outcome)
            }
            Say::Resize(name, [i, o]) => {
                let node = self.node(*name);
                let plain = self.plain.resize(*name, [*i, *o]);
                let outcome = self.done(format!("resize {name} {i} {o}"), format!("resize {node} {i} {o}"), plain)?;
                if node != DEAD && plain.is_ok() && outcome == Outcome::Same {
                    let ports = self.ports_of(node)?;
                    self.blocks.insert(*name, Held { node, ports });
                }
                Ok(outcome)
            }
            Say::Link(x, y) => {
                let plain = self.plain.link(*x, *y, false);
                let wiring = format!("link {} {}", self.number(*x), self.number(*y));
                self.linked(format!("link {} {}", text(*x), text(*y)), wiring, plain)
            }
            Say::LinkClean(x, y) => {
                let plain = self.plain.link(*x, *y, true);
                let wiring = format!("linkclean {} {}", self.number(*x), self.number(*y));
                self.linked(format!("linkclean {} {}", text(*x), text(*y)), wiring, plain)
            }
            Say::LinkEnds(x, y) => {
                let plain = self.plain.link_ends(*x, *y);
                let wiring = format!("linksub {} {} {} {}", self.number(x.0), x.1, self.number(y.0), y.1);
                self.linked(format!("linksub {} {}", end_text(*x), end_text(*y)), wiring, plain)
            }
            Say::Sheet(pairs) => self.sheet(pairs),
            Say::Cut(port) => self.cut(*port),
            Say::CutEnd(end) => {
                let plain = self.plain.cut_end(*end);
                let wiring = format!("unlinksub {} {}", self.number(end.0), end.1);
                self.found(format!("unlinksub {}", end_text(*end)), wiring, plain)
            }
            Say::Ask(end) => {
                let plain = self.plain.end_link(*end);
                let wiring = format!("sublink {} {}", self.number(end.0), end.1);
                self.found(format!("sublink {}", end_text(*end)), wiring, plain)
            }
            Say::Tidy(port) => {
                let plain = self.plain.tidy(*port);
                let wiring = format!("tidy {}", self.number(*port));
                self.done(format!("tidy {}", text(*port)), wiring, plain)
            }
            Say::FanOut(port) => {
                let plain = self.plain.fan_out(*port).map(|count| vec![count as u32]);
                let wiring = format!("fanout {}", self.number(*port));
                self.counted(format!("fanout {}", text(*port)), wiring, plain)
            }
            Say::BlockFanOut(name) => {
                let plain = self.plain.block_fan_out(*name).map(|count| vec![count as u32]);
                let wiring = format!("blockfanout {}", self.node(*name));
                self.counted(format!("blockfanout {name}"), wiring, plain)
            }
            Say::Counts => {
                let plain = Ok(self.plain.counts().map(|count| count as u32).to_vec());
                self.counted("counts".to_string(), "counts".to_string(), plain)
            }
        }
    }

    fn add(&mut self, [i, o]: [u32; 2]) -> Result<Outcome, String> {
        let line = format!("add {i} {o}");
        let (a, b) = self.both(&line, &line)?;
        if b.said == Err(10) && a.said != Err(10) {
            return Ok(Outcome::NoSpace);
        }
        expect(&line, a.said.clone().map(|name| name[0]), self.plain.add([i, o]))?;
        expect(&line, a.said.clone().map(|_| ()), b.said.clone().map(|_| ()))?;
        self.tell(a.said.clone().err());
        if let (Ok(name), Ok(numbers)) = (a.said, b.said) {
            let (node, first) = (numbers[0], numbers[1]);
            let ports = [(first..first + i).collect(), (first + i..first + i + o).collect()];
            self.blocks.insert(name[0], Held { node, ports });
        }
        Ok(Outcome::Same)
    }

    /// The whole-port cut: the place alone is compared, and not the offset.
    fn cut(&mut self, port: Port) -> Result<Outcome, String> {
        let plain = self.plain.cut(port);
        let (sketch, wiring) = (format!("unlink {}", text(port)), format!("unlink {}", self.number(port)));
        let (a, b) = self.both(&sketch, &wiring)?;
        let said = match &a.said {
            Err(number) => Err(*number),
            Ok(numbers) => match **numbers {
                [0] => Ok(None),
                [1, block, side, position] => Ok(Some(Port { block, side, position })),
                _ => return Err(format!("{sketch}: {a:?}")),
            },
        };
        expect(&sketch, said, plain)?;
        let kit = match &b.said {
            Err(number) => Err(*number),
            Ok(numbers) => Ok(self.kit_found(numbers).ok_or(format!("{wiring}: {b:?}"))?.map(|end| end.0)),
        };
        expect(&sketch, said, kit)?;
        self.tell(said.err());
        Ok(Outcome::Same)
    }

    fn sheet(&mut self, pairs: &[(Port, Port)]) -> Result<Outcome, String> {
        let sketch: String = pairs.iter().map(|(x, y)| format!(" {} {}", text(*x), text(*y))).collect();
        let wiring: String = pairs.iter().map(|(x, y)| format!(" {} {}", self.number(*x), self.number(*y))).collect();
        let (a, b) = self.both(&format!("sheet{sketch}"), &format!("sheet{wiring}"))?;
        expect("sheet", a.said.clone(), b.said)?;
        if 64 < pairs.len() {
            expect("sheet", a.said.clone(), Err(14))?;
            self.tell(Some(14));
            return Ok(Outcome::Same);
        }
        expect("sheet", a.entries.len(), pairs.len())?;
        for (k, (x, y)) in pairs.iter().enumerate() {
            let said = Self::sketch_link(&a.entries[k]).ok_or(format!("sheet: {:?}", a.entries[k]))?;
            expect("sheet", said, self.plain.link(*x, *y, false))?;
            if b.entries[k] == Err(10) && said != Err(10) {
                return Ok(Outcome::NoSpace);
            }
            let kit = self.kit_link(&b.entries[k]).ok_or(format!("sheet: {:?}", b.entries[k]))?;
            expect("sheet", said, kit)?;
            self.tell(said.err());
        }
        Ok(Outcome::Same)
    }

    fn sketch_wires(&mut self, line: &str) -> Result<Vec<(End, End)>, String> {
        self.listings += 1;
        let listed = self.sketch.ask(line)?;
        expect(line, listed.said.clone(), Ok(vec![listed.items.len() as u32]))?;
        let wire = |item: &Vec<u32>| Some((end_of(item.get(..4)?)?, end_of(item.get(4..)?)?));
        let mut wires =
            listed.items.iter().map(wire).collect::<Option<Vec<_>>>().ok_or(format!("{line}: {listed:?}"))?;
        wires.sort_unstable();
        Ok(wires)
    }

    fn kit_wires(&mut self, line: &str) -> Result<Vec<(End, End)>, String> {
        let listed = self.wiring.ask(line)?;
        let wire = |item: &Vec<u32>| Some(((self.port_of(item[0])?, item[1]), (self.port_of(item[2])?, item[3])));
        let mut wires =
            listed.items.iter().map(wire).collect::<Option<Vec<_>>>().ok_or(format!("{line}: {listed:?}"))?;
        wires.sort_unstable();
        Ok(wires)
    }

    fn names_listed(&mut self, sketch: &str, wiring: &str) -> Result<(), String> {
        self.listings += 1;
        let mut names: Vec<u32> = self.sketch.ask(sketch)?.items.iter().map(|item| item[0]).collect();
        let listed = self.wiring.ask(wiring)?;
        let named = listed.items.iter().map(|item| self.name_of(item[0])).collect::<Option<Vec<_>>>();
        let mut kit = named.ok_or(format!("{wiring}: {listed:?}"))?;
        names.sort_unstable();
        kit.sort_unstable();
        expect(sketch, names, kit)
    }

    /// Compares all wires, blocks and subports as sets, each item once.
    pub fn compare_all(&mut self) -> Result<(), String> {
        let wires = self.sketch_wires("wires")?;
        expect("wires", wires.iter().collect::<BTreeSet<_>>().len(), wires.len())?;
        expect("wires", wires.clone(), self.plain.wires())?;
        expect("wires", wires, self.kit_wires("wires")?)?;
        self.names_listed("blocks", "blocks")?;
        for name in self.names() {
            let node = self.node(name);
            for side in 0..3 {
                let line = format!("subports {name} {side}");
                self.listings += 1;
                let listed = self.sketch.ask(&line)?;
                let mut ends = listed.items.iter().filter_map(|item| end_of(item)).collect::<Vec<_>>();
                let listed = self.wiring.ask(&format!("subports {node} {side}"))?;
                let end = |item: &Vec<u32>| Some((self.port_of(item[0])?, item[1]));
                let mut kit = listed.items.iter().filter_map(end).collect::<Vec<_>>();
                ends.sort_unstable();
                kit.sort_unstable();
                expect(&line, ends, kit)?;
            }
        }
        Ok(())
    }

    /// Compares every walk that names a block or a port.
    pub fn compare_walks(&mut self) -> Result<(), String> {
        let names = self.names();
        for &name in &names {
            let node = self.node(name);
            for side in 0..3 {
                let wires = self.sketch_wires(&format!("nodelinks {name} {side}"))?;
                expect("nodelinks", wires, self.kit_wires(&format!("nodelinks {node} {side} 0 0"))?)?;
                for flag in 0..2 {
                    let line = format!("neighbours {name} {side} {flag}");
                    self.names_listed(&line, &format!("neighbours {node} {side} {flag}"))?;
                }
            }
            for &other in &names {
                let wires = self.sketch_wires(&format!("connections {name} {other}"))?;
                let far = self.node(other);
                expect("connections", wires, self.kit_wires(&format!("connections {node} {far}"))?)?;
            }
            for side in 0..2 {
                for position in 0..self.counts(name)[side as usize] {
                    let port = Port { block: name, side, position };
                    let number = self.number(port);
                    let wires = self.sketch_wires(&format!("links {}", text(port)))?;
                    expect("links", wires.clone(), self.kit_wires(&format!("links {number}"))?)?;
                    expect("back", self.sketch_wires(&format!("back {}", text(port)))?, wires)?;
                }
            }
        }
        Ok(())
    }
}
