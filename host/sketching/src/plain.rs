//! The calls of a sketch over plain lists, written from document 02's words. The newest item is the last of each list.

use crate::pair::Port;

pub type End = (Port, u32);

/// The most adds, blocks, ports of a block, ports of all blocks, and wires.
const ADDS: u64 = 4_294_967_295;
const BLOCKS: usize = 1_024;
const PORTS: u64 = 3_072;
const BLOCK_PORTS: u64 = 1_024;
const WIRES: usize = 3_072;

#[derive(Clone, Debug)]
struct Block {
    name: u32,
    counts: [u32; 2],
}

#[derive(Clone, Debug, Default)]
pub struct Plain {
    /// Whether an input takes one wire only.
    pub one_wire: bool,
    adds: u64,
    blocks: Vec<Block>,
    splits: Vec<(Port, u32)>,
    /// The outgoing end first.
    wires: Vec<(End, End)>,
}

impl Plain {
    pub fn new(one_wire: bool) -> Self {
        Self { one_wire, ..Self::default() }
    }

    fn is_there(&self, port: Port) -> bool {
        let block = self.blocks.iter().find(|block| block.name == port.block);
        block.is_some_and(|block| port.position < block.counts[port.side as usize])
    }

    fn has(&self, name: u32) -> bool {
        self.blocks.iter().any(|block| block.name == name)
    }

    fn subports(&self, port: Port) -> u32 {
        self.splits.iter().find(|split| split.0 == port).map_or(0, |split| split.1)
    }

    fn set_subports(&mut self, port: Port, subports: u32) {
        self.splits.retain(|split| split.0 != port);
        if subports != 0 {
            self.splits.push((port, subports));
        }
    }

    fn ports(&self) -> u64 {
        self.blocks.iter().map(|block| u64::from(block.counts[0]) + u64::from(block.counts[1])).sum()
    }

    pub fn add(&mut self, counts: [u32; 2]) -> Result<u32, u32> {
        let ports = u64::from(counts[0]) + u64::from(counts[1]);
        if BLOCK_PORTS < ports {
            return Err(3);
        }
        if ADDS <= self.adds || BLOCKS <= self.blocks.len() || PORTS < self.ports() + ports {
            return Err(10);
        }
        let name = self.adds as u32;
        self.blocks.push(Block { name, counts });
        self.adds += 1;
        Ok(name)
    }

    pub fn remove(&mut self, name: u32) -> Result<(), u32> {
        if !self.has(name) {
            return Err(4);
        }
        self.blocks.retain(|block| block.name != name);
        self.splits.retain(|split| split.0.block != name);
        self.wires.retain(|(out, into)| out.0.block != name && into.0.block != name);
        Ok(())
    }

    pub fn resize(&mut self, name: u32, counts: [u32; 2]) -> Result<(), u32> {
        let ports = u64::from(counts[0]) + u64::from(counts[1]);
        if BLOCK_PORTS < ports {
            return Err(3);
        }
        let Some(block) = self.blocks.iter().position(|block| block.name == name) else {
            return Err(4);
        };
        let old = self.blocks[block].counts;
        if PORTS < self.ports() + ports - u64::from(old[0]) - u64::from(old[1]) {
            return Err(10);
        }
        self.blocks[block].counts = counts;
        let stays = |port: Port| port.block != name || port.position < counts[port.side as usize];
        self.splits.retain(|split| stays(split.0));
        self.wires.retain(|(out, into)| stays(out.0) && stays(into.0));
        Ok(())
    }

    fn wired(&self, port: Port) -> bool {
        self.wires.iter().any(|(out, into)| out.0 == port || into.0 == port)
    }

    fn taken(&self, x: Port, y: Port) -> bool {
        let taken = |port: Port| port.side == 0 && self.is_there(port) && self.wired(port);
        self.one_wire && (taken(x) || taken(y))
    }

    fn lowest(&self, port: Port) -> u32 {
        let mut used = vec![false; self.wires.len() + 1];
        for (out, into) in &self.wires {
            for end in [out, into] {
                if end.0 == port && (end.1 as usize) < used.len() {
                    used[end.1 as usize] = true;
                }
            }
        }
        used.iter().position(|used| !used).unwrap_or(used.len()) as u32
    }

    fn ready(&mut self, port: Port) -> u32 {
        let offset = self.lowest(port);
        let subports = self.subports(port);
        let then = match (subports, offset) {
            (0, 0) => 0,
            (0, _) => 2,
            _ => subports.max(offset + 1),
        };
        if then != subports {
            self.set_subports(port, then);
        }
        offset
    }

    fn lay(&mut self, x: End, y: End) {
        self.wires.push(if x.0.side == 1 { (x, y) } else { (y, x) });
    }

    pub fn link(&mut self, x: Port, y: Port, clean: bool) -> Result<(End, End), u32> {
        if !self.is_there(x) {
            return Err(7);
        }
        if self.taken(x, y) {
            return Err(18);
        }
        if !self.is_there(y) {
            if !clean {
                self.ready(x);
            }
            return Err(11);
        }
        if x.side == y.side {
            if !clean {
                self.ready(x);
                self.ready(y);
            }
            return Err(12);
        }
        if WIRES <= self.wires.len() {
            return Err(10);
        }
        let (first, second) = ((x, self.ready(x)), (y, self.ready(y)));
        self.lay(first, second);
        Ok((first, second))
    }

    fn lacks(&self, end: End) -> bool {
        let subports = self.subports(end.0);
        subports != 0 && subports <= end.1
    }

    fn read(&self, end: End) -> End {
        (end.0, if self.subports(end.0) == 0 { 0 } else { end.1 })
    }

    fn far(&self, end: End) -> Option<End> {
        let wire = self.wires.iter().rev().find(|(out, into)| *out == end || *into == end)?;
        Some(if wire.0 == end { wire.1 } else { wire.0 })
    }

    pub fn link_ends(&mut self, x: End, y: End) -> Result<(End, End), u32> {
        if x.1 >= 65_535 || y.1 >= 65_535 {
            return Err(2);
        }
        if !self.is_there(x.0) {
            return Err(7);
        }
        if self.lacks(x) || (self.is_there(y.0) && self.lacks(y)) {
            return Err(9);
        }
        if self.taken(x.0, y.0) {
            return Err(18);
        }
        if !self.is_there(y.0) {
            return Err(11);
        }
        if x.0.side == y.0.side {
            return Err(12);
        }
        let (first, second) = (self.read(x), self.read(y));
        if self.far(first).is_some() || self.far(second).is_some() {
            return Err(13);
        }
        if WIRES <= self.wires.len() {
            return Err(10);
        }
        self.lay(first, second);
        Ok((first, second))
    }

    pub fn cut(&mut self, port: Port) -> Result<Option<Port>, u32> {
        if !self.is_there(port) {
            return Err(7);
        }
        let split = self.subports(port) != 0;
        let far = self.far((port, 0)).map(|end| end.0);
        self.wires.retain(|(out, into)| out.0 != port && into.0 != port);
        self.set_subports(port, 0);
        Ok(if split { Some(port) } else { far })
    }

    pub fn end_link(&self, end: End) -> Result<Option<End>, u32> {
        if end.1 >= 65_535 {
            return Err(2);
        }
        if !self.is_there(end.0) {
            return Err(7);
        }
        if self.lacks(end) {
            return Err(9);
        }
        Ok(self.far(self.read(end)))
    }

    pub fn cut_end(&mut self, end: End) -> Result<Option<End>, u32> {
        let far = self.end_link(end)?;
        let read = self.read(end);
        self.wires.retain(|(out, into)| *out != read && *into != read);
        Ok(far)
    }

    pub fn tidy(&mut self, port: Port) -> Result<(), u32> {
        if !self.is_there(port) {
            return Err(7);
        }
        if self.subports(port) != 0 {
            let ends = self.wires.iter().flat_map(|(out, into)| [out, into]).filter(|end| end.0 == port);
            let above = ends.map(|end| end.1 + 1).max().unwrap_or(0);
            self.set_subports(port, if above <= 1 { 0 } else { above });
        }
        Ok(())
    }

    pub fn fan_out(&self, port: Port) -> Result<usize, u32> {
        if !self.is_there(port) {
            return Err(7);
        }
        Ok(self.wires.iter().filter(|(out, into)| out.0 == port || into.0 == port).count())
    }

    pub fn block_fan_out(&self, name: u32) -> Result<usize, u32> {
        if !self.has(name) {
            return Err(4);
        }
        Ok(self.wires.iter().filter(|(out, _)| out.0.block == name).count())
    }

    pub fn counts(&self) -> [usize; 3] {
        [self.blocks.len(), self.ports() as usize, self.wires.len()]
    }

    /// All wires, the outgoing end first, sorted.
    pub fn wires(&self) -> Vec<(End, End)> {
        let mut wires = self.wires.clone();
        wires.sort_unstable();
        wires
    }
}
