//! The calls and their records.

/// An answer record: 0 or the number of the refusal, then values, the rest 0.
pub type Answer = [u32; 5];

/// A port with an offset, as a call names it.
#[derive(Clone, Copy, Debug, PartialEq, Eq, PartialOrd, Ord, Hash)]
pub struct End {
    pub port: u32,
    pub offset: u32,
}

/// A call on the graph.
#[derive(Clone, Copy, Debug, PartialEq, Eq, Hash)]
pub enum Call {
    Add { incoming: u32, outgoing: u32 },
    Remove { node: u32 },
    Resize { node: u32, incoming: u32, outgoing: u32 },
    Link { a: u32, b: u32 },
    Unlink { port: u32 },
    LinkSubports { a: End, b: End },
    UnlinkSubport { end: End },
    SubportLink { end: End },
    Counts,
}

impl Call {
    /// Reads a request record. `None`: its code is unknown or an unused word is not 0 (refusal 2).
    pub fn from_record(record: [u32; 5]) -> Option<Call> {
        let [code, a, b, c, d] = record;
        let call = match code {
            1 => Call::Add { incoming: a, outgoing: b },
            2 => Call::Remove { node: a },
            3 => Call::Resize { node: a, incoming: b, outgoing: c },
            4 => Call::Link { a, b },
            5 => Call::Unlink { port: a },
            6 => Call::LinkSubports { a: End { port: a, offset: b }, b: End { port: c, offset: d } },
            7 => Call::UnlinkSubport { end: End { port: a, offset: b } },
            8 => Call::SubportLink { end: End { port: a, offset: b } },
            9 => Call::Counts,
            _ => return None,
        };
        // The words that the call doesn't use come back as 0.
        (call.to_record() == record).then_some(call)
    }

    /// The request record of the call.
    pub fn to_record(self) -> [u32; 5] {
        match self {
            Call::Add { incoming, outgoing } => [1, incoming, outgoing, 0, 0],
            Call::Remove { node } => [2, node, 0, 0, 0],
            Call::Resize { node, incoming, outgoing } => [3, node, incoming, outgoing, 0],
            Call::Link { a, b } => [4, a, b, 0, 0],
            Call::Unlink { port } => [5, port, 0, 0, 0],
            Call::LinkSubports { a, b } => [6, a.port, a.offset, b.port, b.offset],
            Call::UnlinkSubport { end } => [7, end.port, end.offset, 0, 0],
            Call::SubportLink { end } => [8, end.port, end.offset, 0, 0],
            Call::Counts => [9, 0, 0, 0, 0],
        }
    }
}
