//! A list of request records, run from an empty graph.

use crate::{Answer, Asked, Oracle};

/// Bytes of a record.
const RECORD: usize = 20;

fn records(bytes: &[u8]) -> impl Iterator<Item = [u32; 5]> + '_ {
    bytes.chunks_exact(RECORD).map(|record| {
        let mut words = record.chunks_exact(4).map(|word| u32::from_le_bytes([word[0], word[1], word[2], word[3]]));
        std::array::from_fn(|_| words.next().expect("five words a record"))
    })
}

/// Runs a list of requests from an empty graph, for an answer buffer of so many bytes. `Err(1)`: refusal 1. The run goes
/// on past a refused call; it ends with the case set apart (R9), where a comparison ends.
pub fn run_list(requests: &[u8], answer_bytes: usize) -> Result<Vec<Asked>, u32> {
    if requests.len() % RECORD != 0 || requests.len() != answer_bytes {
        return Err(1);
    }
    let mut oracle = Oracle::new();
    let mut run = Vec::new();
    for record in records(requests) {
        let asked = oracle.ask_record(record);
        run.push(asked);
        if asked.expected().is_none() {
            break;
        }
    }
    Ok(run)
}

/// The bytes of records, as [`run_list`] reads them.
pub fn to_bytes(records: &[Answer]) -> Vec<u8> {
    records.iter().flatten().flat_map(|word| word.to_le_bytes()).collect()
}
