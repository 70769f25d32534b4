//! Runs a history through the port and compares every answer.

use driver::{to_bytes, Answer};

use crate::history::{By, History, Record};

/// The port's entry: request bytes, answer bytes, and the number that it returns.
pub type Entry<'a> = dyn Fn(&[u8], &mut [u8]) -> u32 + 'a;

/// The entry that is linked.
pub fn run_records(requests: &[u8], answers: &mut [u8]) -> u32 {
    kanhtrev::run_bytes(requests, answers).map_or_else(|refusal| refusal.number(), |()| 0)
}

/// What the answer buffer, and bytes on both sides of it, hold before a run.
const UNTOUCHED: u8 = 0xA5;
const MARGIN: usize = 64;

/// Lends bytes, and a buffer of so many, to an entry; gives what it returns and the buffer. The bytes around it and those
/// lent must be as before.
pub fn lent<T>(bytes: &[u8], room: usize, entry: impl FnOnce(&[u8], &mut [u8]) -> T) -> Result<(T, Vec<u8>), String> {
    let lent = bytes.to_vec();
    let mut buffer = vec![UNTOUCHED; MARGIN + room + MARGIN];
    let returned = entry(&lent, &mut buffer[MARGIN..MARGIN + room]);
    let within = buffer[MARGIN..MARGIN + room].to_vec();
    buffer.drain(MARGIN..MARGIN + room);
    if lent != bytes || !untouched(&buffer) {
        return Err("bytes outside the buffer were changed".into());
    }
    Ok((returned, within))
}

/// Runs bytes, with an answer buffer of so many; gives the number returned and the buffer.
pub fn run(entry: &Entry, requests: &[u8], answer_bytes: usize) -> Result<(u32, Vec<u8>), String> {
    lent(requests, answer_bytes, entry)
}

/// An entry that writes bytes to a buffer: what it is given, the buffer, and how many it wrote or the number of the refusal.
pub type Writes<'a> = dyn Fn(&[u8], &mut [u8]) -> Result<usize, u32> + 'a;

/// Lends bytes, and a buffer of so many, to such an entry. It must write what is expected, or refuse by that number, or by 15 if
/// the buffer is too short; what it doesn't write must be as before.
pub fn write(entry: &Writes, bytes: &[u8], room: usize, expected: Result<&[u8], u32>) -> Result<(), String> {
    let expected = expected.and_then(|expected| if room < expected.len() { Err(15) } else { Ok(expected) });
    let at = || format!("a buffer of {room} bytes");
    let (answer, buffer) = lent(bytes, room, entry).map_err(|text| format!("{}: {text}", at()))?;
    let must = expected.map(<[u8]>::len);
    if answer != must {
        return Err(format!("{}: must be {must:?}, and is {answer:?}", at()));
    }
    let expected = expected.unwrap_or_default();
    let (written, rest) = buffer.split_at(expected.len());
    if let Some(place) = written.iter().zip(expected).position(|(ours, theirs)| ours != theirs) {
        return Err(format!("{}: byte {place} must be {}, and is {}", at(), expected[place], written[place]));
    }
    match untouched(rest) {
        true => Ok(()),
        false => Err(format!("{}: bytes that are not written were changed", at())),
    }
}

/// Whether bytes are as before a run.
pub fn untouched(bytes: &[u8]) -> bool {
    bytes.iter().all(|byte| *byte == UNTOUCHED)
}

/// The first call that is answered otherwise than it must be, with the port's answer.
fn first_difference(entry: &Entry, history: &History) -> Result<Option<(usize, Answer)>, String> {
    let requests = to_bytes(&history.records(history.steps.len()));
    let (returned, answers) = run(entry, &requests, requests.len())?;
    if returned != 0 {
        return Err(format!("the list is refused: {returned}"));
    }
    let word = |bytes: &[u8]| u32::from_le_bytes(bytes.try_into().expect("four bytes a word"));
    let ours =
        answers.chunks_exact(20).map(|answer| std::array::from_fn(|place| word(&answer[4 * place..4 * place + 4])));
    let mut pairs = history.steps.iter().zip(ours).enumerate();
    Ok(pairs.find_map(|(place, (step, ours))| (step.expected != ours).then_some((place, ours))))
}

/// Compares a history; a difference is told with the fewest calls found that show it.
pub fn compare(entry: &Entry, history: &History) -> Result<(), String> {
    let differs = |records: &[Record]| !matches!(first_difference(entry, &History::of(records)), Ok(None));
    let calls = match first_difference(entry, history) {
        Ok(None) => return Ok(()),
        Ok(Some((place, _))) => place + 1,
        Err(_) => history.steps.len(),
    };
    let fewest = History::of(&fewest(history.records(calls), differs));
    let mut text = format!("after {calls} calls of the list; the fewest calls that show it:\n");
    let difference = first_difference(entry, &fewest);
    for (place, step) in fewest.steps.iter().enumerate() {
        text += &format!("  {:?}: {:?}", step.record, step.expected);
        match difference {
            Ok(Some((at, ours))) if at == place => {
                text += &format!(" {}, and the port answers {ours:?}", says(step.by))
            }
            _ => {}
        }
        text += "\n";
    }
    if let Err(message) = difference {
        text += &message;
    }
    Err(text)
}

fn says(by: By) -> &'static str {
    match by {
        By::Rust => "by the Rust",
        _ => "by 01 and the Rust's graph",
    }
}

/// Leaves out items, many at once at first, while the rest still differs.
pub fn fewest<T: Clone>(mut items: Vec<T>, differs: impl Fn(&[T]) -> bool) -> Vec<T> {
    let mut size = items.len();
    while size > 0 {
        let mut from = 0;
        while from < items.len() {
            let mut fewer = items.clone();
            fewer.drain(from..(from + size).min(items.len()));
            if differs(&fewer) {
                items = fewer;
            } else {
                from += size;
            }
        }
        size /= 2;
    }
    items
}
