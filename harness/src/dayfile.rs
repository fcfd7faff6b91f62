//! The events of a day file, read a second time from the bytes, and bytes to try it with.

use crate::queue::{EVENT, PARTS_OF_CHANGE};
use crate::random::Random;

/// The first event, and how many bytes it took; none if it ends early or is of unknown kind. Numbers that the bytes
/// do not give are 0, and of more than eight parts the first eight are kept.
pub fn next_event(bytes: &[u8]) -> Option<([u64; EVENT], usize)> {
    let mut event = [0; EVENT];
    let (&kind, rest) = bytes.split_first()?;
    event[0] = kind as u64;
    let length = match kind {
        0 => {
            event[1] = number(rest)?;
            let count = *rest.get(4)? as usize;
            let parts = rest.get(5..5 + count)?;
            event[2] = count as u64;
            for (to, from) in event[3..]
                .iter_mut()
                .zip(parts.iter().take(PARTS_OF_CHANGE))
            {
                *to = *from as u64;
            }
            6 + count
        }
        1 => {
            event[1] = number(rest)?;
            5
        }
        2 => {
            event[1] = *rest.first()? as u64;
            event[2] = *rest.get(1)? as u64;
            3
        }
        _ => return None,
    };
    Some((event, length))
}

/// Four bytes, the low one first.
fn number(bytes: &[u8]) -> Option<u64> {
    let bytes: [u8; 4] = bytes.get(..4)?.try_into().ok()?;
    Some(u32::from_le_bytes(bytes) as u64)
}

/// Bytes of a few events, some of them cut short or of unknown kind.
pub fn bytes(random: &mut Random) -> Vec<u8> {
    let mut bytes = Vec::new();
    for _ in 0..random.below(6) {
        let kind = if random.percent(95) {
            random.below(3)
        } else {
            random.below(256)
        };
        bytes.push(kind as u8);
        let length = match kind {
            0 => submit_length(random, &mut bytes),
            1 => 4,
            _ => 2,
        };
        bytes.extend((0..length).map(|_| random.number() as u8));
    }
    if random.percent(30) {
        bytes.truncate(random.place(bytes.len() + 1));
    }
    bytes
}

/// Writes a submission's number and count; answers how many parts follow.
fn submit_length(random: &mut Random, bytes: &mut Vec<u8>) -> u64 {
    let count = match random.below(8) {
        0 => random.below(256),
        1 => random.from_to(7, 9),
        _ => random.below(9),
    };
    bytes.extend((random.number() as u32).to_le_bytes());
    bytes.push(count as u8);
    count
}
