//! The calls of a script: as values, as words and bytes, and in plain words.

use std::fmt;

/// No buffer of a call is longer; a greater length counts as this one.
pub const LONGEST: u32 = 1024;

/// A call with its arguments as they stand in the script. Lengths are not cut to `LONGEST` yet.
#[derive(Clone, Debug, PartialEq, Eq)]
pub enum Call {
    Read { address: u32, owner: u32, switch: u32, found: u32, rebuilt: u32 },
    Write { address: u32, owner: u32, way: u32, length: u32, payload: Vec<u8> },
    Scrub { stripes: u32 },
    Look { first: u32, count: u32, owner: u32, switch: u32, length: u32 },
    Pull { slot: u32 },
    Fit { slot: u32 },
    Rebuild { stripes: u32 },
    Finish,
    GiveUp,
    Lay { slot: u32, block: u32, plan: u32, number: u32 },
    Blind { slot: u32, block: u32 },
    Flip { slot: u32, block: u32, index: u32, mask: u32 },
    Tally,
    SlotState { slot: u32 },
    Reopen,
    ShelfRead { slot: u32, block: u32, length: u32 },
    ShelfWrite { slot: u32, block: u32, length: u32, bytes: Vec<u8> },
}

/// The names of the codes, from code 1 on.
pub const NAMES: [&str; 17] = [
    "read",
    "write",
    "scrub",
    "look",
    "pull",
    "fit",
    "rebuild",
    "finish",
    "give up",
    "lay",
    "blind",
    "flip",
    "tally",
    "slot state",
    "reopen",
    "shelf read",
    "shelf write",
];

impl Call {
    pub fn code(&self) -> u32 {
        match self {
            Call::Read { .. } => 1,
            Call::Write { .. } => 2,
            Call::Scrub { .. } => 3,
            Call::Look { .. } => 4,
            Call::Pull { .. } => 5,
            Call::Fit { .. } => 6,
            Call::Rebuild { .. } => 7,
            Call::Finish => 8,
            Call::GiveUp => 9,
            Call::Lay { .. } => 10,
            Call::Blind { .. } => 11,
            Call::Flip { .. } => 12,
            Call::Tally => 13,
            Call::SlotState { .. } => 14,
            Call::Reopen => 15,
            Call::ShelfRead { .. } => 16,
            Call::ShelfWrite { .. } => 17,
        }
    }

    pub fn name(&self) -> &'static str {
        NAMES[self.code() as usize - 1]
    }

    pub fn encode(&self, into: &mut Vec<u8>) {
        put(into, &[self.code()]);
        match self {
            &Call::Read { address, owner, switch, found, rebuilt } => {
                put(into, &[address, owner, switch, found, rebuilt]);
            }
            Call::Write { address, owner, way, length, payload } => {
                put(into, &[*address, *owner, *way, *length]);
                into.extend_from_slice(payload);
            }
            &Call::Scrub { stripes } | &Call::Rebuild { stripes } => put(into, &[stripes]),
            &Call::Look { first, count, owner, switch, length } => put(into, &[first, count, owner, switch, length]),
            &Call::Pull { slot } | &Call::Fit { slot } | &Call::SlotState { slot } => put(into, &[slot]),
            Call::Finish | Call::GiveUp | Call::Tally | Call::Reopen => {}
            &Call::Lay { slot, block, plan, number } => put(into, &[slot, block, plan, number]),
            &Call::Blind { slot, block } => put(into, &[slot, block]),
            &Call::Flip { slot, block, index, mask } => put(into, &[slot, block, index, mask]),
            &Call::ShelfRead { slot, block, length } => put(into, &[slot, block, length]),
            Call::ShelfWrite { slot, block, length, bytes } => {
                put(into, &[*slot, *block, *length]);
                into.extend_from_slice(bytes);
            }
        }
    }

    /// Takes one call from the front. There is none if the code is unknown or the call is not all there.
    pub fn decode(from: &mut &[u8]) -> Option<Self> {
        Some(match take(from)? {
            1 => Call::Read {
                address: take(from)?,
                owner: take(from)?,
                switch: take(from)?,
                found: take(from)?,
                rebuilt: take(from)?,
            },
            2 => {
                let (address, owner, way, length) = (take(from)?, take(from)?, take(from)?, take(from)?);
                Call::Write { address, owner, way, length, payload: take_bytes(from, length)? }
            }
            3 => Call::Scrub { stripes: take(from)? },
            4 => Call::Look {
                first: take(from)?,
                count: take(from)?,
                owner: take(from)?,
                switch: take(from)?,
                length: take(from)?,
            },
            5 => Call::Pull { slot: take(from)? },
            6 => Call::Fit { slot: take(from)? },
            7 => Call::Rebuild { stripes: take(from)? },
            8 => Call::Finish,
            9 => Call::GiveUp,
            10 => Call::Lay { slot: take(from)?, block: take(from)?, plan: take(from)?, number: take(from)? },
            11 => Call::Blind { slot: take(from)?, block: take(from)? },
            12 => Call::Flip { slot: take(from)?, block: take(from)?, index: take(from)?, mask: take(from)? },
            13 => Call::Tally,
            14 => Call::SlotState { slot: take(from)? },
            15 => Call::Reopen,
            16 => Call::ShelfRead { slot: take(from)?, block: take(from)?, length: take(from)? },
            17 => {
                let (slot, block, length) = (take(from)?, take(from)?, take(from)?);
                Call::ShelfWrite { slot, block, length, bytes: take_bytes(from, length)? }
            }
            _ => return None,
        })
    }
}

fn put(into: &mut Vec<u8>, words: &[u32]) {
    for word in words {
        into.extend_from_slice(&word.to_be_bytes());
    }
}

fn take(from: &mut &[u8]) -> Option<u32> {
    let (word, rest) = from.split_first_chunk()?;
    *from = rest;
    Some(u32::from_be_bytes(*word))
}

fn take_bytes(from: &mut &[u8], length: u32) -> Option<Vec<u8>> {
    let (bytes, rest) = from.split_at_checked(length.min(LONGEST) as usize)?;
    *from = rest;
    Some(bytes.to_vec())
}

/// Bytes in hex, with runs of equal bytes shortened.
pub struct Hex<'a>(pub &'a [u8]);

impl fmt::Display for Hex<'_> {
    fn fmt(&self, f: &mut fmt::Formatter<'_>) -> fmt::Result {
        for (number, run) in self.0.chunk_by(|a, b| a == b).enumerate() {
            let space = if number == 0 { "" } else { " " };
            match run.len() {
                1 => write!(f, "{space}{:02x}", run[0])?,
                count => write!(f, "{space}{:02x}*{count}", run[0])?,
            }
        }
        Ok(())
    }
}

fn on_off(switch: u32) -> &'static str {
    if switch == 0 { "off" } else { "on" }
}

impl fmt::Display for Call {
    fn fmt(&self, f: &mut fmt::Formatter<'_>) -> fmt::Result {
        write!(f, "{}", self.name())?;
        match self {
            Call::Read { address, owner, switch, found, rebuilt } => write!(
                f,
                " address {address}, owner {owner}, switch {}, buffers of {found} and {rebuilt}",
                on_off(*switch)
            ),
            Call::Write { address, owner, way, length, payload } => {
                let way = if *way == 0 { "additive" } else { "subtractive" };
                write!(f, " address {address}, owner {owner}, {way}, length {length}: {}", Hex(payload))
            }
            Call::Scrub { stripes } | Call::Rebuild { stripes } => write!(f, " {stripes} stripes"),
            Call::Look { first, count, owner, switch, length } => write!(
                f,
                " {count} from address {first}, owner {owner}, switch {}, buffer of {length}",
                on_off(*switch)
            ),
            Call::Pull { slot } | Call::Fit { slot } | Call::SlotState { slot } => write!(f, " slot {slot}"),
            Call::Finish | Call::GiveUp | Call::Tally | Call::Reopen => Ok(()),
            Call::Lay { slot, block, plan, number } => {
                write!(f, " for slot {slot}, block {block}: ")?;
                match plan {
                    0 => write!(f, "lose"),
                    1 => write!(f, "tear after {number}"),
                    2 => write!(f, "spoil"),
                    _ => write!(f, "stray to {number}"),
                }
            }
            Call::Blind { slot, block } => write!(f, " slot {slot}, block {block}"),
            Call::Flip { slot, block, index, mask } => {
                write!(f, " slot {slot}, block {block}, byte {index}, mask {mask}")
            }
            Call::ShelfRead { slot, block, length } => write!(f, " slot {slot}, block {block}, buffer of {length}"),
            Call::ShelfWrite { slot, block, length, bytes } => {
                write!(f, " slot {slot}, block {block}, length {length}: {}", Hex(bytes))
            }
        }
    }
}

#[cfg(test)]
mod tests {
    use super::*;

    #[test]
    fn decoded_as_encoded() {
        let calls = [
            Call::Read { address: 1, owner: 2, switch: 3, found: 4, rebuilt: 5 },
            Call::Write { address: 1, owner: 2, way: 3, length: 4, payload: vec![1, 2, 3, 4] },
            Call::Write { address: 1, owner: 2, way: 3, length: 4000, payload: vec![1; 1024] },
            Call::Look { first: 1, count: 2, owner: 3, switch: 4, length: 5 },
            Call::Lay { slot: 1, block: 2, plan: 3, number: 4 },
            Call::Flip { slot: 1, block: 2, index: 3, mask: 4 },
            Call::Tally,
            Call::ShelfWrite { slot: 1, block: 2, length: 1, bytes: vec![9] },
        ];
        let mut bytes = Vec::new();
        calls.iter().for_each(|call| call.encode(&mut bytes));
        let mut rest = &bytes[..];
        for call in &calls {
            assert_eq!(Call::decode(&mut rest).as_ref(), Some(call));
        }
        assert_eq!(Call::decode(&mut rest), None);
        assert_eq!(Call::decode(&mut &bytes[..23]), None);
    }
}
