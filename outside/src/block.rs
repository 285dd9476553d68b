//! Where blocks lie, and the 128 bytes of one block.

use crate::Refusal;
use crate::checksum::Checksum;

pub const BLOCK: usize = 128;
pub const PAYLOAD: usize = 80;
/// The bytes that the checksum covers.
pub const SUMMED: usize = 124;
pub const MAX_CARDS: usize = 8;
pub const VERSIONS: usize = MAX_CARDS - 1;

// Offsets in a block.
pub const KIND: usize = 80;
pub const MARK: usize = 81;
pub const SLOT: usize = 82;
pub const CARDS: usize = 83;
pub const NUMBER: usize = 84;
pub const OWNER: usize = 88;
pub const VERSION: usize = 92;
pub const TAG: usize = 120;
pub const SUM: usize = 124;

pub type Block = [u8; BLOCK];
pub type Payload = [u8; PAYLOAD];

/// N, the number of cards, and S, the number of blocks of a card; both in range.
#[derive(Clone, Copy, Debug, PartialEq, Eq)]
pub struct Shape {
    cards: u32,
    blocks: u32,
}

/// The place of a data block: its stripe, its index in the stripe, its slot and the slot of its parity.
#[derive(Clone, Copy, Debug, PartialEq, Eq)]
pub struct Spot {
    pub stripe: u32,
    pub index: usize,
    pub slot: usize,
    pub parity: usize,
}

impl Shape {
    pub fn new(cards: u32, blocks: u32) -> Result<Self, Refusal> {
        if (3..=MAX_CARDS as u32).contains(&cards) && (1..=65_536).contains(&blocks) {
            Ok(Self { cards, blocks })
        } else {
            Err(Refusal::Shape)
        }
    }

    pub fn cards(self) -> u32 {
        self.cards
    }

    pub fn blocks(self) -> u32 {
        self.blocks
    }

    /// The number of places.
    pub fn places(self) -> usize {
        self.cards as usize * self.blocks as usize
    }

    /// The number of addresses.
    pub fn addresses(self) -> u32 {
        (self.cards - 1) * self.blocks
    }

    pub fn has_place(self, slot: u32, block: u32) -> bool {
        slot < self.cards && block < self.blocks
    }

    pub fn parity_slot(self, stripe: u32) -> usize {
        (self.cards - 1 - stripe % self.cards) as usize
    }

    pub fn locate(self, address: u32) -> Result<Spot, Refusal> {
        if address >= self.addresses() {
            return Err(Refusal::Address);
        }
        let data = self.cards - 1;
        let stripe = address / data;
        let index = (address % data) as usize;
        let parity = self.parity_slot(stripe);
        Ok(Spot { stripe, index, slot: data_slot(parity, index), parity })
    }
}

/// The slot of a data index in a stripe whose parity lies in slot `parity`.
pub fn data_slot(parity: usize, index: usize) -> usize {
    if index < parity { index } else { index + 1 }
}

/// The data index of a slot that is not the parity slot.
pub fn data_index(parity: usize, slot: usize) -> usize {
    if slot < parity { slot } else { slot - 1 }
}

#[derive(Clone, Copy, Debug, PartialEq, Eq)]
#[repr(u8)]
pub enum Kind {
    Data = 1,
    Parity = 2,
}

/// What a place requires of the block that lies there.
#[derive(Clone, Copy, Debug)]
pub struct Identity {
    pub kind: Kind,
    pub slot: u8,
    pub cards: u8,
    pub number: u32,
    pub tag: u32,
}

impl Identity {
    /// The identity of a place in a stripe whose parity lies in slot `parity`.
    pub fn of_place(shape: Shape, tag: u32, number: u32, parity: usize, slot: usize) -> Self {
        let kind = if slot == parity { Kind::Parity } else { Kind::Data };
        Self { kind, slot: slot as u8, cards: shape.cards() as u8, number, tag }
    }

    fn used_versions(&self) -> usize {
        match self.kind {
            Kind::Data => 1,
            Kind::Parity => usize::from(self.cards) - 1,
        }
    }
}

/// What is found out about a block that is there, by itself.
#[derive(Clone, Copy, Debug, PartialEq, Eq)]
pub enum Judgement {
    Readable,
    Broken,
    Foreign,
}

pub fn judge<C: Checksum>(block: &Block, identity: &Identity) -> Judgement {
    if word(block, SUM) != C::sum(summed(block)) {
        Judgement::Broken
    } else if !identity_fits::<C>(block, identity) {
        Judgement::Foreign
    } else {
        Judgement::Readable
    }
}

fn identity_fits<C: Checksum>(block: &Block, identity: &Identity) -> bool {
    block[KIND] == identity.kind as u8
        && block[MARK] == C::MARK
        && block[SLOT] == identity.slot
        && block[CARDS] == identity.cards
        && word(block, NUMBER) == identity.number
        && word(block, TAG) == identity.tag
        && block[VERSION + 4 * identity.used_versions()..TAG].iter().all(|&byte| byte == 0)
}

pub fn encode<C: Checksum>(identity: &Identity, payload: &Payload, owner: u32, versions: &[u32; VERSIONS]) -> Block {
    let mut block = [0; BLOCK];
    block[..PAYLOAD].copy_from_slice(payload);
    block[KIND] = identity.kind as u8;
    block[MARK] = C::MARK;
    block[SLOT] = identity.slot;
    block[CARDS] = identity.cards;
    put_word(&mut block, NUMBER, identity.number);
    put_word(&mut block, OWNER, owner);
    for (index, &version) in versions.iter().enumerate() {
        put_word(&mut block, VERSION + 4 * index, version);
    }
    put_word(&mut block, TAG, identity.tag);
    seal::<C>(&mut block);
    block
}

/// Puts in the checksum of the other bytes.
pub fn seal<C: Checksum>(block: &mut Block) {
    let sum = C::sum(summed(block));
    put_word(block, SUM, sum);
}

pub fn payload(block: &Block) -> &Payload {
    block.first_chunk().expect("a payload is shorter than a block")
}

pub fn owner(block: &Block) -> u32 {
    word(block, OWNER)
}

pub fn version(block: &Block, index: usize) -> u32 {
    word(block, VERSION + 4 * index)
}

pub fn versions(block: &Block) -> [u32; VERSIONS] {
    std::array::from_fn(|index| version(block, index))
}

/// The versions field of a data block.
pub fn single_version(version: u32) -> [u32; VERSIONS] {
    let mut versions = [0; VERSIONS];
    versions[0] = version;
    versions
}

pub fn xor_payload(into: &mut Payload, other: &Payload) {
    for (byte, other) in into.iter_mut().zip(other) {
        *byte ^= other;
    }
}

fn summed(block: &Block) -> &[u8; SUMMED] {
    block.first_chunk().expect("the summed bytes are fewer than a block's")
}

fn word(block: &Block, offset: usize) -> u32 {
    u32::from_be_bytes([block[offset], block[offset + 1], block[offset + 2], block[offset + 3]])
}

pub fn put_word(block: &mut Block, offset: usize, value: u32) {
    block[offset..offset + 4].copy_from_slice(&value.to_be_bytes());
}

#[cfg(test)]
mod tests {
    use super::*;
    use crate::checksum::{Fletcher, Turning};

    #[test]
    fn addresses_of_the_format() {
        let shape = Shape::new(5, 10).unwrap();
        assert_eq!(shape.locate(7), Ok(Spot { stripe: 1, index: 3, slot: 4, parity: 3 }));
        assert_eq!(shape.locate(39), Ok(Spot { stripe: 9, index: 3, slot: 4, parity: 0 }));
        assert_eq!(shape.locate(40), Err(Refusal::Address));
    }

    #[test]
    fn shapes() {
        for (cards, blocks) in [(2, 1), (9, 1), (3, 0), (3, 65_537), (u32::MAX, u32::MAX)] {
            assert_eq!(Shape::new(cards, blocks), Err(Refusal::Shape));
        }
        assert!(Shape::new(3, 1).is_ok() && Shape::new(8, 65_536).is_ok());
    }

    #[test]
    fn layout() {
        let identity = Identity { kind: Kind::Parity, slot: 2, cards: 3, number: 0x0001_0203, tag: 0x0A0B_0C0D };
        let block = encode::<Turning>(&identity, &[9; PAYLOAD], 0x1122_3344, &[5, 6, 0, 0, 0, 0, 0]);
        assert_eq!(block[79], 9);
        assert_eq!(block[80..92], [2, 2, 2, 3, 0, 1, 2, 3, 0x11, 0x22, 0x33, 0x44]);
        assert_eq!(block[92..104], [0, 0, 0, 5, 0, 0, 0, 6, 0, 0, 0, 0]);
        assert_eq!(block[120..124], [0x0A, 0x0B, 0x0C, 0x0D]);
        assert_eq!(judge::<Turning>(&block, &identity), Judgement::Readable);
    }

    #[test]
    fn zeros_are_foreign() {
        let identity = Identity { kind: Kind::Data, slot: 0, cards: 3, number: 0, tag: 1 };
        assert_eq!(judge::<Fletcher>(&[0; BLOCK], &identity), Judgement::Foreign);
        assert_eq!(judge::<Turning>(&[0; BLOCK], &identity), Judgement::Foreign);
    }

    #[test]
    fn each_field_of_the_identity_counts() {
        let identity = Identity { kind: Kind::Data, slot: 1, cards: 4, number: 6, tag: 7 };
        let good = encode::<Fletcher>(&identity, &[3; PAYLOAD], 5, &single_version(4));
        for index in (KIND..OWNER).chain(VERSION + 4..SUM) {
            let mut block = good;
            block[index] ^= 1;
            assert_eq!(judge::<Fletcher>(&block, &identity), Judgement::Broken);
            seal::<Fletcher>(&mut block);
            assert_eq!(judge::<Fletcher>(&block, &identity), Judgement::Foreign);
        }
    }
}
