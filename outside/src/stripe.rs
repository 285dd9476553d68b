//! One stripe as it is seen: its blocks, what is judged of each, and how to mend it.

use crate::block::{
    self, BLOCK, Block, Identity, Judgement, MAX_CARDS, PAYLOAD, Payload, Shape, Spot, VERSIONS, data_index, data_slot,
    single_version,
};
use crate::checksum::Checksum;
use crate::finding::{Condition, Finding, Findings, blank};
use crate::shelf::{ReadableShelf, Seen};

/// The state of a slot.
#[derive(Clone, Copy, Debug, PartialEq, Eq)]
pub enum SlotState {
    In,
    Out,
    /// The card is being rebuilt, and the blocks below the number are done.
    Filling(u32),
}

impl SlotState {
    /// Whether a block of the slot counts as blind and takes no writes but a rebuild's.
    pub fn hides(self, block: u32) -> bool {
        match self {
            SlotState::In => false,
            SlotState::Out => true,
            SlotState::Filling(done) => block >= done,
        }
    }
}

pub type Slots = [SlotState; MAX_CARDS];

pub const ALL_IN: Slots = [SlotState::In; MAX_CARDS];

/// Buffers for the blocks of a stripe, and what is judged of them.
pub struct Stripe {
    shape: Shape,
    tag: u32,
    number: u32,
    parity: usize,
    blocks: [Block; MAX_CARDS],
    conditions: [Condition; MAX_CARDS],
    leads: [Option<i64>; MAX_CARDS],
    mask: u8,
}

impl Stripe {
    /// Nothing is looked at yet.
    pub fn new(shape: Shape, tag: u32) -> Self {
        Self {
            shape,
            tag,
            number: 0,
            parity: shape.parity_slot(0),
            blocks: [[0; BLOCK]; MAX_CARDS],
            conditions: [Condition::NotLooked; MAX_CARDS],
            leads: [None; MAX_CARDS],
            mask: 0,
        }
    }

    /// Looks at all places of a stripe and judges them.
    pub fn look<C: Checksum, S: ReadableShelf>(&mut self, shelf: &S, slots: &Slots, number: u32) {
        self.number = number;
        self.parity = self.shape.parity_slot(number);
        for (slot, &state) in slots.iter().enumerate().take(self.cards()) {
            self.conditions[slot] = self.look_alone::<C, S>(shelf, state, slot);
        }
        self.compare_versions();
        self.mask = self.make_mask();
    }

    fn look_alone<C: Checksum, S: ReadableShelf>(&mut self, shelf: &S, state: SlotState, slot: usize) -> Condition {
        let identity = self.identity(slot);
        let block = &mut self.blocks[slot];
        if state.hides(self.number) || shelf.fetch(slot, self.number, block) == Seen::Blind {
            return Condition::Blind;
        }
        match block::judge::<C>(block, &identity) {
            Judgement::Readable => Condition::Readable,
            Judgement::Broken => Condition::Broken,
            Judgement::Foreign => Condition::Foreign,
        }
    }

    fn compare_versions(&mut self) {
        self.leads = [None; MAX_CARDS];
        if self.conditions[self.parity] != Condition::Readable {
            return;
        }
        let mut greatest = None;
        for index in 0..self.cards() - 1 {
            let slot = data_slot(self.parity, index);
            if self.conditions[slot] != Condition::Readable {
                continue;
            }
            let mirrored = block::version(&self.blocks[self.parity], index);
            let lead = i64::from(block::version(&self.blocks[slot], 0)) - i64::from(mirrored);
            self.leads[slot] = Some(lead);
            greatest = greatest.max(Some(lead));
            if lead < 0 {
                self.conditions[slot] = Condition::Behind;
            }
        }
        self.leads[self.parity] = greatest;
        if greatest > Some(0) {
            self.conditions[self.parity] = Condition::Behind;
        }
    }

    fn make_mask(&self) -> u8 {
        let bad = |&slot: &usize| self.conditions[slot] != Condition::Readable;
        (0..self.cards()).filter(bad).fold(0, |mask, slot| mask | 1 << slot)
    }

    fn cards(&self) -> usize {
        self.shape.cards() as usize
    }

    fn identity(&self, slot: usize) -> Identity {
        Identity::of_place(self.shape, self.tag, self.number, self.parity, slot)
    }

    pub fn block(&self, slot: usize) -> &Block {
        &self.blocks[slot]
    }

    pub fn parity(&self) -> &Block {
        &self.blocks[self.parity]
    }

    /// Bit c is set if slot c is blind, broken, foreign or behind.
    pub fn mask(&self) -> u8 {
        self.mask
    }

    pub fn is_bad(&self, slot: usize) -> bool {
        self.mask & 1 << slot != 0
    }

    /// The slot of the mask's only bit.
    pub fn only_bad(&self) -> Option<usize> {
        self.mask.is_power_of_two().then(|| self.mask.trailing_zeros() as usize)
    }

    /// The XOR of the payloads and owners of the slots that are chosen.
    pub fn xor_of(&self, chosen: impl Fn(usize) -> bool) -> (Payload, u32) {
        let mut payload = [0; PAYLOAD];
        let mut owner = 0;
        for slot in (0..self.cards()).filter(|&slot| chosen(slot)) {
            block::xor_payload(&mut payload, block::payload(&self.blocks[slot]));
            owner ^= block::owner(&self.blocks[slot]);
        }
        (payload, owner)
    }

    /// The versions that the data blocks have.
    pub fn data_versions(&self) -> [u32; VERSIONS] {
        let mut versions = [0; VERSIONS];
        for (index, version) in versions[..self.cards() - 1].iter_mut().enumerate() {
            *version = block::version(&self.blocks[data_slot(self.parity, index)], 0);
        }
        versions
    }

    /// The block of a slot made from all the others, which have to be readable.
    pub fn mended<C: Checksum>(&self, slot: usize) -> Block {
        let (payload, owner) = self.xor_of(|other| other != slot);
        let versions = if slot == self.parity {
            self.data_versions()
        } else {
            single_version(block::version(self.parity(), data_index(self.parity, slot)))
        };
        block::encode::<C>(&self.identity(slot), &payload, owner, &versions)
    }

    /// Fills in the findings of all slots.
    pub fn report(&self, findings: &mut Findings) {
        *findings = blank(self.number);
        for (slot, finding) in findings.iter_mut().enumerate().take(self.cards()) {
            finding.condition = self.conditions[slot];
            finding.lead = self.leads[slot];
        }
    }
}

/// The findings of a data block and its parity that are readable with lead 0, with nothing else looked at.
pub fn report_pair(spot: &Spot, findings: &mut Findings) {
    *findings = blank(spot.stripe);
    for slot in [spot.slot, spot.parity] {
        findings[slot] = Finding { condition: Condition::Readable, lead: Some(0), ..findings[slot] };
    }
}

#[cfg(test)]
mod tests {
    use super::*;
    use crate::block::encode;
    use crate::checksum::Fletcher;
    use crate::shelf::{Image, Shelf};

    /// The mask of stripe 0 of three cards, with mirrored versions 2 and 1.
    fn mask_of(first: u32, second: u32) -> (u8, Findings) {
        let mut image = Image::zeroed(3, 1).unwrap();
        let shape = image.shape();
        for (slot, versions) in
            [single_version(first), single_version(second), [2, 1, 0, 0, 0, 0, 0]].iter().enumerate()
        {
            let identity = Identity::of_place(shape, 5, 0, 2, slot);
            image.store(slot, 0, &encode::<Fletcher>(&identity, &[0; PAYLOAD], 0, versions));
        }
        let mut stripe = Stripe::new(shape, 5);
        stripe.look::<Fletcher, _>(&image, &ALL_IN, 0);
        let mut findings = blank(9);
        stripe.report(&mut findings);
        (stripe.mask(), findings)
    }

    #[test]
    fn masks_of_the_rules() {
        assert_eq!(mask_of(2, 1).0, 0);
        assert_eq!(mask_of(1, 1).0, 1);
        assert_eq!(mask_of(3, 1).0, 4);
        assert_eq!(mask_of(1, 0).0, 3);
    }

    #[test]
    fn leads() {
        let (mask, findings) = mask_of(0, 2);
        assert_eq!(mask, 5);
        assert_eq!(findings.map(|finding| finding.lead)[..4], [Some(-2), Some(1), Some(1), None]);
        assert_eq!(mask_of(0, 0).1[2].lead, Some(-1));
    }
}
