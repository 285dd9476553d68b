//! The array: reads, writes, scrubs and rebuilds over a shelf.

use std::marker::PhantomData;
use std::mem;

use crate::Refusal;
use crate::block::{self, BLOCK, Block, Identity, Judgement, PAYLOAD, Payload, Shape, Spot, VERSIONS, single_version};
use crate::checksum::Checksum;
use crate::finding::{Findings, blank};
use crate::shelf::{FaultLayer, Plan, Seen, Shelf};
pub use crate::stripe::SlotState;
use crate::stripe::{ALL_IN, Slots, Stripe, report_pair};

/// The greatest number of stripes that one call takes.
pub const MAX_STRIPES: u32 = 65_536;

/// Whether a read mends what it finds.
#[derive(Clone, Copy, Debug, PartialEq, Eq)]
pub enum Switch {
    Off,
    On,
}

/// The buffer in which a read gives its block.
#[derive(Clone, Copy, Debug, PartialEq, Eq)]
pub enum Source {
    Found,
    Rebuilt,
}

/// How a write makes the new parity.
#[derive(Clone, Copy, Debug, PartialEq, Eq)]
pub enum Way {
    Additive,
    Subtractive,
}

#[derive(Clone, Copy, Debug, PartialEq, Eq)]
pub struct ReadAnswer {
    pub source: Source,
    /// The number of places looked at.
    pub looks: u32,
}

#[derive(Clone, Copy, Debug, PartialEq, Eq)]
pub struct WriteAnswer {
    pub looks: u32,
}

#[derive(Clone, Copy, Debug, PartialEq, Eq)]
pub struct LookAnswer {
    /// The number of records read.
    pub read: u32,
    /// Why it stopped before the end.
    pub stopped: Option<Refusal>,
}

#[derive(Clone, Copy, Debug, Default, PartialEq, Eq)]
pub struct ScrubAnswer {
    pub looked: u32,
    pub clean: u32,
    pub mended: u32,
    /// Stripes whose only bad block takes no writes.
    pub short: u32,
    pub lost: u32,
}

#[derive(Clone, Copy, Debug, Default, PartialEq, Eq)]
pub struct RebuildAnswer {
    pub moved: u32,
    pub mended: u32,
    pub lost: u32,
}

/// The rebuilding of one slot, to be ended by `finish` or `give_up`.
#[derive(Debug)]
#[must_use]
pub struct RebuildJob {
    slot: u32,
}

/// The payload of one of the two buffers that a read has filled. Both have to be of the length of a block.
pub fn show<'a>(found: &'a [u8], rebuilt: &'a [u8], source: Source) -> Result<&'a Payload, Refusal> {
    let found: &Block = found.try_into().map_err(|_| Refusal::Length)?;
    let rebuilt: &Block = rebuilt.try_into().map_err(|_| Refusal::Length)?;
    Ok(block::payload(match source {
        Source::Found => found,
        Source::Rebuilt => rebuilt,
    }))
}

pub struct Array<S, C> {
    shelf: S,
    tag: u32,
    slots: Slots,
    /// The stripe at which the next scrub begins.
    cursor: u32,
    /// Counts the reads given rebuilt.
    tally: u32,
    checksum: PhantomData<C>,
}

impl<S: Shelf, C: Checksum> Array<S, C> {
    /// Writes every place as a record that was never written. A refusal hands the shelf back.
    pub fn format(shelf: S, tag: u32) -> Result<Self, (Refusal, S)> {
        let mut array = Self::open(shelf, tag)?;
        let shape = array.shape();
        for slot in 0..shape.cards() as usize {
            for number in 0..shape.blocks() {
                let identity = array.identity(number, shape.parity_slot(number), slot);
                let block = block::encode::<C>(&identity, &[0; PAYLOAD], 0, &[0; VERSIONS]);
                array.shelf.store(slot, number, &block);
            }
        }
        Ok(array)
    }

    /// Touches no card. A refusal hands the shelf back.
    pub fn open(shelf: S, tag: u32) -> Result<Self, (Refusal, S)> {
        if tag == 0 {
            return Err((Refusal::Shape, shelf));
        }
        Ok(Self { shelf, tag, slots: ALL_IN, cursor: 0, tally: 0, checksum: PhantomData })
    }

    pub fn close(self) -> S {
        self.shelf
    }

    pub fn shelf(&self) -> &S {
        &self.shelf
    }

    pub fn shape(&self) -> Shape {
        self.shelf.shape()
    }

    pub fn tally(&self) -> u32 {
        self.tally
    }

    pub fn slot_state(&self, slot: u32) -> Result<SlotState, Refusal> {
        if slot < self.shape().cards() { Ok(self.slots[slot as usize]) } else { Err(Refusal::Place) }
    }

    fn identity(&self, number: u32, parity: usize, slot: usize) -> Identity {
        Identity::of_place(self.shape(), self.tag, number, parity, slot)
    }

    fn hides(&self, slot: usize, number: u32) -> bool {
        self.slots[slot].hides(number)
    }

    /// Whether a place of a spot's stripe holds a readable block, which is then in the buffer.
    fn is_readable(&self, spot: &Spot, slot: usize, into: &mut Block) -> bool {
        !self.hides(slot, spot.stripe)
            && self.shelf.fetch(slot, spot.stripe, into) == Seen::Present
            && block::judge::<C>(into, &self.identity(spot.stripe, spot.parity, slot)) == Judgement::Readable
    }

    /// Whether a data block and its parity are readable with lead 0; both are then in the buffers.
    fn look_at_pair(&self, spot: &Spot, data: &mut Block, parity: &mut Block) -> bool {
        self.is_readable(spot, spot.slot, data)
            && self.is_readable(spot, spot.parity, parity)
            && block::version(data, 0) == block::version(parity, spot.index)
    }

    fn look_at_stripe(&self, number: u32) -> Stripe {
        let mut stripe = Stripe::new(self.shape(), self.tag);
        stripe.look::<C, S>(&self.shelf, &self.slots, number);
        stripe
    }

    fn store_unless_hidden(&mut self, slot: usize, number: u32, bytes: &Block) {
        if !self.hides(slot, number) {
            self.shelf.store(slot, number, bytes);
        }
    }

    /// Reads one record. `found` gets the block as it lies there, or `rebuilt` gets it made from the others; the
    /// other buffer is zeroed, and both are where the block is lost or of another owner.
    pub fn read(
        &mut self,
        address: u32,
        owner: u32,
        switch: Switch,
        found: &mut [u8],
        rebuilt: &mut [u8],
        findings: &mut Findings,
    ) -> Result<ReadAnswer, Refusal> {
        let found: &mut Block = found.try_into().map_err(|_| Refusal::Length)?;
        let rebuilt: &mut Block = rebuilt.try_into().map_err(|_| Refusal::Length)?;
        let spot = self.shape().locate(address)?;
        let answer = self.read_spot(&spot, owner, switch, found, rebuilt, findings);
        match answer {
            Ok(ReadAnswer { source: Source::Found, .. }) => rebuilt.fill(0),
            Ok(ReadAnswer { source: Source::Rebuilt, .. }) => found.fill(0),
            Err(_) => {
                found.fill(0);
                rebuilt.fill(0);
            }
        }
        answer
    }

    fn read_spot(
        &mut self,
        spot: &Spot,
        owner: u32,
        switch: Switch,
        found: &mut Block,
        rebuilt: &mut Block,
        findings: &mut Findings,
    ) -> Result<ReadAnswer, Refusal> {
        let mut parity = [0; BLOCK];
        if self.look_at_pair(spot, found, &mut parity) {
            report_pair(spot, findings);
            check_owner(found, owner)?;
            return Ok(ReadAnswer { source: Source::Found, looks: 2 });
        }
        let stripe = self.look_at_stripe(spot.stripe);
        stripe.report(findings);
        let looks = self.shape().cards();
        let source = if !stripe.is_bad(spot.slot) {
            *found = *stripe.block(spot.slot);
            check_owner(found, owner)?;
            Source::Found
        } else if stripe.only_bad() == Some(spot.slot) {
            *rebuilt = stripe.mended::<C>(spot.slot);
            check_owner(rebuilt, owner)?;
            self.tally = self.tally.saturating_add(1);
            Source::Rebuilt
        } else {
            return Err(Refusal::Lost);
        };
        if switch == Switch::On
            && let Some(slot) = self.mend(&stripe, spot.stripe)
        {
            findings[slot].mended = true;
        }
        Ok(ReadAnswer { source, looks })
    }

    /// Mends the mask's only block unless its place takes no writes, and tells its slot.
    fn mend(&mut self, stripe: &Stripe, number: u32) -> Option<usize> {
        let slot = stripe.only_bad().filter(|&slot| !self.hides(slot, number))?;
        self.shelf.store(slot, number, &stripe.mended::<C>(slot));
        Some(slot)
    }

    /// Reads a stretch of records of one owner into `out`, 80 bytes each, with the switch off meanwhile.
    pub fn look(
        &mut self,
        first: u32,
        count: u32,
        owner: u32,
        switch: &mut Switch,
        out: &mut [u8],
    ) -> Result<LookAnswer, Refusal> {
        if out.len() as u64 != u64::from(count) * PAYLOAD as u64 {
            return Err(Refusal::Length);
        }
        let addresses = self.shape().addresses();
        if first >= addresses || count > addresses - first {
            return Err(Refusal::Address);
        }
        let before = mem::replace(switch, Switch::Off);
        let answer = self.look_at_records(first, owner, *switch, out);
        *switch = before;
        Ok(answer)
    }

    fn look_at_records(&mut self, first: u32, owner: u32, switch: Switch, out: &mut [u8]) -> LookAnswer {
        let mut found = [0; BLOCK];
        let mut rebuilt = [0; BLOCK];
        let mut findings = blank(0);
        let mut read = 0;
        let (records, _) = out.as_chunks_mut::<PAYLOAD>();
        while let Some(record) = records.get_mut(read as usize) {
            match self.read(first + read, owner, switch, &mut found, &mut rebuilt, &mut findings) {
                Ok(ReadAnswer { source: Source::Found, .. }) => *record = *block::payload(&found),
                Ok(ReadAnswer { source: Source::Rebuilt, .. }) => *record = *block::payload(&rebuilt),
                Err(refusal) => {
                    records[read as usize..].as_flattened_mut().fill(0);
                    return LookAnswer { read, stopped: Some(refusal) };
                }
            }
            read += 1;
        }
        LookAnswer { read, stopped: None }
    }

    /// Writes one record: the data block first, then its parity.
    pub fn write(
        &mut self,
        address: u32,
        owner: u32,
        payload: &[u8],
        way: Way,
        findings: &mut Findings,
    ) -> Result<WriteAnswer, Refusal> {
        let payload: &Payload = payload.try_into().map_err(|_| Refusal::Length)?;
        let spot = self.shape().locate(address)?;
        if owner == 0 {
            return Err(Refusal::NoOwner);
        }
        let record = Record { payload, owner };
        let mut data = [0; BLOCK];
        let mut parity = [0; BLOCK];
        if way == Way::Subtractive && self.look_at_pair(&spot, &mut data, &mut parity) {
            report_pair(&spot, findings);
            let version = next_version(block::version(&data, 0))?;
            let sums = record.subtractive(&data, &parity);
            self.write_pair(&spot, &record, version, sums, block::versions(&parity));
            return Ok(WriteAnswer { looks: 2 });
        }
        let stripe = self.look_at_stripe(spot.stripe);
        stripe.report(findings);
        self.write_stripe(&spot, &record, &stripe)?;
        Ok(WriteAnswer { looks: self.shape().cards() })
    }

    fn write_stripe(&mut self, spot: &Spot, record: &Record, stripe: &Stripe) -> Result<(), Refusal> {
        let data_is_bad = stripe.is_bad(spot.slot);
        let parity_is_bad = stripe.is_bad(spot.parity);
        let sums = match stripe.only_bad() {
            None if stripe.mask() == 0 => record.additive(stripe, spot),
            Some(slot) if slot == spot.slot || slot == spot.parity => record.additive(stripe, spot),
            _ if data_is_bad || parity_is_bad => return Err(Refusal::Lost),
            _ => record.subtractive(stripe.block(spot.slot), stripe.parity()),
        };
        let version = next_version(if data_is_bad {
            block::version(stripe.parity(), spot.index)
        } else {
            block::version(stripe.block(spot.slot), 0)
        })?;
        let versions = if parity_is_bad { stripe.data_versions() } else { block::versions(stripe.parity()) };
        self.write_pair(spot, record, version, sums, versions);
        Ok(())
    }

    fn write_pair(
        &mut self,
        spot: &Spot,
        record: &Record,
        version: u32,
        (parity_payload, parity_owner): (Payload, u32),
        mut versions: [u32; VERSIONS],
    ) {
        let identity = self.identity(spot.stripe, spot.parity, spot.slot);
        let data = block::encode::<C>(&identity, record.payload, record.owner, &single_version(version));
        self.store_unless_hidden(spot.slot, spot.stripe, &data);

        let identity = self.identity(spot.stripe, spot.parity, spot.parity);
        versions[spot.index] = version;
        let parity = block::encode::<C>(&identity, &parity_payload, parity_owner, &versions);
        self.store_unless_hidden(spot.parity, spot.stripe, &parity);
    }

    /// Looks at so many stripes from the cursor on, and mends what it can.
    pub fn scrub(&mut self, stripes: u32, findings: &mut Findings) -> Result<ScrubAnswer, Refusal> {
        check_stripes(stripes)?;
        let shape = self.shape();
        let mut answer = ScrubAnswer::default();
        let mut stripe = Stripe::new(shape, self.tag);
        for turn in 1..=stripes {
            let number = self.cursor;
            stripe.look::<C, S>(&self.shelf, &self.slots, number);
            let mended = self.mend(&stripe, number);
            answer.looked += 1;
            match stripe.mask().count_ones() {
                0 => answer.clean += 1,
                1 if mended.is_some() => answer.mended += 1,
                1 => answer.short += 1,
                _ => answer.lost += 1,
            }
            self.cursor = if number + 1 < shape.blocks() { number + 1 } else { 0 };
            if turn == stripes {
                stripe.report(findings);
                if let Some(slot) = mended {
                    findings[slot].mended = true;
                }
            }
        }
        Ok(answer)
    }

    /// Takes a card out. Every slot has to be in.
    pub fn pull(&mut self, slot: u32) -> Result<(), Refusal> {
        self.slot_state(slot)?;
        if self.slots != ALL_IN {
            return Err(Refusal::SlotState);
        }
        self.slots[slot as usize] = SlotState::Out;
        Ok(())
    }

    /// Puts a card into a slot that is out, and gives the job to rebuild it.
    pub fn fit(&mut self, slot: u32) -> Result<RebuildJob, Refusal> {
        match self.slot_state(slot)? {
            SlotState::Out => {
                self.slots[slot as usize] = SlotState::Filling(0);
                Ok(RebuildJob { slot })
            }
            _ => Err(Refusal::SlotState),
        }
    }

    /// Rebuilds at most so many stripes of the job's slot.
    pub fn rebuild(&mut self, job: &mut RebuildJob, stripes: u32) -> Result<RebuildAnswer, Refusal> {
        check_stripes(stripes)?;
        let SlotState::Filling(done) = self.slot_state(job.slot)? else {
            return Err(Refusal::SlotState);
        };
        let shape = self.shape();
        let slot = job.slot as usize;
        let mut answer = RebuildAnswer::default();
        let mut stripe = Stripe::new(shape, self.tag);
        for number in done..shape.blocks().min(done + stripes) {
            stripe.look::<C, S>(&self.shelf, &self.slots, number);
            if stripe.only_bad() == Some(slot) {
                self.shelf.store(slot, number, &stripe.mended::<C>(slot));
                answer.mended += 1;
            } else {
                answer.lost += 1;
            }
            answer.moved += 1;
            self.slots[slot] = SlotState::Filling(number + 1);
        }
        Ok(answer)
    }

    /// Ends a job whose slot is rebuilt to the end. A refusal hands the job back.
    pub fn finish(&mut self, job: RebuildJob) -> Result<(), (Refusal, RebuildJob)> {
        match self.slot_state(job.slot) {
            Ok(SlotState::Filling(done)) if done == self.shape().blocks() => {
                self.slots[job.slot as usize] = SlotState::In;
                Ok(())
            }
            Ok(_) => Err((Refusal::SlotState, job)),
            Err(refusal) => Err((refusal, job)),
        }
    }

    /// Ends a job; its slot is then out.
    pub fn give_up(&mut self, job: RebuildJob) -> Result<(), Refusal> {
        match self.slot_state(job.slot)? {
            SlotState::Filling(_) => {
                self.slots[job.slot as usize] = SlotState::Out;
                Ok(())
            }
            _ => Err(Refusal::SlotState),
        }
    }
}

/// Calls of an array over a fault layer.
impl<S: Shelf, C: Checksum> Array<FaultLayer<S>, C> {
    pub fn lay(&mut self, slot: u32, block: u32, plan: Plan) -> Result<(), Refusal> {
        self.shelf.lay(slot, block, plan)
    }

    pub fn blind(&mut self, slot: u32, block: u32) -> Result<(), Refusal> {
        self.shelf.blind(slot, block)
    }

    pub fn flip(&mut self, slot: u32, block: u32, index: u32, mask: u32) -> Result<(), Refusal> {
        self.shelf.flip(slot, block, index, mask)
    }
}

/// What a write puts in.
struct Record<'a> {
    payload: &'a Payload,
    owner: u32,
}

impl Record<'_> {
    /// Old parity XOR old block XOR new block.
    fn subtractive(&self, data: &Block, parity: &Block) -> (Payload, u32) {
        let mut payload = *block::payload(parity);
        block::xor_payload(&mut payload, block::payload(data));
        block::xor_payload(&mut payload, self.payload);
        (payload, block::owner(parity) ^ block::owner(data) ^ self.owner)
    }

    /// The XOR of the stripe's other data blocks and the new block.
    fn additive(&self, stripe: &Stripe, spot: &Spot) -> (Payload, u32) {
        let (mut payload, owner) = stripe.xor_of(|other| other != spot.slot && other != spot.parity);
        block::xor_payload(&mut payload, self.payload);
        (payload, owner ^ self.owner)
    }
}

fn check_owner(block: &Block, owner: u32) -> Result<(), Refusal> {
    if block::owner(block) == owner { Ok(()) } else { Err(Refusal::OtherOwner) }
}

fn check_stripes(stripes: u32) -> Result<(), Refusal> {
    if stripes <= MAX_STRIPES { Ok(()) } else { Err(Refusal::Place) }
}

fn next_version(version: u32) -> Result<u32, Refusal> {
    version.checked_add(1).ok_or(Refusal::VersionLimit)
}

#[cfg(test)]
mod tests {
    use super::*;
    use crate::checksum::Fletcher;
    use crate::shelf::Image;

    type Small = Array<FaultLayer<Image>, Fletcher>;

    fn formatted() -> Small {
        let shelf = FaultLayer::new(Image::zeroed(4, 5).unwrap());
        Array::format(shelf, 77).map_err(|(refusal, _)| refusal).unwrap()
    }

    fn read(array: &mut Small, address: u32, owner: u32, switch: Switch) -> Result<(ReadAnswer, Payload), Refusal> {
        let (mut found, mut rebuilt) = ([1; BLOCK], [1; BLOCK]);
        let answer = array.read(address, owner, switch, &mut found, &mut rebuilt, &mut blank(0))?;
        let given = if answer.source == Source::Found { found } else { rebuilt };
        Ok((answer, *block::payload(&given)))
    }

    #[test]
    fn written_is_read() {
        let mut array = formatted();
        assert_eq!(read(&mut array, 14, 0, Switch::Off).unwrap().1, [0; PAYLOAD]);
        for (turn, way) in [Way::Additive, Way::Subtractive].into_iter().cycle().take(60).enumerate() {
            let payload = [turn as u8; PAYLOAD];
            array.write(turn as u32 % 15, 3, &payload, way, &mut blank(0)).unwrap();
        }
        for address in 0..15 {
            let (answer, payload) = read(&mut array, address, 3, Switch::Off).unwrap();
            assert_eq!(answer, ReadAnswer { source: Source::Found, looks: 2 });
            assert_eq!(payload, [45 + address as u8; PAYLOAD]);
            assert_eq!(read(&mut array, address, 4, Switch::Off), Err(Refusal::OtherOwner));
        }
        assert_eq!(array.scrub(5, &mut blank(0)).unwrap(), ScrubAnswer { looked: 5, clean: 5, ..Default::default() });
    }

    #[test]
    fn lost_write_is_seen_and_mended() {
        let mut array = formatted();
        let spot = array.shape().locate(7).unwrap();
        array.lay(spot.slot as u32, spot.stripe, Plan::Lose).unwrap();
        array.write(7, 9, &[5; PAYLOAD], Way::Subtractive, &mut blank(0)).unwrap();
        let (answer, payload) = read(&mut array, 7, 9, Switch::On).unwrap();
        assert_eq!((answer.source, answer.looks, payload), (Source::Rebuilt, 4, [5; PAYLOAD]));
        let (answer, payload) = read(&mut array, 7, 9, Switch::Off).unwrap();
        assert_eq!((answer.source, answer.looks, payload), (Source::Found, 2, [5; PAYLOAD]));
        assert_eq!(array.tally(), 1);
    }

    #[test]
    fn rebuild_of_a_card() {
        let mut array = formatted();
        for address in 0..15 {
            array.write(address, 8, &[address as u8; PAYLOAD], Way::Additive, &mut blank(0)).unwrap();
        }
        array.pull(2).unwrap();
        assert_eq!(array.pull(1), Err(Refusal::SlotState));
        array.write(4, 8, &[200; PAYLOAD], Way::Subtractive, &mut blank(0)).unwrap();
        assert_eq!(array.scrub(5, &mut blank(0)).unwrap().short, 5);
        let mut job = array.fit(2).unwrap();
        assert_eq!(array.rebuild(&mut job, 3).unwrap(), RebuildAnswer { moved: 3, mended: 3, lost: 0 });
        let (refusal, mut job) = array.finish(job).unwrap_err();
        assert_eq!(refusal, Refusal::SlotState);
        assert_eq!(array.rebuild(&mut job, 65_536).unwrap().moved, 2);
        array.finish(job).map_err(|(refusal, _)| refusal).unwrap();
        assert_eq!(array.scrub(5, &mut blank(0)).unwrap().clean, 5);
        assert_eq!(read(&mut array, 4, 8, Switch::Off).unwrap().1, [200; PAYLOAD]);
    }

    #[test]
    fn look_stops_and_zeroes_the_rest() {
        let mut array = formatted();
        array.write(0, 6, &[1; PAYLOAD], Way::Additive, &mut blank(0)).unwrap();
        let mut out = [9; 3 * PAYLOAD];
        let mut switch = Switch::On;
        let answer = array.look(0, 3, 6, &mut switch, &mut out).unwrap();
        assert_eq!(answer, LookAnswer { read: 1, stopped: Some(Refusal::OtherOwner) });
        assert_eq!((out[79], out[80], out[239], switch), (1, 0, 0, Switch::On));
        assert_eq!(array.look(14, 3, 6, &mut switch, &mut out), Err(Refusal::Address));
        assert_eq!(array.look(15, 0, 6, &mut switch, &mut []), Err(Refusal::Address));
        assert_eq!(array.look(14, u32::MAX, 6, &mut switch, &mut out), Err(Refusal::Length));
    }
}
