//! Random scripts. While a script is made it is played on the array here, so that most of its calls make sense in the
//! state that was reached.

use crate::array::SlotState;
use crate::block::{self, BLOCK, Block, MAX_CARDS, PAYLOAD, Shape, data_index};
use crate::call::{Call, LONGEST};
use crate::checksum::{Checksum, Fletcher, Turning};
use crate::coverage::Coverage;
use crate::images::{self, Harm, Versions, altered, draw_payload};
use crate::replay::{Answers, Begun, Outcome, Part, Player, Setup, begin, close, replay};
use crate::rng::Rng;
use crate::shelf::{FAULT_ROWS, ReadableShelf};
use crate::stripe::{Slots, Stripe};

/// A script, and what the array here answered while it was made.
#[derive(Clone, Debug)]
pub struct Script {
    pub setup: Setup,
    pub calls: Vec<Call>,
    /// Bytes after the calls that are no call.
    pub tail: Vec<u8>,
    /// The length of the answers' buffer, if it is to be too short.
    pub limit: Option<usize>,
}

impl Script {
    /// The calls as words and bytes.
    pub fn bytes(&self) -> Vec<u8> {
        let mut bytes = Vec::new();
        self.calls.iter().for_each(|call| call.encode(&mut bytes));
        bytes.extend_from_slice(&self.tail);
        bytes
    }
}

/// Makes the script of a seed, and all its answers.
pub fn generate(seed: u64, coverage: &mut Coverage) -> (Script, Vec<u8>) {
    let mut rng = Rng::new(seed);
    let sum = rng.pick(&[1, 1, 1, 1, 1, 2, 2, 2, 2, 0, u32::MAX]);
    match sum {
        1 => generate_under::<Fletcher>(rng, sum, coverage),
        _ => generate_under::<Turning>(rng, sum, coverage),
    }
}

fn generate_under<C: Checksum>(mut rng: Rng, sum: u32, coverage: &mut Coverage) -> (Script, Vec<u8>) {
    coverage.scripts += 1;
    let owners = draw_owners(&mut rng);
    let setup = draw_setup::<C>(&mut rng, sum, &owners);
    let mut answers = Answers::new(usize::MAX);
    let mut calls = Vec::new();
    let shelf = match begin::<C>(&setup, &mut answers) {
        Begun::NotMade(number) => {
            coverage.made(number);
            None
        }
        Begun::NotOpened(refusal, shelf) => {
            coverage.made(0);
            coverage.begun(Some(refusal));
            Some(shelf)
        }
        Begun::Playing(player) => {
            coverage.made(0);
            coverage.begun(None);
            let mut maker = Maker::new(&mut rng, player, owners, answers, coverage);
            maker.make_calls();
            calls = maker.calls;
            answers = maker.answers;
            Some(maker.player.end(&mut answers))
        }
    };
    if let Some(shelf) = shelf {
        coverage.surveyed(close::<C>(&shelf, setup.tag, &mut answers).err());
    }
    let answers = answers.into_bytes();
    let mut script = Script { setup, calls, tail: draw_tail(&mut rng), limit: None };
    if rng.chance(4) {
        script.limit = Some(draw_limit(&mut rng, &script));
        coverage.cut_short();
    }
    (script, answers)
}

/// A length that is too short for the answers.
fn draw_limit(rng: &mut Rng, script: &Script) -> usize {
    let answers = replay(&script.setup, &script.bytes(), usize::MAX);
    rng.below(answers.len() as u32 + 1) as usize
}

fn draw_owners(rng: &mut Rng) -> Vec<u32> {
    let main = rng.pick(&[1, 7, 1000, u32::MAX]);
    // The first owner is by far the most frequent, so that stretches of one owner arise.
    vec![main, main, main, main, main, 2, 3, rng.word().max(1)]
}

fn draw_setup<C: Checksum>(rng: &mut Rng, sum: u32, owners: &[u32]) -> Setup {
    let cards = rng.range(3, MAX_CARDS as u32);
    let blocks = match rng.below(10_000) {
        0..800 => 1,
        800..9000 => rng.range(2, 12),
        9000..9700 => rng.range(13, 64),
        9700..9998 => rng.range(65, 700),
        _ => 65_536 - rng.below(2),
    };
    // The largest arrays have few cards, to save time.
    let cards = if blocks > 1000 { 3 } else { cards };
    let any = rng.word().max(1);
    let tag = rng.pick(&[1, 2, 0xC0FF_EE00, u32::MAX, any]);
    let shape = Shape::new(cards, blocks).expect("both are drawn in range");
    let zero = Setup { sum, cards, blocks, tag, made: 1, begun: 1, image: Vec::new() };
    let mut setup = match rng.weighted(&[36, 3, 4, 2, 50]) {
        0 => zero,
        1 => Setup { begun: 0, ..zero },
        2 => Setup { made: 0, begun: 0, image: images::random(rng, shape), ..zero },
        3 => Setup { made: 0, begun: 1, image: images::random(rng, shape), ..zero },
        _ => {
            let image = draw_crafted::<C>(rng, shape, tag, owners);
            Setup { made: 0, begun: 0, image, ..zero }
        }
    };
    if rng.chance(4) {
        spoil_setup(rng, &mut setup);
    }
    setup
}

fn draw_crafted<C: Checksum>(rng: &mut Rng, shape: Shape, tag: u32, owners: &[u32]) -> Vec<u8> {
    let versions = rng.pick(&[Versions::Small, Versions::Small, Versions::NearLimit, Versions::Any]);
    let harm = rng.pick(&[Harm::None, Harm::Light, Harm::Light, Harm::Heavy]);
    // Few images are of another array or another checksum.
    let tag = if rng.chance(3) { tag.wrapping_add(1) } else { tag };
    match rng.below(100) {
        0 => images::crafted::<Fletcher>(rng, shape, tag, owners, versions, harm),
        1 => images::crafted::<Turning>(rng, shape, tag, owners, versions, harm),
        _ => images::crafted::<C>(rng, shape, tag, owners, versions, harm),
    }
}

/// Makes a setup that is refused, most of the time.
fn spoil_setup(rng: &mut Rng, setup: &mut Setup) {
    for _ in 0..rng.range(1, 2) {
        match rng.below(8) {
            0 => setup.cards = rng.pick(&[0, 1, 2, 9, 10, 255, 256 + 5, u32::MAX]),
            1 => setup.blocks = rng.pick(&[0, 65_537, 131_072, 1 << 31, u32::MAX]),
            2 | 3 => setup.tag = 0,
            4 => setup.made ^= 1,
            5 => {
                setup.image.pop();
            }
            6 => setup.image.push(rng.pick(&[0, 1, 2])),
            _ => {
                let flags = setup.image.len() / 129;
                if flags > 0 {
                    let back = rng.below(flags as u32) as usize + 1;
                    let index = setup.image.len() - back;
                    setup.image[index] = rng.pick(&[2, 3, 128, 255]);
                }
            }
        }
    }
}

/// What follows the last call: mostly nothing, else bytes that end the calls.
fn draw_tail(rng: &mut Rng) -> Vec<u8> {
    let mut tail = Vec::new();
    match rng.below(30) {
        0 => tail.extend_from_slice(&rng.pick(&[0u32, 18, 19, 256, 1 << 24, u32::MAX]).to_be_bytes()),
        1 => {
            // A call that has not all its bytes.
            let payload = vec![1; 80];
            Call::Write { address: 0, owner: 1, way: 0, length: 80, payload }.encode(&mut tail);
            tail.truncate(rng.below(tail.len() as u32) as usize);
        }
        2 => {
            Call::Flip { slot: 0, block: 0, index: 0, mask: 1 }.encode(&mut tail);
            tail.truncate(rng.below(tail.len() as u32) as usize);
        }
        _ => return tail,
    }
    if tail.len() == 4 && rng.chance(50) {
        // Calls after the end of the calls.
        Call::Blind { slot: 0, block: 0 }.encode(&mut tail);
    }
    tail
}

/// What a script is mostly about.
#[derive(Clone, Copy)]
struct Theme {
    /// How often each action is taken, in the order of `ACTIONS`.
    weights: [u32; 13],
    /// Percent of the calls whose arguments may be out of range.
    wild: u32,
}

#[derive(Clone, Copy)]
enum Action {
    Read,
    Write,
    Scrub,
    Look,
    Slots,
    Lay,
    Blind,
    Flip,
    Tally,
    SlotState,
    Reopen,
    ShelfRead,
    ShelfWrite,
}

const ACTIONS: [Action; 13] = [
    Action::Read,
    Action::Write,
    Action::Scrub,
    Action::Look,
    Action::Slots,
    Action::Lay,
    Action::Blind,
    Action::Flip,
    Action::Tally,
    Action::SlotState,
    Action::Reopen,
    Action::ShelfRead,
    Action::ShelfWrite,
];

const CALM: Theme = Theme { weights: [30, 34, 5, 6, 4, 7, 3, 3, 2, 2, 1, 1, 1], wild: 3 };
const DAMAGE: Theme = Theme { weights: [28, 26, 6, 6, 3, 12, 5, 6, 2, 1, 1, 2, 4], wild: 3 };
const SLOTS: Theme = Theme { weights: [18, 24, 5, 5, 34, 4, 2, 2, 1, 5, 0, 0, 0], wild: 4 };
const SLOTS_AND_REOPENING: Theme = Theme { weights: [14, 18, 5, 5, 34, 4, 2, 2, 1, 5, 5, 2, 2], wild: 4 };
const TABLE: Theme = Theme { weights: [10, 10, 2, 2, 2, 50, 18, 3, 1, 1, 1, 1, 1], wild: 10 };
const ARGUMENTS: Theme = Theme { weights: [16, 16, 8, 12, 10, 8, 5, 6, 1, 6, 1, 6, 6], wild: 60 };
const SHELF: Theme = Theme { weights: [18, 18, 8, 5, 5, 6, 3, 3, 1, 1, 4, 8, 20], wild: 6 };

const THEMES: [(Theme, u32); 7] =
    [(CALM, 25), (DAMAGE, 25), (SLOTS, 18), (SLOTS_AND_REOPENING, 7), (TABLE, 8), (ARGUMENTS, 9), (SHELF, 8)];

/// Numbers that are out of range for most arguments.
const EXTREME: [u32; 8] = [255, 256, 65_535, 65_536, 65_537, 1 << 31, u32::MAX - 1, u32::MAX];

fn fills_findings(call: &Call, outcome: Outcome) -> bool {
    match (call, outcome) {
        (Call::Read { .. } | Call::Write { .. }, Outcome::Accepted(_)) => true,
        (Call::Read { .. } | Call::Write { .. }, Outcome::Refused(refusal)) => refusal.number() >= 8,
        (Call::Scrub { stripes }, Outcome::Accepted(_)) => *stripes > 0,
        _ => false,
    }
}

struct Maker<'a, C> {
    rng: &'a mut Rng,
    player: Player<C>,
    shape: Shape,
    owners: Vec<u32>,
    theme: Theme,
    /// Stripes that most calls are about.
    hot: Vec<u32>,
    /// Places with plans that no write has met yet, as far as is known.
    planned: Vec<(u32, u32)>,
    /// Places that were damaged and not looked at since, as far as is known.
    harmed: Vec<(u32, u32)>,
    calls: Vec<Call>,
    answers: Answers,
    coverage: &'a mut Coverage,
}

impl<'a, C: Checksum> Maker<'a, C> {
    fn new(
        rng: &'a mut Rng,
        player: Player<C>,
        owners: Vec<u32>,
        answers: Answers,
        coverage: &'a mut Coverage,
    ) -> Self {
        let shape = player.array().shape();
        let theme = THEMES[rng.weighted(&THEMES.map(|(_, weight)| weight))].0;
        let mut hot = vec![rng.below(shape.blocks())];
        for _ in 0..rng.below(3) {
            hot.push(rng.below(shape.blocks()));
        }
        if rng.chance(30) {
            hot.push(shape.blocks() - 1);
        }
        Self {
            rng,
            player,
            shape,
            owners,
            theme,
            hot,
            planned: Vec::new(),
            harmed: Vec::new(),
            calls: Vec::new(),
            answers,
            coverage,
        }
    }

    fn make_calls(&mut self) {
        let count = match self.rng.below(10) {
            0 => self.rng.range(0, 5),
            1..=7 => self.rng.range(10, 60),
            _ => self.rng.range(60, 150),
        };
        if self.theme.weights == TABLE.weights && self.rng.chance(70) {
            self.fill_table();
        }
        while self.calls.len() < count as usize {
            if self.rng.chance(4) {
                self.leave_lost_stripe();
            }
            let call = self.draw();
            self.emit(call);
        }
    }

    /// Turns to another stripe where one of those that most calls are about is lost, or writes it anew.
    fn leave_lost_stripe(&mut self) {
        let index = self.rng.below(self.hot.len() as u32) as usize;
        let is_lost = |stripe: &Stripe| stripe.mask().count_ones() > 1;
        if !is_lost(&self.look_at(self.hot[index])) {
            return;
        }
        let another = self.rng.below(self.shape.blocks());
        if !is_lost(&self.look_at(another)) {
            self.hot[index] = another;
        } else if self.rng.chance(40) {
            self.write_stripe_anew(self.hot[index]);
        }
    }

    fn write_stripe_anew(&mut self, number: u32) {
        let versions = self.rng.pick(&[Versions::Small, Versions::Small, Versions::Small, Versions::NearLimit]);
        let tag = self.player.tag();
        let blocks = images::stripe_blocks::<C>(self.rng, self.shape, tag, number, &self.owners, versions);
        for (slot, block) in (0..).zip(blocks) {
            self.emit(Call::ShelfWrite { slot, block: number, length: BLOCK as u32, bytes: block.to_vec() });
        }
        self.harmed.clear();
    }

    fn look_at(&self, number: u32) -> Stripe {
        let mut stripe = Stripe::new(self.shape, self.player.tag());
        stripe.look::<C, _>(self.player.array().shelf(), &self.slots(), number);
        stripe
    }

    fn emit(&mut self, call: Call) {
        self.answers.begin(Part::Call(self.calls.len()));
        let outcome = self.player.play(&call, &mut self.answers);
        self.coverage.call(&call, outcome, self.shape.blocks());
        if fills_findings(&call, outcome) {
            self.coverage.findings(self.player.findings(), self.shape);
        }
        match call {
            Call::Lay { slot, block, .. } if outcome.is_accepted() => self.planned.push((slot, block)),
            Call::Blind { slot, block } | Call::Flip { slot, block, .. } | Call::ShelfWrite { slot, block, .. }
                if outcome.is_accepted() =>
            {
                self.harmed.push((slot, block));
            }
            _ => {}
        }
        self.calls.push(call);
    }

    /// Lays plans and marks until the table is full, and a few more.
    fn fill_table(&mut self) {
        let goal = self.rng.range(FAULT_ROWS as u32 - 2, FAULT_ROWS as u32 + 4);
        for _ in 0..goal {
            let call = if self.rng.chance(75) { self.draw_lay(false) } else { self.draw_blind(false) };
            self.emit(call);
        }
    }

    fn draw(&mut self) -> Call {
        if !self.planned.is_empty() && self.rng.chance(40) {
            return self.draw_for_plan();
        }
        if !self.harmed.is_empty() && self.rng.chance(40) {
            return self.draw_for_harm();
        }
        let wild = self.rng.chance(self.theme.wild);
        match ACTIONS[self.rng.weighted(&self.theme.weights)] {
            Action::Read => self.draw_read(wild),
            Action::Write => self.draw_write(wild),
            Action::Scrub => self.draw_scrub(wild),
            Action::Look => self.draw_look(wild),
            Action::Slots => self.draw_slots(wild),
            Action::Lay => self.draw_lay(wild),
            Action::Blind => self.draw_blind(wild),
            Action::Flip => self.draw_flip(wild),
            Action::Tally => Call::Tally,
            Action::SlotState => Call::SlotState { slot: self.slot(wild) },
            Action::Reopen => Call::Reopen,
            Action::ShelfRead => self.draw_shelf_read(wild),
            Action::ShelfWrite => self.draw_shelf_write(wild),
        }
    }

    /// A call that writes to a place for which there is a plan.
    fn draw_for_plan(&mut self) -> Call {
        let index = self.rng.below(self.planned.len() as u32) as usize;
        let (slot, block) = self.planned.swap_remove(index);
        let address = self.address_of_place(slot, block);
        match self.rng.below(20) {
            0..=12 => self.draw_write_to(address),
            13..=15 => {
                let owner = self.owner_of(address);
                Call::Read { address, owner, switch: 1, found: BLOCK as u32, rebuilt: BLOCK as u32 }
            }
            16..=18 => Call::Scrub { stripes: self.shape.blocks() },
            _ => self.draw_shelf_write_to(slot, block),
        }
    }

    /// A call that meets a place that was damaged.
    fn draw_for_harm(&mut self) -> Call {
        let index = self.rng.below(self.harmed.len() as u32) as usize;
        let (slot, block) = self.harmed.swap_remove(index);
        let address = self.address_of_place(slot, block);
        match self.rng.below(10) {
            0..=5 => {
                let owner = self.owner_of(address);
                Call::Read { address, owner, switch: self.switch(), found: BLOCK as u32, rebuilt: BLOCK as u32 }
            }
            6..=7 => self.draw_write_to(address),
            8 => {
                // Another block of the stripe.
                let other = self.rng.below(self.shape.cards());
                let address = self.address_of_place(other, block);
                self.draw_write_to(address)
            }
            _ => Call::Scrub { stripes: self.shape.blocks() },
        }
    }

    fn draw_read(&mut self, wild: bool) -> Call {
        let (address, owner) = self.address_and_owner(wild);
        Call::Read {
            address,
            owner,
            switch: self.switch(),
            found: self.length(BLOCK as u32, wild),
            rebuilt: self.length(BLOCK as u32, wild),
        }
    }

    fn draw_write(&mut self, wild: bool) -> Call {
        let address = self.address(wild);
        if !wild {
            return self.draw_write_to(address);
        }
        let owner = if self.rng.chance(30) { 0 } else { self.owner() };
        let length = self.length(PAYLOAD as u32, true);
        let mut payload = vec![0; length.min(LONGEST) as usize];
        self.rng.fill(&mut payload);
        Call::Write { address, owner, way: self.switch(), length, payload }
    }

    fn draw_write_to(&mut self, address: u32) -> Call {
        let payload = draw_payload(self.rng).to_vec();
        Call::Write { address, owner: self.owner(), way: self.switch(), length: PAYLOAD as u32, payload }
    }

    fn draw_scrub(&mut self, wild: bool) -> Call {
        let blocks = self.shape.blocks();
        let stripes = if wild && self.rng.chance(70) {
            self.rng.pick(&[65_537, 65_537, 65_538, 131_072, u32::MAX])
        } else {
            match self.rng.below(1000) {
                // Many stripes take long.
                0 => 65_536,
                1..50 => 0,
                50..450 => 1,
                450..600 => self.rng.range(1, 3),
                600..850 => blocks,
                850..900 => blocks - 1,
                900..950 => blocks + 1,
                _ => (2 * blocks + self.rng.below(3)).min(65_536),
            }
        };
        Call::Scrub { stripes }
    }

    fn draw_look(&mut self, wild: bool) -> Call {
        let (first, owner) = self.address_and_owner(wild);
        let switch = self.switch();
        let left = self.shape.addresses().saturating_sub(first);
        let most = LONGEST / PAYLOAD as u32;
        let mut count = self.rng.below(left.min(most) + 1);
        let mut length = count * PAYLOAD as u32;
        if wild {
            match self.rng.below(8) {
                0 => length = self.length(length, true),
                1 => length = length.wrapping_sub(1),
                2 => length += 1,
                3 => {
                    // One record beyond the end, or a few.
                    count = (left + self.rng.range(1, 3)).min(most + 1);
                    length = count * PAYLOAD as u32;
                }
                4 => {
                    // 80 bytes each come to a multiple of 2^32.
                    count = self.rng.pick(&[1 << 28, 1 << 31, 3 << 28]);
                    length = 0;
                }
                5 => {
                    count = 0;
                    length = 0;
                }
                6 => count = self.rng.pick(&EXTREME),
                _ => {}
            }
        }
        Call::Look { first, count, owner, switch, length }
    }

    fn draw_slots(&mut self, wild: bool) -> Call {
        if wild || self.rng.chance(10) {
            return self.draw_any_slot_event(wild);
        }
        let states: Vec<SlotState> = self.slots().into_iter().take(self.shape.cards() as usize).collect();
        let find = |wanted: fn(&SlotState) -> bool| states.iter().position(wanted).map(|slot| slot as u32);
        match self.player.job_slot().map(|slot| states[slot as usize]) {
            Some(SlotState::Filling(done)) if done == self.shape.blocks() => match self.rng.below(20) {
                0..=14 => Call::Finish,
                15..=16 => Call::Rebuild { stripes: self.rebuild_stripes() },
                17..=18 => Call::GiveUp,
                _ => Call::Pull { slot: self.slot(false) },
            },
            Some(SlotState::Filling(_)) => match self.rng.below(20) {
                0..=14 => Call::Rebuild { stripes: self.rebuild_stripes() },
                15..=16 => Call::Finish,
                17 => Call::GiveUp,
                _ => Call::Fit { slot: self.slot(false) },
            },
            // The job is of an array that was closed.
            Some(_) => match self.rng.below(6) {
                0 => Call::Rebuild { stripes: self.rebuild_stripes() },
                1 => Call::Finish,
                2 => Call::GiveUp,
                3 => Call::Pull { slot: self.player.job_slot().expect("a job is in hand") },
                4 => Call::Pull { slot: self.slot(false) },
                _ => Call::Fit { slot: find(|state| *state == SlotState::Out).unwrap_or(0) },
            },
            None => match find(|state| *state == SlotState::Out) {
                Some(slot) if self.rng.chance(90) => Call::Fit { slot },
                _ => Call::Pull { slot: self.slot(false) },
            },
        }
    }

    fn draw_any_slot_event(&mut self, wild: bool) -> Call {
        match self.rng.below(5) {
            0 => Call::Pull { slot: self.slot(wild) },
            1 => Call::Fit { slot: self.slot(wild) },
            2 if wild => Call::Rebuild { stripes: self.rng.pick(&[0, 65_536, 65_537, 65_537, u32::MAX]) },
            2 => Call::Rebuild { stripes: self.rebuild_stripes() },
            3 => Call::Finish,
            _ => Call::GiveUp,
        }
    }

    fn rebuild_stripes(&mut self) -> u32 {
        let blocks = self.shape.blocks();
        match self.rng.below(20) {
            0 => 0,
            1..=4 => 1,
            5..=8 => self.rng.range(1, blocks),
            9..=16 => blocks,
            17 => blocks.saturating_sub(1),
            18 => (blocks + 1).min(65_536),
            _ => 65_536,
        }
    }

    fn draw_lay(&mut self, wild: bool) -> Call {
        let (slot, block) = self.place_to_harm(wild);
        let plan = self.rng.below(4);
        let number = match plan {
            1 if wild => self.rng.pick(&[0, 1, 127, 128, 129, 255, 256, 65_537, u32::MAX]),
            1 => {
                let length = self.rng.range(1, 127);
                self.rng.pick(&[1, 80, 92, 96, 124, 127, length, length])
            }
            3 if wild => {
                let blocks = self.shape.blocks();
                self.rng.pick(&[block, block, 0, blocks - 1, blocks, blocks + 1, 65_536, u32::MAX])
            }
            3 => self.other_block(block),
            _ => self.rng.pick(&[0, 0, 1, 128, u32::MAX]),
        };
        // Every number from 3 on stands for stray.
        let plan = if plan == 3 { self.rng.pick(&[3, 3, 3, 4, 256, u32::MAX]) } else { plan };
        Call::Lay { slot, block, plan, number }
    }

    /// Another block of a card, if it has more than one.
    fn other_block(&mut self, block: u32) -> u32 {
        let other = self.stripe();
        if other != block { other } else { (block + 1) % self.shape.blocks() }
    }

    fn draw_blind(&mut self, wild: bool) -> Call {
        let (slot, block) = self.place_to_harm(wild);
        Call::Blind { slot, block }
    }

    fn draw_flip(&mut self, wild: bool) -> Call {
        let (slot, block) = self.place_to_harm(wild);
        let index = match self.rng.below(3) {
            _ if wild && self.rng.chance(40) => self.rng.pick(&[127, 128, 129, 255, 256, 384, u32::MAX]),
            0 => self.rng.range(80, 127),
            _ => self.rng.below(BLOCK as u32),
        };
        let mask = if wild && self.rng.chance(40) {
            self.rng.pick(&[0, 0, 255, 256, 257, 65_536, u32::MAX])
        } else {
            self.rng.range(1, 255)
        };
        Call::Flip { slot, block, index, mask }
    }

    fn draw_shelf_read(&mut self, wild: bool) -> Call {
        let (slot, block) = self.place(wild);
        Call::ShelfRead { slot, block, length: self.length(BLOCK as u32, wild) }
    }

    fn draw_shelf_write(&mut self, wild: bool) -> Call {
        let (slot, block) = self.place(wild);
        if !wild {
            return self.draw_shelf_write_to(slot, block);
        }
        let length = self.length(BLOCK as u32, true);
        let mut bytes = vec![0; length.min(LONGEST) as usize];
        self.rng.fill(&mut bytes);
        Call::ShelfWrite { slot, block, length, bytes }
    }

    /// Writes to a place what it holds, what another place holds, or that with a change.
    fn draw_shelf_write_to(&mut self, slot: u32, block: u32) -> Call {
        let (from_slot, from_block) = if self.rng.chance(85) { (slot, block) } else { self.place(false) };
        let mut bytes: Block = [0; BLOCK];
        self.player.array().shelf().below().fetch(from_slot as usize, from_block, &mut bytes);
        if self.rng.chance(80) {
            bytes = altered::<C>(self.rng, self.shape, bytes);
        }
        Call::ShelfWrite { slot, block, length: BLOCK as u32, bytes: bytes.to_vec() }
    }

    fn slots(&self) -> Slots {
        std::array::from_fn(|slot| self.player.array().slot_state(slot as u32).unwrap_or(SlotState::In))
    }

    fn stripe(&mut self) -> u32 {
        if self.rng.chance(75) { self.rng.pick(&self.hot) } else { self.rng.below(self.shape.blocks()) }
    }

    fn slot(&mut self, wild: bool) -> u32 {
        let cards = self.shape.cards();
        if wild && self.rng.chance(60) {
            return self.rng.pick(&[cards, cards, cards + 1, 7, 8, 256, u32::MAX]);
        }
        self.rng.below(cards)
    }

    fn place(&mut self, wild: bool) -> (u32, u32) {
        if !wild {
            return (self.rng.below(self.shape.cards()), self.stripe());
        }
        let slot = if self.rng.chance(35) { self.slot(true) } else { self.rng.below(self.shape.cards()) };
        let block = if self.rng.chance(35) {
            let blocks = self.shape.blocks();
            self.rng.pick(&[blocks, blocks, blocks + 1, 65_536, u32::MAX])
        } else {
            self.stripe()
        };
        (slot, block)
    }

    /// A place for damage, most often one that leaves its stripe with no more than one bad block.
    fn place_to_harm(&mut self, wild: bool) -> (u32, u32) {
        if wild {
            return self.place(true);
        }
        for _ in 0..4 {
            let (slot, block) = self.place(false);
            let stripe = self.look_at(block);
            match (stripe.mask().count_ones(), stripe.only_bad()) {
                (0, _) => return (slot, block),
                (1, Some(bad)) if self.rng.chance(60) => return (bad as u32, block),
                _ if self.rng.chance(15) => return (slot, block),
                _ => {}
            }
        }
        self.place(false)
    }

    fn address(&mut self, wild: bool) -> u32 {
        let addresses = self.shape.addresses();
        if wild && self.rng.chance(40) {
            let places = self.shape.cards() * self.shape.blocks();
            let extreme = self.rng.pick(&EXTREME);
            return self.rng.pick(&[addresses - 1, addresses, addresses, addresses + 1, places, u32::MAX, extreme]);
        }
        if self.rng.chance(5) {
            return addresses - 1;
        }
        let data = self.shape.cards() - 1;
        self.stripe() * data + self.rng.below(data)
    }

    /// An address whose write goes to a place: its own, or one of its stripe if it is a place of parity.
    fn address_of_place(&mut self, slot: u32, block: u32) -> u32 {
        let data = self.shape.cards() - 1;
        let parity = self.shape.parity_slot(block);
        let index =
            if slot as usize == parity { self.rng.below(data) } else { data_index(parity, slot as usize) as u32 };
        block * data + index
    }

    /// An owner that is not 0.
    fn owner(&mut self) -> u32 {
        self.rng.pick(&self.owners)
    }

    fn address_and_owner(&mut self, wild: bool) -> (u32, u32) {
        let address = self.address(wild);
        let owner = match self.rng.below(20) {
            0 => self.owner(),
            1 => 0,
            _ => self.owner_of(address),
        };
        (address, owner)
    }

    /// The owner that is stored for an address, as far as it can be read.
    fn owner_of(&mut self, address: u32) -> u32 {
        let Ok(spot) = self.shape.locate(address) else {
            return self.owner();
        };
        let stripe = self.look_at(spot.stripe);
        if !stripe.is_bad(spot.slot) {
            block::owner(stripe.block(spot.slot))
        } else if stripe.only_bad() == Some(spot.slot) {
            block::owner(&stripe.mended::<C>(spot.slot))
        } else {
            self.owner()
        }
    }

    /// Off or on; every number but 0 stands for on.
    fn switch(&mut self) -> u32 {
        self.rng.pick(&[0, 0, 0, 0, 1, 1, 1, 1, 2, u32::MAX])
    }

    fn length(&mut self, right: u32, wild: bool) -> u32 {
        if wild && self.rng.chance(30) {
            return self.rng.pick(&[0, 1, 79, 80, 81, 127, 128, 129, 256, 1023, 1024, 1025, 5000, u32::MAX]);
        }
        right
    }
}

#[cfg(test)]
mod tests {
    use super::*;
    use crate::replay::replay;

    #[test]
    fn scripts_answer_as_while_they_were_made() {
        for seed in 0..300 {
            let (script, answers) = generate(seed, &mut Coverage::default());
            assert_eq!(replay(&script.setup, &script.bytes(), usize::MAX), answers, "seed {seed}");
            let limit = script.limit.unwrap_or(answers.len() / 2);
            assert!(answers.starts_with(&replay(&script.setup, &script.bytes(), limit)), "seed {seed}");
        }
    }
}
