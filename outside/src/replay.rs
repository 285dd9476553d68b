//! Plays scripts of calls on the array, and writes what each call answers.

use crate::Refusal;
use crate::array::{
    Array, LookAnswer, ReadAnswer, RebuildAnswer, RebuildJob, ScrubAnswer, SlotState, Source, Switch, Way, WriteAnswer,
    show,
};
use crate::call::{Call, LONGEST};
use crate::checksum::{Checksum, Fletcher, Turning};
use crate::finding::{Condition, Finding, Findings, Layer, blank};
use crate::shelf::{FaultLayer, Image, MakeError, Plan, ReadableShelf, Seen, Shelf};
use crate::survey::survey;

/// What a script starts from.
#[derive(Clone, Debug)]
pub struct Setup {
    /// 1 is Fletcher-32, any other number the turning sum.
    pub sum: u32,
    pub cards: u32,
    pub blocks: u32,
    pub tag: u32,
    /// 0: an image is opened over `image`; else a zero image is made.
    pub made: u32,
    /// 0: the array is opened; else it is formatted.
    pub begun: u32,
    pub image: Vec<u8>,
}

/// Answers where no job is in hand.
const NO_JOB: u32 = u32::MAX;
const NO_MEMORY: u32 = 255;
/// What buffers hold before a call.
const FILLER: u8 = 170;

const LOWER_WORD_OF_LEAD: &str = "lead, lower word";

/// A part of the answers.
#[derive(Clone, Copy, Debug, PartialEq, Eq)]
pub enum Part {
    Made,
    Begun,
    /// The call of this number, from 0 on.
    Call(usize),
    Closing,
}

/// A word or byte string of the answers, and where it starts.
#[derive(Clone, Copy, Debug)]
pub struct Piece {
    pub start: usize,
    pub length: usize,
    pub part: Part,
    pub name: &'static str,
    /// The row of a finding.
    pub row: Option<usize>,
}

/// Where answers are written.
pub struct Answers {
    bytes: Vec<u8>,
    limit: usize,
    full: bool,
    part: Part,
    row: Option<usize>,
    /// Kept only if asked for.
    pieces: Option<Vec<Piece>>,
}

impl Answers {
    pub fn new(limit: usize) -> Self {
        Self { bytes: Vec::new(), limit, full: false, part: Part::Made, row: None, pieces: None }
    }

    /// Keeps beside the bytes what each of them is.
    pub fn with_pieces(limit: usize) -> Self {
        Self { pieces: Some(Vec::new()), ..Self::new(limit) }
    }

    pub fn into_bytes(self) -> Vec<u8> {
        self.bytes
    }

    pub fn into_bytes_and_pieces(self) -> (Vec<u8>, Vec<Piece>) {
        (self.bytes, self.pieces.unwrap_or_default())
    }

    pub fn begin(&mut self, part: Part) {
        self.part = part;
    }

    fn bytes(&mut self, name: &'static str, bytes: &[u8]) {
        if self.full || bytes.len() > self.limit - self.bytes.len() {
            self.full = true;
            return;
        }
        if let Some(pieces) = &mut self.pieces {
            let start = self.bytes.len();
            pieces.push(Piece { start, length: bytes.len(), part: self.part, name, row: self.row });
        }
        self.bytes.extend_from_slice(bytes);
    }

    fn word(&mut self, name: &'static str, word: u32) {
        self.bytes(name, &word.to_be_bytes());
    }

    fn result<T, E: Copy + Into<u32>>(&mut self, name: &'static str, result: &Result<T, E>) {
        match result {
            Ok(_) => self.word(name, 0),
            Err(error) => self.word(name, (*error).into()),
        }
    }

    fn findings(&mut self, findings: &Findings) {
        for (row, finding) in findings.iter().enumerate() {
            self.row = Some(row);
            self.finding(finding);
        }
        self.row = None;
    }

    fn finding(&mut self, finding: &Finding) {
        let lead = finding.lead.unwrap_or(0);
        self.word("slot", finding.slot);
        self.word("block", finding.block);
        self.word("condition", condition_number(finding.condition));
        self.word("layer", layer_number(finding.condition.layer()));
        self.word("whether there is a lead", u32::from(finding.lead.is_some()));
        self.word("lead, upper word", (lead >> 32) as u32);
        self.word(LOWER_WORD_OF_LEAD, lead as u32);
        self.word("mended", u32::from(finding.mended));
    }
}

impl From<Refusal> for u32 {
    fn from(refusal: Refusal) -> u32 {
        refusal.number()
    }
}

fn condition_number(condition: Condition) -> u32 {
    match condition {
        Condition::NotLooked => 0,
        Condition::Readable => 1,
        Condition::Blind => 2,
        Condition::Broken => 3,
        Condition::Foreign => 4,
        Condition::Behind => 5,
    }
}

fn layer_number(layer: Option<Layer>) -> u32 {
    match layer {
        None => 0,
        Some(Layer::Card) => 1,
        Some(Layer::Checksum) => 2,
        Some(Layer::Identity) => 3,
        Some(Layer::Version) => 4,
    }
}

/// What a call that was accepted answered.
#[derive(Clone, Copy, Debug)]
pub enum Done {
    Read(ReadAnswer),
    Write(WriteAnswer),
    Scrub(ScrubAnswer),
    Look(LookAnswer),
    Rebuild(RebuildAnswer),
    ShelfRead(Seen),
    Other,
}

/// How a call ended.
#[derive(Clone, Copy, Debug)]
pub enum Outcome {
    Accepted(Done),
    Refused(Refusal),
    NoJob,
}

impl Outcome {
    fn of<T>(result: Result<T, Refusal>, done: impl FnOnce(T) -> Done) -> Self {
        match result {
            Ok(answer) => Outcome::Accepted(done(answer)),
            Err(refusal) => Outcome::Refused(refusal),
        }
    }

    fn plain(result: Result<(), Refusal>) -> Self {
        Self::of(result, |()| Done::Other)
    }

    pub fn is_accepted(self) -> bool {
        matches!(self, Outcome::Accepted(_))
    }
}

type Layered = FaultLayer<Image>;

/// An array on which calls are played.
pub struct Player<C> {
    tag: u32,
    /// Always there between calls.
    array: Option<Array<Layered, C>>,
    job: Option<JobInHand>,
    findings: Findings,
}

struct JobInHand {
    job: RebuildJob,
    slot: u32,
}

/// How far a script came before its first call.
#[allow(clippy::large_enum_variant)]
pub enum Begun<C> {
    /// There is no image, and nothing follows.
    NotMade(u32),
    /// There is no array, and only the closing part follows.
    NotOpened(Refusal, Layered),
    Playing(Player<C>),
}

/// Makes the image, the fault layer and the array.
pub fn begin<C: Checksum>(setup: &Setup, answers: &mut Answers) -> Begun<C> {
    answers.begin(Part::Made);
    let image = make_image(setup);
    answers.result("word of the image", &image);
    let image = match image {
        Ok(image) => image,
        Err(number) => return Begun::NotMade(number),
    };

    answers.begin(Part::Begun);
    let shelf = FaultLayer::new(image);
    let array = if setup.begun == 0 { Array::open(shelf, setup.tag) } else { Array::format(shelf, setup.tag) };
    match array {
        Ok(array) => {
            answers.word("word of the array", 0);
            Begun::Playing(Player { tag: setup.tag, array: Some(array), job: None, findings: blank(0) })
        }
        Err((refusal, shelf)) => {
            answers.word("word of the array", refusal.number());
            Begun::NotOpened(refusal, shelf)
        }
    }
}

fn make_image(setup: &Setup) -> Result<Image, u32> {
    if setup.made == 0 {
        Image::open(setup.cards, setup.blocks, setup.image.clone()).map_err(|(refusal, _)| refusal.number())
    } else {
        Image::zeroed(setup.cards, setup.blocks).map_err(|error| match error {
            MakeError::Refused(refusal) => refusal.number(),
            MakeError::NoMemory => NO_MEMORY,
        })
    }
}

/// The closing part, after the array is closed.
pub fn close<C: Checksum>(shelf: &Layered, tag: u32, answers: &mut Answers) -> Result<(), Refusal> {
    answers.begin(Part::Closing);
    answers.word("rows of the fault table", shelf.rows_used() as u32);
    let image = shelf.below();
    let mut masks = vec![FILLER; image.shape().blocks() as usize];
    let result = survey::<C, Image>(image, tag, &mut masks);
    answers.result("word of the survey", &result);
    answers.bytes("masks of the survey", &masks);
    answers.bytes("image", image.bytes());
    result
}

impl<C: Checksum> Player<C> {
    pub fn array(&self) -> &Array<Layered, C> {
        self.array.as_ref().expect("the array is there between calls")
    }

    fn array_mut(&mut self) -> &mut Array<Layered, C> {
        self.array.as_mut().expect("the array is there between calls")
    }

    pub fn tag(&self) -> u32 {
        self.tag
    }

    pub fn findings(&self) -> &Findings {
        &self.findings
    }

    /// The slot of the job in hand.
    pub fn job_slot(&self) -> Option<u32> {
        self.job.as_ref().map(|job| job.slot)
    }

    /// Gives up the job in hand, if any, and closes the array.
    pub fn end(mut self, answers: &mut Answers) -> Layered {
        answers.begin(Part::Closing);
        self.give_up(answers);
        self.array.expect("the array is there between calls").close()
    }

    /// Plays one call.
    pub fn play(&mut self, call: &Call, answers: &mut Answers) -> Outcome {
        match *call {
            Call::Read { address, owner, switch, found, rebuilt } => {
                self.read(address, owner, switch_of(switch), buffer(found), buffer(rebuilt), answers)
            }
            Call::Write { address, owner, way, ref payload, .. } => self.write(address, owner, way, payload, answers),
            Call::Scrub { stripes } => self.scrub(stripes, answers),
            Call::Look { first, count, owner, switch, length } => {
                self.look(first, count, owner, switch_of(switch), buffer(length), answers)
            }
            Call::Pull { slot } => {
                let result = self.array_mut().pull(slot);
                plain(result, answers)
            }
            Call::Fit { slot } => self.fit(slot, answers),
            Call::Rebuild { stripes } => self.rebuild(stripes, answers),
            Call::Finish => self.finish(answers),
            Call::GiveUp => match self.give_up(answers) {
                Some(result) => Outcome::plain(result),
                None => no_job(answers),
            },
            Call::Lay { slot, block, plan, number } => {
                let result = self.array_mut().lay(slot, block, plan_of(plan, number));
                plain(result, answers)
            }
            Call::Blind { slot, block } => {
                let result = self.array_mut().blind(slot, block);
                plain(result, answers)
            }
            Call::Flip { slot, block, index, mask } => {
                let result = self.array_mut().flip(slot, block, index, mask);
                plain(result, answers)
            }
            Call::Tally => {
                answers.word("tally", self.array().tally());
                Outcome::Accepted(Done::Other)
            }
            Call::SlotState { slot } => self.slot_state(slot, answers),
            Call::Reopen => {
                let ((), result) = self.with_shelf(|_| ());
                plain(result, answers)
            }
            Call::ShelfRead { slot, block, length } => self.shelf_read(slot, block, buffer(length), answers),
            Call::ShelfWrite { slot, block, ref bytes, .. } => {
                let (result, _) = self.with_shelf(|shelf| shelf.write(slot, block, bytes));
                plain(result, answers)
            }
        }
    }

    fn read(
        &mut self,
        address: u32,
        owner: u32,
        switch: Switch,
        mut found: Vec<u8>,
        mut rebuilt: Vec<u8>,
        answers: &mut Answers,
    ) -> Outcome {
        let array = self.array.as_mut().expect("the array is there between calls");
        let result = array.read(address, owner, switch, &mut found, &mut rebuilt, &mut self.findings);
        answers.result("word", &result);
        if let Ok(answer) = result {
            answers.word("source", u32::from(answer.source == Source::Rebuilt));
            answers.word("looks", answer.looks);
        }
        answers.bytes("found", &found);
        answers.bytes("rebuilt", &rebuilt);
        answers.findings(&self.findings);
        for (word, payload, source) in [
            ("word of show for found", "found, shown", Source::Found),
            ("word of show for rebuilt", "rebuilt, shown", Source::Rebuilt),
        ] {
            let shown = show(&found, &rebuilt, source);
            answers.result(word, &shown);
            if let Ok(bytes) = shown {
                answers.bytes(payload, bytes);
            }
        }
        Outcome::of(result, Done::Read)
    }

    fn write(&mut self, address: u32, owner: u32, way: u32, payload: &[u8], answers: &mut Answers) -> Outcome {
        let way = if way == 0 { Way::Additive } else { Way::Subtractive };
        let array = self.array.as_mut().expect("the array is there between calls");
        let result = array.write(address, owner, payload, way, &mut self.findings);
        answers.result("word", &result);
        if let Ok(answer) = result {
            answers.word("looks", answer.looks);
        }
        answers.findings(&self.findings);
        Outcome::of(result, Done::Write)
    }

    fn scrub(&mut self, stripes: u32, answers: &mut Answers) -> Outcome {
        let array = self.array.as_mut().expect("the array is there between calls");
        let result = array.scrub(stripes, &mut self.findings);
        answers.result("word", &result);
        if let Ok(answer) = result {
            answers.word("looked", answer.looked);
            answers.word("clean", answer.clean);
            answers.word("mended", answer.mended);
            answers.word("short", answer.short);
            answers.word("lost", answer.lost);
        }
        answers.findings(&self.findings);
        Outcome::of(result, Done::Scrub)
    }

    fn look(
        &mut self,
        first: u32,
        count: u32,
        owner: u32,
        mut switch: Switch,
        mut out: Vec<u8>,
        answers: &mut Answers,
    ) -> Outcome {
        let result = self.array_mut().look(first, count, owner, &mut switch, &mut out);
        answers.result("word", &result);
        if let Ok(answer) = result {
            answers.word("number read", answer.read);
            answers.word("refusal it stopped at", answer.stopped.map_or(0, Refusal::number));
        }
        answers.bytes("out", &out);
        answers.word("switch", u32::from(switch == Switch::On));
        Outcome::of(result, Done::Look)
    }

    fn fit(&mut self, slot: u32, answers: &mut Answers) -> Outcome {
        self.give_up(answers);
        let result = self.array_mut().fit(slot);
        answers.result("word", &result);
        Outcome::of(result, |job| {
            self.job = Some(JobInHand { job, slot });
            Done::Other
        })
    }

    fn rebuild(&mut self, stripes: u32, answers: &mut Answers) -> Outcome {
        let Some(hand) = &mut self.job else {
            return no_job(answers);
        };
        let array = self.array.as_mut().expect("the array is there between calls");
        let result = array.rebuild(&mut hand.job, stripes);
        answers.result("word", &result);
        if let Ok(answer) = result {
            answers.word("moved", answer.moved);
            answers.word("mended", answer.mended);
            answers.word("lost", answer.lost);
        }
        Outcome::of(result, Done::Rebuild)
    }

    fn finish(&mut self, answers: &mut Answers) -> Outcome {
        let Some(JobInHand { job, slot }) = self.job.take() else {
            return no_job(answers);
        };
        let result = self.array_mut().finish(job).map_err(|(refusal, job)| {
            self.job = Some(JobInHand { job, slot });
            refusal
        });
        plain(result, answers)
    }

    fn give_up(&mut self, answers: &mut Answers) -> Option<Result<(), Refusal>> {
        let hand = self.job.take()?;
        let result = self.array_mut().give_up(hand.job);
        answers.result("word of give-up", &result);
        Some(result)
    }

    fn slot_state(&mut self, slot: u32, answers: &mut Answers) -> Outcome {
        let result = self.array().slot_state(slot);
        answers.result("word", &result);
        if let Ok(state) = result {
            let (state, done) = match state {
                SlotState::In => (0, 0),
                SlotState::Out => (1, 0),
                SlotState::Filling(done) => (2, done),
            };
            answers.word("state", state);
            answers.word("n", done);
        }
        Outcome::of(result, |_| Done::Other)
    }

    fn shelf_read(&mut self, slot: u32, block: u32, mut into: Vec<u8>, answers: &mut Answers) -> Outcome {
        let (result, _) = self.with_shelf(|shelf| shelf.read(slot, block, &mut into));
        answers.result("word", &result);
        if let Ok(seen) = result {
            answers.word("whether it is blind", u32::from(seen == Seen::Blind));
        }
        answers.bytes("buffer", &into);
        Outcome::of(result, Done::ShelfRead)
    }

    /// Closes the array, uses its shelf, and opens the array again.
    fn with_shelf<T>(&mut self, action: impl FnOnce(&mut Layered) -> T) -> (T, Result<(), Refusal>) {
        let mut shelf = self.array.take().expect("the array is there between calls").close();
        let answer = action(&mut shelf);
        match Array::open(shelf, self.tag) {
            Ok(array) => {
                self.array = Some(array);
                (answer, Ok(()))
            }
            Err(_) => unreachable!("the tag was accepted before"),
        }
    }
}

fn plain(result: Result<(), Refusal>, answers: &mut Answers) -> Outcome {
    answers.result("word", &result);
    Outcome::plain(result)
}

fn no_job(answers: &mut Answers) -> Outcome {
    answers.word("word", NO_JOB);
    Outcome::NoJob
}

fn buffer(length: u32) -> Vec<u8> {
    vec![FILLER; length.min(LONGEST) as usize]
}

fn switch_of(number: u32) -> Switch {
    if number == 0 { Switch::Off } else { Switch::On }
}

fn plan_of(plan: u32, number: u32) -> Plan {
    match plan {
        0 => Plan::Lose,
        1 => Plan::Tear(number),
        2 => Plan::Spoil,
        _ => Plan::Stray(number),
    }
}

/// Plays a script and gives its answers, as many bytes as the limit lets in.
pub fn replay(setup: &Setup, calls: &[u8], limit: usize) -> Vec<u8> {
    let mut answers = Answers::new(limit);
    replay_into(setup, calls, &mut answers);
    answers.into_bytes()
}

/// The same, and what each word and byte string of the answers is.
pub fn replay_with_pieces(setup: &Setup, calls: &[u8], limit: usize) -> (Vec<u8>, Vec<Piece>) {
    let mut answers = Answers::with_pieces(limit);
    replay_into(setup, calls, &mut answers);
    answers.into_bytes_and_pieces()
}

fn replay_into(setup: &Setup, calls: &[u8], answers: &mut Answers) {
    match setup.sum {
        1 => replay_under::<Fletcher>(setup, calls, answers),
        _ => replay_under::<Turning>(setup, calls, answers),
    }
}

fn replay_under<C: Checksum>(setup: &Setup, mut calls: &[u8], answers: &mut Answers) {
    let shelf = match begin::<C>(setup, answers) {
        Begun::NotMade(_) => return,
        Begun::NotOpened(_, shelf) => shelf,
        Begun::Playing(mut player) => {
            let mut number = 0;
            while let Some(call) = Call::decode(&mut calls) {
                answers.begin(Part::Call(number));
                player.play(&call, answers);
                number += 1;
            }
            player.end(answers)
        }
    };
    // The survey's refusal is among the answers.
    let _ = close::<C>(&shelf, setup.tag, answers);
}

#[cfg(test)]
mod tests {
    use super::*;

    fn setup() -> Setup {
        Setup { sum: 1, cards: 3, blocks: 2, tag: 4, made: 1, begun: 1, image: vec![] }
    }

    fn words(bytes: &[u8]) -> Vec<u32> {
        bytes.as_chunks().0.iter().map(|word| u32::from_be_bytes(*word)).collect()
    }

    fn script(calls: &[Call]) -> Vec<u8> {
        let mut bytes = Vec::new();
        calls.iter().for_each(|call| call.encode(&mut bytes));
        bytes
    }

    #[test]
    fn nothing_but_the_closing_part() {
        let answers = replay(&setup(), &[], usize::MAX);
        assert_eq!(answers.len(), 4 * 4 + 2 + 6 * 129);
        assert_eq!(answers[..18], [0; 18]);
        let refused = replay(&Setup { tag: 0, ..setup() }, &[], usize::MAX);
        assert_eq!(words(&refused[..16]), [0, 2, 0, 2]);
        assert_eq!(refused[16..18], [FILLER; 2]);
        assert_eq!(words(&replay(&Setup { cards: 9, ..setup() }, &[], usize::MAX)), [2]);
    }

    #[test]
    fn fit_gives_up_the_job_in_hand() {
        let calls = script(&[
            Call::Fit { slot: 1 },
            Call::Pull { slot: 1 },
            Call::Fit { slot: 1 },
            Call::Fit { slot: 3 },
            Call::Rebuild { stripes: 1 },
        ]);
        let answers = replay(&setup(), &calls, usize::MAX);
        assert_eq!(words(&answers[8..32]), [6, 0, 0, 0, 4, NO_JOB]);
    }

    #[test]
    fn answers_stop_where_one_does_not_fit() {
        let calls = script(&[Call::ShelfRead { slot: 0, block: 0, length: 128 }, Call::Tally]);
        assert_eq!(replay(&setup(), &calls, 100).len(), 16);
        assert_eq!(replay(&setup(), &calls, 144).len(), 144);
        assert_eq!(replay(&setup(), &calls, 0).len(), 0);
    }
}
