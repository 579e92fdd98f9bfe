//! Generated messages in both boxes: the stage that they are played on, and what they came across.

use reference::generate::streams::{Play, Stage};
use reference::refusal;
use reference::sizes::MAX_TELEGRAM;

use crate::boxes::TelegramBox;
use crate::script::{must, Found, Stop};
use crate::telegrams::{explain, Given, Player, Step};

/// What was played, for the end of the run.
#[derive(Default)]
pub struct Tally {
    /// Cuts and joins.
    pub telegrams: usize,
    pub messages: usize,
    /// By number given back.
    pub numbers: [usize; refusal::COUNT as usize],
}

/// Plays messages until `telegrams` are cut or joined: the first difference, if there is one.
pub fn run<P: TelegramBox>(seed: u64, telegrams: usize, tally: &mut Tally, progress: impl FnMut(usize)) -> Option<Found> {
    let mut both = Both::<P, _> { player: Player::new(), steps: Vec::new(), message: None, tally, telegrams, progress };
    match Play::new(&mut both, seed).run() {
        Stop::Different(difference) => Some(explain::<P>(&both.steps, difference)),
        Stop::Full => None,
    }
}

/// Both boxes, and the steps since they were fresh.
struct Both<'a, P, F> {
    player: Player<P>,
    steps: Vec<Step>,
    /// The length of the message that the last step completed.
    message: Option<usize>,
    tally: &'a mut Tally,
    telegrams: usize,
    progress: F,
}

impl<P: TelegramBox, F: FnMut(usize)> Both<'_, P, F> {
    fn step(&mut self, step: Step) -> Result<Given, Stop> {
        if matches!(step, Step::Cut { .. } | Step::Join { .. }) {
            if self.tally.telegrams >= self.telegrams {
                return Err(Stop::Full);
            }
            self.tally.telegrams += 1;
        }
        self.steps.push(step);
        let given = self.player.play(&self.steps[self.steps.len() - 1])?;
        self.message = None;
        match given {
            Given::Refused(number) => self.tally.numbers[number as usize] += 1,
            Given::Message(length) => {
                self.tally.messages += 1;
                self.message = Some(length);
            }
            _ => {}
        }
        Ok(given)
    }
}

impl<P: TelegramBox, F: FnMut(usize)> Stage for Both<'_, P, F> {
    type Stop = Stop;

    const PATIENT: bool = true;

    fn begin(&mut self) -> Result<(), Stop> {
        (self.progress)(self.tally.telegrams);
        self.player = Player::new();
        self.steps.clear();
        Ok(())
    }

    fn payload(&self) -> &[u8] {
        self.player.payload()
    }

    fn set_payload(&mut self, bytes: Vec<u8>) -> Result<(), Stop> {
        self.step(Step::Payload(bytes)).map(drop)
    }

    fn fill(&mut self, length: usize, seed: u32) -> Result<(), Stop> {
        self.step(Step::Fill { length, seed }).map(drop)
    }

    fn count(&mut self, l: usize) -> Result<(), Stop> {
        self.step(Step::Count { l }).map(drop)
    }

    fn cut(&mut self, l: usize, msg_id: u32, number: usize, room: usize) -> Result<(), Stop> {
        self.step(Step::Cut { l, msg_id, number, room }).map(drop)
    }

    fn cut_all(&mut self, l: usize, msg_id: u32) -> Result<(), Stop> {
        let Given::Telegrams(count) = self.step(Step::Count { l })? else { return Ok(()) };
        (1..=count).try_for_each(|number| self.cut(l, msg_id, number, MAX_TELEGRAM))
    }

    fn rejoin(&mut self) -> Result<(), Stop> {
        self.step(Step::Rejoin).map(drop)
    }

    fn join(&mut self, l: usize, room: usize, telegram: &[u8]) -> Result<(), Stop> {
        self.step(Step::Join { l, room, telegram: telegram.to_vec() }).map(drop)
    }

    fn came_back(&mut self) -> Result<(), Stop> {
        let message = self.message.map(|length| self.player.message(length));
        Ok(must("both: message that comes back as it was", message == Some(self.player.payload()), true)?)
    }

    fn pause(&mut self) -> Result<(), Stop> {
        Ok(())
    }
}
