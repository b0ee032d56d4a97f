//! The driver of the head end.
use crate::cabinet::ANSWER;
use crate::line::{duration, Line, Station, BYTE, PORTION};
use crate::receiver::Receiver;
use koyandefa::{GuardedInitiator, InitiatorAnswer, Received, Refusal, Settings, ROOM};

/// How long the line must be idle before silence is reported: longer than the cabinet takes until the first portion of its answer is here.
const SLOT: usize = ANSWER + BYTE * PORTION + 200;

/// What became of an order, with the telegrams written for it last.
#[derive(Debug, PartialEq)]
pub enum Outcome {
    Confirmed { reply: Vec<u8>, tries: u8 },
    NotSent { tries: u8 },
    Unknown { tries: u8 },
}

pub struct HeadEnd {
    link: GuardedInitiator,
    receiver: Receiver,
    /// When the line will have been idle for the slot time, while a reply is waited for.
    pub timer: Option<usize>,
}

impl HeadEnd {
    pub fn new(settings: Settings, now: usize) -> Result<HeadEnd, Refusal> {
        let link = GuardedInitiator::new(settings.own, settings.peer, settings.tries, now)?;
        Ok(HeadEnd { link, receiver: Receiver::default(), timer: None })
    }

    /// Submitting sends, or is refused; the outcome comes later.
    pub fn submit(&mut self, now: usize, order: &[u8], line: &mut Line) -> Result<Option<Outcome>, Refusal> {
        let mut buf = [0; ROOM];
        let answer = self.link.submit(now, order, &mut buf)?;
        Ok(self.acts(now, answer, line))
    }

    /// Bytes came in: the slot time begins anew, and a telegram among them is heard.
    pub fn came_in(&mut self, now: usize, bytes: &[u8], line: &mut Line) -> Result<Option<Outcome>, Refusal> {
        self.receiver.came_in(now, bytes);
        self.timer = self.timer.map(|_| now + SLOT);
        self.hears(now, false, line)
    }

    /// The line is idle: what looked incomplete is noise, and may hide a telegram. Only then is it silence.
    pub fn idle(&mut self, now: usize, line: &mut Line) -> Result<Option<Outcome>, Refusal> {
        self.timer = None;
        let outcome = self.hears(now, true, line)?;
        if outcome.is_some() || self.timer.is_some() {
            return Ok(outcome);
        }
        let mut buf = [0; ROOM];
        let answer = self.link.silence(now, &mut buf)?;
        Ok(self.acts(now, answer, line))
    }

    fn hears(&mut self, now: usize, idle: bool, line: &mut Line) -> Result<Option<Outcome>, Refusal> {
        let telegram = match self.receiver.telegram(idle) {
            Some(telegram) => telegram,
            None => return Ok(None),
        };
        let mut buf = [0; ROOM];
        let heard = Received { at: self.receiver.last(), bytes: &telegram };
        let answer = self.link.hear(heard, now, &mut buf)?;
        Ok(self.acts(now, answer, line))
    }

    /// What each answer asks of the driver: rule 6.
    fn acts(&mut self, now: usize, answer: InitiatorAnswer, line: &mut Line) -> Option<Outcome> {
        let outcome = match answer {
            InitiatorAnswer::Sent(telegram) => {
                self.receiver.clear();
                line.send(now, Station::Cabinet, telegram);
                self.timer = Some(now + duration(telegram.len()) + SLOT);
                return None;
            }
            // Not for us, or not awaited: the slot time goes on.
            InitiatorAnswer::Nothing => return None,
            InitiatorAnswer::Confirmed { reply, tries } => Outcome::Confirmed { reply: reply.to_vec(), tries },
            InitiatorAnswer::NotSent { tries } => Outcome::NotSent { tries },
            InitiatorAnswer::Unknown { tries } => Outcome::Unknown { tries },
        };
        self.timer = None;
        Some(outcome)
    }
}
