//! The driver of the cabinet, and its application, which opens and closes feeders and is sometimes slow.
use crate::line::{self, Line, Station};
use crate::receiver::Receiver;
use koyandefa::{Address, GuardedResponder, HandUp, Heard, NotTaken, Received, Refusal, ROOM};
use std::collections::VecDeque;

/// An answer begins so long after the telegram that it answers, or not at all: well within the head end's slot time.
pub const ANSWER: usize = 800;
/// So long after the last portion the line is idle: no other one is on its way.
const IDLE: usize = line::BYTE * line::PORTION + 50;

/// An order in the application's hands.
struct Work {
    hand_up: HandUp,
    done: usize,
    /// Until then its answer is sent.
    slot: usize,
}

pub struct Cabinet {
    link: GuardedResponder,
    receiver: Receiver,
    idle: Option<usize>,
    work: VecDeque<Work>,
    closed: [bool; 11],
    /// Every order that was handed up.
    pub carried_out: Vec<String>,
    /// Answers that were not sent since they came late, and those that nobody waited for.
    pub late: u32,
    pub dropped: u32,
}

impl Cabinet {
    pub fn new(own: Address, peer: Address, now: usize) -> Result<Cabinet, Refusal> {
        Ok(Cabinet {
            link: GuardedResponder::new(own, peer, now)?,
            receiver: Receiver::default(),
            idle: None,
            work: VecDeque::new(),
            closed: [false; 11],
            carried_out: Vec::new(),
            late: 0,
            dropped: 0,
        })
    }

    /// When something is to be done next: an order is done, or the line is idle.
    pub fn timer(&self) -> Option<usize> {
        self.work.front().map(|work| work.done).into_iter().chain(self.idle).min()
    }

    pub fn came_in(&mut self, now: usize, bytes: &[u8], line: &mut Line) -> Result<(), Refusal> {
        self.receiver.came_in(now, bytes);
        self.idle = Some(now + IDLE);
        self.hears(now, false, line)
    }

    pub fn timer_ran_out(&mut self, now: usize, line: &mut Line) -> Result<(), Refusal> {
        if self.idle.map_or(false, |idle| idle <= now) {
            self.idle = None;
            return self.hears(now, true, line);
        }
        match self.work.pop_front() {
            Some(work) => self.answers(now, work, line),
            None => Ok(()),
        }
    }

    fn hears(&mut self, now: usize, idle: bool, line: &mut Line) -> Result<(), Refusal> {
        let telegram = match self.receiver.telegram(idle) {
            Some(telegram) => telegram,
            None => return Ok(()),
        };
        let mut buf = [0; ROOM];
        let heard = Received { at: self.receiver.last(), bytes: &telegram };
        match self.link.hear(heard, now, &mut buf)? {
            Heard::Sent(telegram) => {
                self.receiver.clear();
                line.send(now, Station::HeadEnd, telegram);
            }
            Heard::HandedUp(hand_up) => {
                self.carried_out.push(String::from_utf8_lossy(hand_up.order()).into_owned());
                // One order after the other; one in four takes longer than the slot, and may take longer than all tries.
                let begin = self.work.back().map_or(now, |work| work.done);
                let takes = if line.below(4) == 0 { 1_000 * (1 + line.below(3) as usize) } else { 200 };
                self.work.push_back(Work { hand_up, done: begin + takes, slot: self.receiver.last() + ANSWER });
            }
            Heard::Nothing => {}
        }
        Ok(())
    }

    /// The application is done with an order.
    fn answers(&mut self, now: usize, work: Work, line: &mut Line) -> Result<(), Refusal> {
        let reply = self.does(work.hand_up.order());
        let mut buf = [0; ROOM];
        match self.link.answer(work.hand_up, now, reply.as_bytes(), &mut buf) {
            Ok(telegram) if now <= work.slot => {
                self.receiver.clear();
                line.send(now, Station::HeadEnd, telegram);
            }
            // Rule 4: after its slot it is not sent. It is held, and the head end's repeat fetches it.
            Ok(_) => self.late += 1,
            // Rule 5: the head end gave this order up.
            Err(NotTaken::NoReplyOwed) => self.dropped += 1,
            // Our replies are short and there is room: a fault of this program.
            Err(NotTaken::Again(refusal, _)) => return Err(refusal),
        }
        Ok(())
    }

    /// `17 close 3`, `18 open 3` or `19 state 3`: the first number tells orders apart, the last is the feeder.
    fn does(&mut self, order: &[u8]) -> &'static str {
        let text = String::from_utf8_lossy(order);
        let words: Vec<&str> = text.split(' ').collect();
        let feeder = match words.last().and_then(|word| word.parse().ok()).and_then(|at: usize| self.closed.get_mut(at))
        {
            Some(feeder) => feeder,
            None => return "what?",
        };
        match words[words.len().saturating_sub(2)] {
            "close" => *feeder = true,
            "open" => *feeder = false,
            "state" => {}
            _ => return "what?",
        }
        if *feeder {
            "closed"
        } else {
            "open"
        }
    }
}
