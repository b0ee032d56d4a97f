//! The two ends, the line between them, and the callers, who do anything at any moment.
use crate::judge::Judge;
use crate::plant::Fault;
use crate::random::Random;
use koyandefa::{
    Address, GuardedInitiator, GuardedResponder, HandUp, Heard, InitiatorAnswer, NotTaken, Received, Refusal,
    LONGEST_ORDER, ROOM,
};

const KEPT_TELEGRAMS: usize = 100_000;
/// An opening has no PDU and an order has at least one byte, so its length tells it.
const OPENING: usize = 6;

pub struct Scene {
    random: Random,
    fault: Fault,
    own: Address,
    peer: Address,
    tries: u8,
    initiator: GuardedInitiator,
    responder: GuardedResponder,
    /// Stepped at each event: the stamps of both ends.
    clock: usize,
    /// What the application of the cabinet has not answered yet, each with the judge's number of its order.
    unanswered: Vec<(HandUp, usize)>,
    /// When the initiator and the responder last wrote.
    written: [usize; 2],
    /// A telegram that was lost, whether the initiator wrote it, and when: once its hearer has written itself, it must be nothing.
    queued: Option<(Vec<u8>, bool, usize)>,
    stale_heard: u64,
    /// What the last call of the two ends wrote, restarts aside, and whether the initiator wrote it. It is heard in the very next call
    /// that is no restart, or never.
    line: Option<(Vec<u8>, bool)>,
    /// An end has restarted, or was made anew, since that was written.
    crossed: bool,
    late: Vec<u8>,
    /// Neither end has restarted since the opening began under which the link is open.
    clean: bool,
    judge: Judge,
    pub telegrams: Vec<Vec<u8>>,
    pub calls: u64,
    fair: u64,
    restarts: u64,
    makings: u64,
    /// Telegrams heard after a restart or a making anew.
    heard_over: u64,
    refusals: u64,
    /// Records of another time, kept and put back by the faults `row` and `record` alone.
    old_row: Option<GuardedResponder>,
    old_record: Option<GuardedInitiator>,
}

type Verdict = Result<(), String>;

/// A second record of an end, which the wrapper does not allow: to be compared, or put back by a fault. An end owns nothing but its
/// bytes, so that nothing is freed twice.
fn second<End>(end: &End) -> End {
    unsafe { std::ptr::read(end) }
}

/// How many orders the application lets lie.
const LYING: usize = 8;

impl Scene {
    pub fn new(seed: u64, fault: Fault) -> Scene {
        let mut random = Random::new(seed);
        let own = Address(random.below(126) as u8);
        let peer = Address((own.0 + 1 + random.below(125) as u8) % 126);
        let tries = 1 + random.below(8) as u8;
        println!("own {own}, peer {peer}, tries {tries}");
        Scene {
            initiator: GuardedInitiator::new(own, peer, tries, 0).expect("two stations"),
            responder: GuardedResponder::new(peer, own, 0).expect("two stations"),
            clock: 0,
            unanswered: Vec::new(),
            written: [0; 2],
            queued: None,
            stale_heard: 0,
            random,
            fault,
            own,
            peer,
            tries,
            line: None,
            crossed: false,
            late: Vec::new(),
            clean: false,
            judge: Judge::default(),
            telegrams: Vec::new(),
            calls: 0,
            fair: 0,
            restarts: 0,
            makings: 0,
            heard_over: 0,
            refusals: 0,
            old_row: None,
            old_record: None,
        }
    }

    pub fn tally(&self) -> String {
        let t = &self.judge.tally;
        format!(
            "orders: {} confirmed, {} not sent, {} unknown, {} left pending by an end made anew; {} handed up, {} of them after the report; {} fair orders; {} restarts, {} makings anew, {} telegrams heard over one; {} late answers refused, {} stale telegrams ignored; {} refused calls",
            t.confirmed,
            t.not_sent,
            t.unknown,
            t.abandoned,
            t.hand_ups,
            t.late_hand_ups,
            self.fair,
            self.restarts,
            self.makings,
            self.heard_over,
            t.late_answers,
            self.stale_heard,
            self.refusals
        )
    }

    fn wrote(&mut self, telegram: &[u8], by_initiator: bool) {
        if self.telegrams.len() < KEPT_TELEGRAMS {
            self.telegrams.push(telegram.to_vec());
        }
        self.line = Some((telegram.to_vec(), by_initiator));
        self.written[usize::from(!by_initiator)] = self.clock;
        self.crossed = false;
    }

    /// The next stamp.
    fn tick(&mut self) -> usize {
        self.clock += 1;
        self.clock
    }

    /// A buffer with other bytes each time, so that one that is not written to is noticed.
    fn room(&mut self) -> Vec<u8> {
        vec![self.random.next() as u8; ROOM + self.random.below(3) as usize]
    }

    /// One random call.
    pub fn turn(&mut self) -> Verdict {
        match self.random.below(64) {
            0 if !self.judge.is_pending() => self.fair_order(),
            0..=7 => self.submit(),
            8..=15 => self.silence(),
            16..=43 => self.deliver(),
            44..=51 => self.answer(),
            52 => self.restart_initiator(),
            53 => self.restart_responder(),
            54 if self.random.one_in(8) => self.make_anew(),
            54 => self.stale(),
            55..=58 => self.refused_calls(),
            _ => self.noise(),
        }
    }

    fn submit(&mut self) -> Verdict {
        let len = self.random.length(1, LONGEST_ORDER as u64);
        let order = self.random.bytes(len);
        self.submit_this(&order)
    }

    fn submit_this(&mut self, order: &[u8]) -> Verdict {
        self.calls += 1;
        self.lose();
        let mut buf = self.room();
        let now = self.tick();
        match self.initiator.submit(now, order, &mut buf) {
            Ok(InitiatorAnswer::Sent(telegram)) => {
                self.wrote(telegram, true);
                self.clean |= telegram.len() == OPENING;
                self.judge.submitted(order)
            }
            Err(Refusal::OrderPending) if self.judge.is_pending() => Ok(()),
            other => Err(format!("submitting answered {other:?}")),
        }
    }

    fn silence(&mut self) -> Verdict {
        self.calls += 1;
        self.lose();
        let mut buf = self.room();
        let now = self.tick();
        match self.initiator.silence(now, &mut buf) {
            Ok(InitiatorAnswer::Sent(telegram)) => {
                self.wrote(telegram, true);
                self.judge.repeated();
                Ok(())
            }
            Ok(answer) => self.report(answer),
            Err(refusal) => Err(format!("silence with room was {refusal}")),
        }
    }

    /// An outcome goes to the judge.
    fn report(&mut self, answer: InitiatorAnswer) -> Verdict {
        let more = u8::from(self.fault == Fault::Tries);
        match answer {
            InitiatorAnswer::Confirmed { reply, tries } => {
                if self.fault == Fault::Record && self.random.one_in(2) {
                    self.old_record = Some(second(&self.initiator));
                }
                let mut reply = reply.to_vec();
                if self.fault == Fault::Reply {
                    reply.push(0);
                }
                self.judge.confirmed(&reply, tries + more)
            }
            InitiatorAnswer::NotSent { tries } => self.judge.not_sent(tries + more),
            InitiatorAnswer::Unknown { tries } if self.fault == Fault::NotSent => self.judge.not_sent(tries),
            InitiatorAnswer::Unknown { tries } => self.judge.unknown(tries + more),
            InitiatorAnswer::Nothing => Ok(()),
            InitiatorAnswer::Sent(_) => Err("a telegram was written where none is called for".to_string()),
        }
    }

    /// What is on the line is heard, or lost.
    fn deliver(&mut self) -> Verdict {
        let (telegram, by_initiator) = match self.line.take() {
            Some(written) => written,
            None => return Ok(()),
        };
        if self.fault == Fault::Late && by_initiator && self.random.one_in(4) {
            let old = std::mem::replace(&mut self.late, telegram);
            return if old.is_empty() { Ok(()) } else { self.responder_hears(&old) };
        }
        if self.random.one_in(6) {
            self.queued = Some((telegram, by_initiator, self.clock));
            return Ok(());
        }
        self.heard_over += u64::from(self.crossed);
        if by_initiator {
            self.responder_hears(&telegram)
        } else {
            self.initiator_hears(&telegram)
        }
    }

    fn responder_hears(&mut self, telegram: &[u8]) -> Verdict {
        self.calls += 1;
        self.line = None;
        let mut buf = self.room();
        let opening = telegram.len() == OPENING;
        let now = self.tick();
        match self.responder.hear(Received { at: now, bytes: telegram }, now, &mut buf) {
            Ok(Heard::Sent(written)) => {
                if opening {
                    self.judge.dropped();
                }
                if opening && self.fault == Fault::Row {
                    self.old_row = Some(second(&self.responder));
                }
                if self.fault != Fault::Mute {
                    self.wrote(written, false);
                }
                Ok(())
            }
            Ok(Heard::HandedUp(hand_up)) => self.hands_up(hand_up),
            Ok(Heard::Nothing) => Ok(()),
            Err(refusal) => Err(format!("hearing with room was {refusal}")),
        }
    }

    /// The application takes the order, and may let it lie.
    fn hands_up(&mut self, hand_up: HandUp) -> Verdict {
        let mut order = hand_up.order().to_vec();
        if self.fault == Fault::Order {
            order[0] ^= 1;
        }
        if self.fault == Fault::Twice {
            self.judge.handed_up(&order)?;
        }
        let number = self.judge.handed_up(&order)?;
        if self.unanswered.len() == LYING {
            drop(self.unanswered.remove(0));
        }
        self.unanswered.push((hand_up, number));
        Ok(())
    }

    fn initiator_hears(&mut self, telegram: &[u8]) -> Verdict {
        self.calls += 1;
        self.line = None;
        let mut buf = self.room();
        let now = self.tick();
        match self.initiator.hear(Received { at: now, bytes: telegram }, now, &mut buf) {
            Ok(InitiatorAnswer::Sent(telegram)) => {
                self.wrote(telegram, true);
                self.judge.order_sent();
                Ok(())
            }
            Ok(answer) => self.report(answer),
            Err(refusal) => Err(format!("hearing with room was {refusal}")),
        }
    }

    /// The application finishes an order: mostly the last one, sometimes one that it let lie.
    fn answer(&mut self) -> Verdict {
        let lying = self.unanswered.len();
        if lying == 0 {
            return Ok(());
        }
        let which = if self.random.one_in(4) { self.random.below(lying as u64) as usize } else { lying - 1 };
        let (hand_up, number) = self.unanswered.remove(which);
        let len = self.random.length(0, LONGEST_ORDER as u64);
        let reply = self.random.bytes(len);
        self.answer_this(hand_up, number, &reply)
    }

    /// An answer that is not taken leaves the line as it is.
    fn answer_this(&mut self, mut hand_up: HandUp, number: usize, reply: &[u8]) -> Verdict {
        self.calls += 1;
        let mut buf = self.room();
        let now = self.tick();
        if self.fault == Fault::Number {
            if let Some((last, _)) = self.unanswered.last() {
                hand_up = second(last);
            }
        }
        match self.responder.answer(hand_up, now, reply, &mut buf) {
            Ok(telegram) => {
                self.lose();
                self.wrote(telegram, false);
                self.judge.answered(number, reply)
            }
            Err(NotTaken::NoReplyOwed) => self.judge.answer_refused(number),
            other => Err(format!("answering gave {other:?}")),
        }
    }

    /// What is on the line is lost; it may still come out of a queue, with its stamp.
    fn lose(&mut self) {
        if let Some((telegram, by_initiator)) = self.line.take() {
            self.queued = Some((telegram, by_initiator, self.clock));
        }
    }

    /// A telegram comes out of a queue after its hearer's own next telegram: nothing is to happen.
    fn stale(&mut self) -> Verdict {
        let (telegram, by_initiator, at) = match self.queued.take() {
            Some(queued) => queued,
            None => return Ok(()),
        };
        if self.written[usize::from(by_initiator)] < at {
            return Ok(());
        }
        self.calls += 1;
        self.stale_heard += 1;
        let before = (second(&self.initiator), second(&self.responder));
        let mut buf = self.room();
        let now = self.tick();
        let heard = Received { at, bytes: &telegram };
        let quiet = if by_initiator {
            self.responder.hear(heard, now, &mut buf) == Ok(Heard::Nothing)
        } else {
            self.initiator.hear(heard, now, &mut buf) == Ok(InitiatorAnswer::Nothing)
        };
        if quiet && self.initiator == before.0 && self.responder == before.1 {
            Ok(())
        } else {
            Err("a telegram older than the hearer's own last one was heard".to_string())
        }
    }

    fn restart_initiator(&mut self) -> Verdict {
        self.calls += 1;
        self.restarts += 1;
        self.clean = false;
        self.crossed = true;
        let answer = self.initiator.restart();
        let in_flight = matches!(self.line, Some((_, true))) && !self.judge.is_carried_out();
        match answer {
            InitiatorAnswer::Unknown { tries } if self.fault == Fault::Early && in_flight => self.judge.not_sent(tries),
            answer => self.report(answer),
        }
    }

    fn restart_responder(&mut self) -> Verdict {
        self.calls += 1;
        self.restarts += 1;
        self.clean = false;
        self.crossed = true;
        match &self.old_row {
            Some(old) => self.responder = second(old),
            None => self.responder.restart(),
        }
        self.judge.dropped();
        Ok(())
    }

    /// A restart whose pending order stays pending; the new record may have another number of tries.
    fn make_initiator_anew(&mut self) -> Verdict {
        let tries = 1 + self.random.below(8) as u8;
        match &self.old_record {
            Some(old) => self.initiator = second(old),
            None => {
                let now = self.clock;
                self.initiator = GuardedInitiator::new(self.own, self.peer, tries, now).map_err(|r| r.to_string())?;
                self.tries = tries;
            }
        }
        self.judge.made_anew();
        Ok(())
    }

    /// An end's record made anew.
    fn make_anew(&mut self) -> Verdict {
        self.calls += 1;
        self.makings += 1;
        self.clean = false;
        self.crossed = true;
        if self.random.one_in(2) {
            return self.make_initiator_anew();
        }
        self.responder = GuardedResponder::new(self.peer, self.own, self.clock).map_err(|r| r.to_string())?;
        self.judge.dropped();
        Ok(())
    }

    /// Refused calls leave the records and the buffers; the telegram in one counts as lost.
    fn refused_calls(&mut self) -> Verdict {
        self.calls += 1;
        self.refusals += 1;
        let before = (second(&self.initiator), second(&self.responder));
        let mut short = vec![0x5A; self.random.below(ROOM as u64) as usize];
        let mut whole = [0x5A; ROOM];
        let telegram = self.line.take().map_or(Vec::new(), |(telegram, _)| telegram);
        let now = self.tick();
        let heard = Received { at: now, bytes: &telegram };
        let refused = match self.random.below(6) {
            0 => self.initiator.submit(now, &[1], &mut short).is_err(),
            1 => self.initiator.silence(now, &mut short).is_err(),
            2 => self.initiator.hear(heard, now, &mut short).is_err(),
            3 => self.responder.hear(heard, now, &mut short).is_err(),
            4 => self.answers_short(now, &mut short),
            _ => self.initiator.submit(now, &[], &mut whole).is_err(),
        };
        let stayed = self.initiator == before.0 && self.responder == before.1;
        if refused && stayed && short.iter().chain(&whole).all(|&b| b == 0x5A) {
            Ok(())
        } else {
            Err("a call that is to be refused was not, or changed what it was lent".to_string())
        }
    }

    /// An answer without room is refused, and the order comes back if it is still waited for.
    fn answers_short(&mut self, now: usize, short: &mut [u8]) -> bool {
        let (hand_up, number) = match self.unanswered.pop() {
            Some(lying) => lying,
            None => return true,
        };
        match self.responder.answer(hand_up, now, &[1], short) {
            Err(NotTaken::Again(Refusal::NoRoom, hand_up)) => {
                self.unanswered.push((hand_up, number));
                true
            }
            other => other == Err(NotTaken::NoReplyOwed),
        }
    }

    /// Bytes that are no data telegram between the two stations: nothing is to happen.
    fn noise(&mut self) -> Verdict {
        self.calls += 1;
        let mut noise = match self.line.take() {
            Some((telegram, _)) => telegram,
            None => self.random.bytes(9),
        };
        match self.random.below(4) {
            0 => noise.push(0),
            1 => drop(noise.pop()),
            2 => noise = self.random.bytes(noise.len()),
            _ => {
                let at = noise.len() - 2;
                noise[at] = noise[at].wrapping_add(1);
            }
        }
        let mut buf = self.room();
        let before = buf.clone();
        let now = self.tick();
        let heard = Received { at: now, bytes: &noise };
        let quiet = if self.random.one_in(2) {
            self.initiator.hear(heard, now, &mut buf) == Ok(InitiatorAnswer::Nothing)
        } else {
            self.responder.hear(heard, now, &mut buf) == Ok(Heard::Nothing)
        };
        if quiet && buf == before {
            Ok(())
        } else {
            Err(format!("noise was heard as something: {noise:02X?}"))
        }
    }

    /// What is on the line, if this end wrote it.
    fn taken(&mut self, by_initiator: bool) -> Option<Vec<u8>> {
        self.line.take().filter(|&(_, by)| by == by_initiator).map(|(telegram, _)| telegram)
    }

    /// The last sentence of demand 3: neither end has restarted since the opening began, the application answers at once and
    /// one permitted try of each phase passes both ways, so the order is confirmed.
    fn fair_order(&mut self) -> Verdict {
        self.fair += 1;
        if !self.clean {
            self.restart_initiator()?;
        }
        let confirmed = self.judge.tally.confirmed;
        self.submit()?;
        while self.judge.is_pending() {
            for _ in 0..self.random.below(u64::from(self.tries)) {
                self.silence()?;
            }
            let telegram = self.taken(true).ok_or("the initiator did not write a permitted try")?;
            self.responder_hears(&telegram)?;
            if self.line.is_none() {
                let lying = self.unanswered.pop();
                let (hand_up, number) = lying.ok_or("a try that was heard neither wrote nor handed up")?;
                let reply = self.random.bytes(3);
                self.answer_this(hand_up, number, &reply)?;
            }
            let telegram = self.taken(false).ok_or("the responder did not answer a try that it heard")?;
            self.initiator_hears(&telegram)?;
            if self.judge.is_pending() && self.line.is_none() {
                return Err("a fair reply was not taken".to_string());
            }
        }
        if self.judge.tally.confirmed == confirmed + 1 {
            Ok(())
        } else {
            Err("a fair order was not confirmed".to_string())
        }
    }
}
