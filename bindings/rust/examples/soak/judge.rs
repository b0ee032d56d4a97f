//! Demand 3, clause by clause, from document 01's text alone: the judge sees what the callers see and knows nothing of bits,
//! states or telegrams. A handing up counts for the latest order submitted, whatever was reported of it: the telegram may be heard after
//! a restart, and after the report. An older order that is carried out late is not let off by that: the bytes are then another's.

/// What became of an order, as the initiator reported it.
#[derive(Clone, Copy, Debug, PartialEq)]
enum Outcome {
    Pending,
    Confirmed,
    NotSent,
    Unknown,
    /// Its end was made anew: it stays pending.
    Abandoned,
}

struct Order {
    bytes: Vec<u8>,
    outcome: Outcome,
    hand_ups: u32,
    /// The reply that the application gave for this hand-up, where it was taken.
    reply: Option<Vec<u8>>,
}

#[derive(Default)]
pub struct Tally {
    pub confirmed: u64,
    pub not_sent: u64,
    pub unknown: u64,
    pub abandoned: u64,
    pub hand_ups: u64,
    /// Orders carried out after they were reported unknown or left pending by an end made anew.
    pub late_hand_ups: u64,
    /// Answers that named an order which was no longer waited for, and were refused.
    pub late_answers: u64,
}

#[derive(Default)]
pub struct Judge {
    orders: Vec<Order>,
    /// How many orders were forgotten from the front of `orders`: long runs keep the last ones.
    gone: usize,
    pending: Option<usize>,
    /// The telegrams written for the pending order in its present phase.
    written: u8,
    awaiting: Option<usize>,
    pub tally: Tally,
}

type Verdict = Result<(), String>;

fn held(so: bool, clause: &str) -> Verdict {
    if so {
        Ok(())
    } else {
        Err(clause.to_string())
    }
}

impl Judge {
    fn order(&mut self, number: usize) -> &mut Order {
        &mut self.orders[number - self.gone]
    }

    pub fn is_pending(&self) -> bool {
        self.pending.is_some()
    }

    pub fn is_carried_out(&self) -> bool {
        self.orders.last().map_or(false, |order| order.hand_ups > 0)
    }

    pub fn submitted(&mut self, bytes: &[u8]) -> Verdict {
        held(self.pending.is_none(), "an order was taken while one was pending")?;
        if self.orders.len() > 4096 {
            self.orders.drain(..2048);
            self.gone += 2048;
        }
        self.orders.push(Order { bytes: bytes.to_vec(), outcome: Outcome::Pending, hand_ups: 0, reply: None });
        self.pending = Some(self.gone + self.orders.len() - 1);
        self.written = 1;
        Ok(())
    }

    /// A telegram was written again after silence.
    pub fn repeated(&mut self) {
        self.written += 1;
    }

    /// The opening was answered: the order's own phase begins with its first telegram.
    pub fn order_sent(&mut self) {
        self.written = 1;
    }

    /// Gives the order's number, by which the application answers.
    pub fn handed_up(&mut self, bytes: &[u8]) -> Result<usize, String> {
        self.tally.hand_ups += 1;
        let order = self.orders.last_mut().ok_or("an order was handed up before any was submitted")?;
        order.hand_ups += 1;
        held(order.bytes == bytes, "orders are carried out in the order submitted, byte for byte")?;
        held(order.outcome != Outcome::NotSent, "an order reported not sent was never carried out")?;
        held(order.hand_ups == 1, "an order is carried out at most once")?;
        self.tally.late_hand_ups += u64::from(order.outcome != Outcome::Pending);
        let number = self.gone + self.orders.len() - 1;
        self.awaiting = Some(number);
        Ok(number)
    }

    /// The answer to this order was taken.
    pub fn answered(&mut self, number: usize, reply: &[u8]) -> Verdict {
        let awaited = self.awaiting.take();
        held(awaited.is_some(), "an answer is taken where one is owed")?;
        held(awaited == Some(number), "an answer is taken for the order that it names, and for no other")?;
        if number >= self.gone {
            let order = self.order(number);
            if order.reply.is_none() {
                order.reply = Some(reply.to_vec());
            }
        }
        Ok(())
    }

    pub fn answer_refused(&mut self, number: usize) -> Verdict {
        self.tally.late_answers += 1;
        held(self.awaiting != Some(number), "an owed answer is taken")
    }

    /// An opening was answered, or the responder restarted: what it owed is dropped.
    pub fn dropped(&mut self) {
        self.awaiting = None;
    }

    fn ends(&mut self, outcome: Outcome) -> Result<usize, String> {
        let number = self.pending.take().ok_or("an outcome was reported with no order pending")?;
        let order = self.order(number);
        let first = order.outcome == Outcome::Pending;
        order.outcome = outcome;
        held(first, "one outcome for an order")?;
        Ok(number)
    }

    fn tries(&self, tries: u8) -> Verdict {
        held(tries == self.written, "the tries reported are the telegrams written in the last phase")
    }

    pub fn confirmed(&mut self, reply: &[u8], tries: u8) -> Verdict {
        self.tally.confirmed += 1;
        self.tries(tries)?;
        let number = self.ends(Outcome::Confirmed)?;
        let order = self.order(number);
        held(order.hand_ups == 1, "a confirmed order was carried out exactly once")?;
        held(order.reply.as_deref() == Some(reply), "a confirmed order shows the reply made then")
    }

    pub fn not_sent(&mut self, tries: u8) -> Verdict {
        self.tally.not_sent += 1;
        self.tries(tries)?;
        let number = self.ends(Outcome::NotSent)?;
        held(self.order(number).hand_ups == 0, "an order reported not sent was never carried out")
    }

    pub fn unknown(&mut self, tries: u8) -> Verdict {
        self.tally.unknown += 1;
        self.tries(tries)?;
        let number = self.ends(Outcome::Unknown)?;
        held(self.order(number).hand_ups <= 1, "an unknown order was carried out at most once")
    }

    /// The initiator was made anew: a pending order stays pending, with no one to report it.
    pub fn made_anew(&mut self) {
        if self.pending.is_some() {
            self.tally.abandoned += 1;
            let _ = self.ends(Outcome::Abandoned);
        }
    }
}
