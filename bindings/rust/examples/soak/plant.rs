//! Faults that are put between the ends and the judge, to see that the judge finds them.

#[derive(Clone, Copy, PartialEq)]
pub enum Fault {
    None,
    /// The judge is told one try more.
    Tries,
    /// The judge is shown another reply.
    Reply,
    /// Each order is handed up twice.
    Twice,
    /// An old telegram of the initiator is heard late.
    Late,
    /// A byte of each order is changed.
    Order,
    /// Unknown is reported as not sent.
    NotSent,
    /// The initiator's restart reports an order that is in flight, and not yet carried out, as not sent.
    Early,
    /// The responder never answers an opening.
    Mute,
    /// The responder's restart puts back its record of another time: as it was when it last heard an opening.
    Row,
    /// Making the initiator anew puts back its record of another time: as it was after an order that was confirmed.
    Record,
    /// An answer is given with the number of the order that was handed up last, whichever order it is for.
    Number,
}

impl Fault {
    pub fn named(name: &str) -> Option<Fault> {
        Some(match name {
            "tries" => Fault::Tries,
            "reply" => Fault::Reply,
            "twice" => Fault::Twice,
            "late" => Fault::Late,
            "order" => Fault::Order,
            "notsent" => Fault::NotSent,
            "early" => Fault::Early,
            "mute" => Fault::Mute,
            "row" => Fault::Row,
            "record" => Fault::Record,
            "number" => Fault::Number,
            _ => return None,
        })
    }
}
