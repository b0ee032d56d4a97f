//! A whole order through both ends of the link, then one whose reply is lost: the same as bindings/c/example.c, and it prints
//! the same.
use koyandefa::{
    GuardedInitiator, GuardedResponder, Heard, InitiatorAnswer, Received, Refusal, Settings, LONGEST_TELEGRAM, ROOM,
};

struct Bus {
    initiator: GuardedInitiator,
    responder: GuardedResponder,
    /// What was received: noise may be longer than what we write.
    line: [u8; LONGEST_TELEGRAM],
    line_len: usize,
    /// The stamps: a count that is stepped at each event will do where both ends are in one program.
    events: usize,
}

impl Bus {
    fn now(&mut self) -> usize {
        self.events += 1;
        self.events
    }

    fn on_the_line(&mut self, who: &str, written: &[u8]) {
        self.line[..written.len()].copy_from_slice(written);
        self.line_len = written.len();
        print!("{who}:");
        for byte in written {
            print!(" {byte:02X}");
        }
        println!();
    }

    fn head_end_sends(
        &mut self,
        call: impl for<'heard, 'buf> Fn(
            &mut GuardedInitiator,
            Received<'heard>,
            &'buf mut [u8],
        ) -> Result<InitiatorAnswer<'heard, 'buf>, Refusal>,
    ) -> Result<(), Refusal> {
        let mut buf = [0; ROOM];
        let heard = Received { at: self.now(), bytes: &self.line[..self.line_len] };
        match call(&mut self.initiator, heard, &mut buf)? {
            InitiatorAnswer::Sent(telegram) => self.on_the_line("head end", telegram),
            other => panic!("nothing was sent: {other:?}"),
        }
        Ok(())
    }

    fn cabinet_hears<'buf>(&mut self, buf: &'buf mut [u8; ROOM]) -> Result<Heard<'buf>, Refusal> {
        let now = self.now();
        self.responder.hear(Received { at: now, bytes: &self.line[..self.line_len] }, now, buf)
    }

    fn cabinet_sends(&mut self) -> Result<(), Refusal> {
        let mut buf = [0; ROOM];
        match self.cabinet_hears(&mut buf)? {
            Heard::Sent(telegram) => self.on_the_line(" cabinet", telegram),
            other => panic!("nothing was sent: {other:?}"),
        }
        Ok(())
    }

    /// The cabinet hears an order and answers it with one byte more than it got; to an order of 246 bytes that would be refused, 9.
    fn carry_out(&mut self) -> Result<(), Refusal> {
        let mut buf = [0; ROOM];
        let order = match self.cabinet_hears(&mut buf)? {
            Heard::HandedUp(order) => order,
            other => panic!("no order: {other:?}"),
        };
        println!(" cabinet carries out {} bytes", order.order().len());
        let mut reply = order.order().to_vec();
        reply.push(0x06);
        let now = self.now();
        let telegram = self.responder.answer(order, now, &reply, &mut buf).map_err(|not_taken| not_taken.refusal())?;
        self.on_the_line(" cabinet", telegram);
        Ok(())
    }

    fn confirmed(&mut self) -> Result<(), Refusal> {
        let now = self.now();
        let heard = Received { at: now, bytes: &self.line[..self.line_len] };
        match self.initiator.hear(heard, now, &mut [0; ROOM])? {
            InitiatorAnswer::Confirmed { reply, tries } => {
                println!("head end: confirmed after {tries} tries, reply of {} bytes", reply.len());
            }
            other => panic!("not confirmed: {other:?}"),
        }
        Ok(())
    }
}

fn main() -> Result<(), Refusal> {
    let settings = Settings::read(b"own=2\npeer=5\ntries=2\n")?;
    let mut bus = Bus {
        initiator: GuardedInitiator::new(settings.own, settings.peer, settings.tries, 0)?,
        responder: GuardedResponder::new(settings.peer, settings.own, 0)?,
        line: [0; LONGEST_TELEGRAM],
        line_len: 0,
        events: 0,
    };
    bus.head_end_sends(|initiator, heard, buf| initiator.submit(heard.at, &[0x01, 0x03], buf))?;
    let now = bus.now();
    assert_eq!(bus.initiator.submit(now, &[0x01, 0x03], &mut [0; ROOM]), Err(Refusal::OrderPending));
    bus.cabinet_sends()?;
    bus.head_end_sends(|initiator, heard, buf| initiator.hear(heard, heard.at, buf))?;
    bus.carry_out()?;
    bus.confirmed()?;

    bus.head_end_sends(|initiator, heard, buf| initiator.submit(heard.at, &[0x02, 0x03, 0x05], buf))?;
    bus.carry_out()?;
    println!("the reply is lost");
    bus.head_end_sends(|initiator, heard, buf| initiator.silence(heard.at, buf))?;
    bus.cabinet_sends()?;
    bus.confirmed()
}
