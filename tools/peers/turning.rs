//! What a terminal does in a turn (Q.703 2.3, 5 to 11), as its peer does it: it obeys, hears what came, and chooses
//! what is sent.
//!
//! A link that fails while it's up at the set isn't done; neither are messages of the management.
use crate::history::Entry;
use crate::machines::{Align, Commands, Input, Link, State, SIB, SIOS, START, T5, T7};
use crate::set::{Answer, Took, Unit};

impl Link {
    pub fn offer(&mut self, body: &[u8]) -> Answer<'_> {
        let answer = self.set.offer(body);
        let told = match answer {
            Answer::Accepted(number) => Ok(number),
            Answer::Refused(why) => Err(why),
            _ => return answer,
        };
        self.history.push(Entry::Offer(body.into(), told));
        answer
    }

    pub fn take(&mut self) -> Answer<'_> {
        let answer = self.set.take();
        self.history.push(Entry::Take(if let Answer::Taken(body) = answer { Some(body.into()) } else { None }));
        answer
    }

    pub fn find(&mut self, number: u64) -> Answer<'_> {
        let answer = self.set.find(number);
        let told = match answer {
            Answer::Found(place, _) => Ok(place),
            Answer::Refused(why) => Err(why),
            _ => return answer,
        };
        self.history.push(Entry::Find(number, told));
        answer
    }

    #[inline]
    pub fn obey(&mut self) {
        if self.commands == Commands::default() {
            return;
        }
        let asked = std::mem::take(&mut self.commands);
        if asked.emergency {
            self.align(Input::Emergency);
        }
        if asked.start {
            self.state(Input::Start);
        }
        if asked.busy && !self.busy {
            self.busy = true;
            self.send_busy();
        }
        if asked.ease && self.busy {
            self.busy = false;
            self.stop(T5);
        }
        if asked.stop {
            self.state(Input::Stop);
        }
    }

    /// What a mark brought: the octets of a good unit, which may be none of the link's.
    #[inline]
    pub fn hear(&mut self, octets: Option<&[u8]>) {
        let unit = octets.and_then(Unit::read);
        self.judge(unit.is_none());
        let Some(unit) = unit else {
            return;
        };
        self.align(Input::Good);
        match unit.body {
            [status] | [status, _] => self.hear_status(status & 7),
            _ => self.state(Input::Traffic),
        }
        if self.up && !self.is_beyond {
            self.tell_set(&unit);
        }
    }

    /// The monitors (Q.703 10).
    #[inline]
    fn judge(&mut self, error: bool) {
        if self.align == Align::Proving {
            if let (true, Some(left)) = (error, &mut self.aerm) {
                *left -= 1;
                if *left == 0 {
                    self.align(Input::Abort);
                }
            }
        } else if let (State::Ready | State::InService, Some((count, units))) = (self.state, &mut self.suerm) {
            *units = units.wrapping_add(1);
            *count += u8::from(error);
            if *count == 64 {
                return self.state(Input::Failure(1));
            }
            *count = count.saturating_sub(u8::from(*units == 0));
        }
    }

    fn hear_status(&mut self, status: u8) {
        self.align(Input::Heard(status));
        self.state(Input::Heard(status));
        if status == SIB {
            self.hear_busy();
        }
    }

    fn tell_set(&mut self, unit: &Unit<'_>) {
        let Some(answer) = self.set.hear(unit) else {
            self.is_beyond = true;
            return;
        };
        let report = if let Answer::Heard(report) = answer { Some(report) } else { None };
        let body: Box<[u8]> = match unit.body {
            [status] | [status, _] => [status & 7].into(),
            body => body.into(),
        };
        self.history.push(Entry::Heard(unit.head, body, report));
        let Some(report) = report else {
            return;
        };
        self.messages += u64::from(report.took == Took::Message);
        if report.acked > 0 || report.resend {
            self.hear_acknowledgement(unit.head.bsn != self.top);
        }
        if report.fault > 0 {
            self.state(Input::Failure(report.fault));
        }
    }

    /// What is sent next goes to the line (Q.703 2.3, 9.3, 11).
    pub fn send(&mut self, line: impl FnOnce(&Unit<'_>)) {
        let status = match self.state {
            State::Out => Some(SIOS),
            State::Aligning => Some(self.status),
            State::InService if self.up && std::mem::take(&mut self.b_due) => Some(SIB),
            _ => None,
        };
        if let Some(status) = status {
            return line(&Unit { head: self.last, body: &[status] });
        }
        if self.state == State::InService && !self.up {
            self.rise();
        }
        if !self.up {
            self.last = START;
        }
        if !self.up || self.paused {
            return line(&Unit { head: self.last, body: &[] });
        }
        let Answer::Sent(mut unit) = self.set.next() else {
            return;
        };
        self.history.push(Entry::Next(unit.head, unit.body.into()));
        if self.busy {
            (unit.head.bsn, unit.head.bib) = (self.last.bsn, self.last.bib);
        }
        self.last = unit.head;
        line(&unit);
        if unit.is_message() {
            let next = (self.top + 1) & 127;
            if unit.head.fsn == next {
                self.top = next;
            }
            if !self.awaiting {
                self.awaiting = true;
                self.start(T7);
            }
        }
    }
}
