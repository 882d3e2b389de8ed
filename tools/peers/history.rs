//! The history of a set of one link, as the peers keep and print it.
use crate::set::{Answer, Head, Place, Report, Unit};
use crate::text::{put_hex, put_named};

/// An entry of the set's history: what it was asked, and what it answered.
pub enum Entry {
    Up,
    Offer(Box<[u8]>, Result<u64, u8>),
    Take(Option<Box<[u8]>>),
    Find(u64, Result<Place, u8>),
    Next(Head, Box<[u8]>),
    /// Without a report nothing was to be done of it.
    Heard(Head, Box<[u8]>, Option<Report>),
}

impl Entry {
    /// Its line; the octets of units go through the scratch.
    pub fn put(&self, out: &mut Vec<u8>, scratch: &mut Vec<u8>) {
        let answer = match self {
            Entry::Up => {
                out.extend_from_slice(b"terminal 0 up 0");
                Answer::Done
            }
            Entry::Offer(body, answer) => {
                out.extend_from_slice(if body.is_empty() { b"user 0 offer" } else { b"user 0 offer " });
                put_hex(out, body);
                answer.map_or_else(Answer::Refused, Answer::Accepted)
            }
            Entry::Take(body) => {
                out.extend_from_slice(b"user 0 take");
                body.as_deref().map_or(Answer::Refused(9), Answer::Taken)
            }
            Entry::Find(number, answer) => {
                put_named(out, "user 0 find ", *number);
                answer.map_or_else(Answer::Refused, |place| Answer::Found(place, 0))
            }
            Entry::Next(head, body) => {
                out.extend_from_slice(b"terminal 0 next 0");
                Answer::Sent(Unit { head: *head, body })
            }
            Entry::Heard(head, body, report) => {
                out.extend_from_slice(b"terminal 0 hear 0 ");
                Unit { head: *head, body }.write(scratch);
                put_hex(out, &scratch[..scratch.len() - 2]);
                report.map_or(Answer::Refused(9), Answer::Heard)
            }
        };
        out.extend_from_slice(b" -> ");
        answer.put(out, scratch);
        out.push(b'\n');
    }
}
