//! Two ends in two threads: what goes out of each goes over a channel to the other one.
//!
//!     cargo run --release --example threads -- 1000

use mtpbank_end::{End, Set, Timers, Times};
use std::error::Error;
use std::sync::mpsc::{channel, Receiver, Sender};
use std::thread;

/// Octets that go at once: 5 ms at 64 kbit/s.
const PIECE: usize = 40;

/// The other end's point code, then how many messages are offered and expected.
fn run(
    own: u16,
    far: u16,
    count: u32,
    to: Sender<Vec<u8>>,
    from: Receiver<Vec<u8>>,
) -> Result<u32, Box<dyn Error + Send + Sync>> {
    let mut end = End::open(&Set::basic(1, own, far), &Timers::USUAL, &Times::USUAL)?;
    end.activate(0)?;
    let (mut offered, mut taken) = (0u32, 0u32);
    to.send(vec![0xff; PIECE])?;
    while let Ok(came) = from.recv() {
        let mut put = vec![0; came.len()];
        let heard = end.hear(0, &came, &mut put)?;
        if heard.messages > 0 {
            for message in end.messages(0) {
                assert_eq!(message?[5..], taken.to_be_bytes(), "a message out of order");
                taken += 1;
            }
        }
        let mut message = vec![0x85, far as u8, (own << 6) as u8, (own >> 2) as u8, 0];
        message.extend(offered.to_be_bytes());
        if offered < count && end.offer(0, &message).is_ok() {
            offered += 1;
        }
        if end.look(0)?.turns % 8000 < PIECE as u64 {
            end.checkpoint()?;
        }
        let is_done =
            taken == count && offered == count && end.find(0, u64::from(count) - 1).is_ok_and(|it| it.place == 2);
        if to.send(put).is_err() || is_done {
            break;
        }
    }
    Ok(taken)
}

fn main() -> Result<(), Box<dyn Error + Send + Sync>> {
    let count = std::env::args().nth(1).map_or(Ok(100), |it| it.parse())?;
    let ((to_b, from_a), (to_a, from_b)) = (channel(), channel());
    let other = thread::spawn(move || run(2, 1, count, to_a, from_a));
    let taken = run(1, 2, count, to_b, from_b)?;
    println!("taken {taken} and {}, of {count} each way", other.join().expect("a thread that ended")?);
    Ok(())
}
