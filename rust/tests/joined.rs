//! Two ends that are joined octet by octet on two links, one of which is cut; and calls that are refused.

use mtpbank_end::{Code, Command, End, Set, Timers, Times};

const PIECE: usize = 32;

struct Joined {
    a: End,
    b: End,
    to_a: [[u8; PIECE]; 2],
    to_b: [[u8; PIECE]; 2],
    cut: bool,
}

impl Joined {
    fn new() -> Result<Joined, Code> {
        let mut a = End::open(&Set::basic(2, 2, 1), &Timers::USUAL, &Times::USUAL)?;
        let mut b = End::open(&Set::basic(2, 1, 2), &Timers::USUAL, &Times::USUAL)?;
        for link in 0..2 {
            a.activate(link)?;
            b.activate(link)?;
        }
        Ok(Joined { a, b, to_a: [[0xff; PIECE]; 2], to_b: [[0xff; PIECE]; 2], cut: false })
    }

    fn run(&mut self, pieces: usize) -> Result<(), Code> {
        for _ in 0..pieces {
            for link in 0..2 {
                let (mut from_a, mut from_b) = ([0xff; PIECE], [0xff; PIECE]);
                self.a.hear(link as u8, &self.to_a[link], &mut from_a)?;
                self.b.hear(link as u8, &self.to_b[link], &mut from_b)?;
                if self.cut && link == 1 {
                    (from_a, from_b) = ([0xff; PIECE], [0xff; PIECE]);
                }
                (self.to_b[link], self.to_a[link]) = (from_a, from_b);
            }
        }
        Ok(())
    }

    fn offer(&mut self, numbers: std::ops::Range<u8>) -> Result<(), Code> {
        for number in numbers {
            assert_eq!(self.a.offer(0, &[0x85, 0x01, 0x80, 0x00, 0x30, number])?, u64::from(number));
        }
        Ok(())
    }
}

#[test]
fn all_come_in_order_though_a_link_is_cut() -> Result<(), Code> {
    let mut joined = Joined::new()?;
    joined.run(500)?;
    assert_eq!((joined.a.look(1)?.word, joined.b.look(1)?.word), (6, 6));
    joined.a.checkpoint()?;
    joined.offer(0..10)?;
    joined.run(1)?;
    joined.cut = true;
    joined.offer(10..20)?;
    joined.run(500)?;
    assert_ne!(joined.a.look(1)?.word, 6);
    for number in 0..20 {
        assert_eq!(joined.b.take(3)?, Some(vec![0x85, 0x01, 0x80, 0x00, 0x30, number]));
    }
    assert_eq!(joined.b.take(3)?, None);
    let last = joined.a.find(0, 19)?;
    assert_eq!((last.place, last.detail), (2, 0));
    Ok(())
}

#[test]
fn what_is_not_there_is_refused() -> Result<(), Code> {
    let mut end = End::open(&Set::basic(1, 1, 2), &Timers::USUAL, &Times::USUAL)?;
    assert_eq!(end.command(1, Command::Start), Err(Code::NO_SUCH_LINK));
    assert_eq!(end.hear(0, &[0x7e; 2], &mut [0; 1]), Err(Code::NO_ROOM));
    assert_eq!(end.deactivate(0), Err(Code::NOTHING));
    assert_eq!(end.look(0)?.turns, 0);
    assert!(End::open(&Set::basic(17, 1, 2), &Timers::USUAL, &Times::USUAL).is_err());
    Ok(())
}

#[test]
fn a_history_is_text() -> Result<(), Code> {
    let mut end = End::open(&Set::basic(2, 2, 1), &Timers::USUAL, &Times::USUAL)?;
    let first = "set links=2 method=basic a=2 b=1 sio=80\n";
    let opened = end.history(0)?;
    assert_eq!((opened.text.as_str(), opened.lines), (first, 1));
    end.offer(9, &[0x85, 0x01, 0x80, 0x00, 0x30])?;
    assert_eq!(end.take(7)?, None);
    let entries = "user 9 offer 8501800030 -> accepted 0\nuser 7 take -> refused 9\n";
    assert_eq!(end.history(0)?.text, format!("{first}{entries}"));
    let from = end.history(opened.lines)?;
    assert_eq!((from.text.as_str(), from.lines), (entries, 2));
    assert_eq!(end.history(3)?.text, "");
    end.checkpoint()?;
    assert_eq!(end.history(0)?, opened);
    Ok(())
}

#[test]
fn a_turn_tells_its_unit() -> Result<(), Code> {
    let mut end = End::open(&Set::basic(1, 1, 2), &Timers::USUAL, &Times::USUAL)?;
    let mut twin = End::open(&Set::basic(1, 1, 2), &Timers::USUAL, &Times::USUAL)?;
    let (mut put, mut units) = ([0; 64], Vec::new());
    twin.hear(0, &[0x7e; 64], &mut put)?;
    for expected in put {
        let turn = end.turn(0, 0x7e)?;
        assert_eq!((turn.put, turn.message), (expected, false));
        units.extend(turn.unit);
    }
    // status indication "out of service" (Q.703 11.1.3)
    assert!(units.len() > 5 && units.iter().all(|unit| unit == &[0xff, 0xff, 0x01, 0x03]));
    assert_eq!(end.history(0)?, twin.history(0)?);
    assert_eq!(end.turn(1, 0x7e), Err(Code::NO_SUCH_LINK));
    Ok(())
}

#[test]
fn an_end_goes_to_another_thread() -> Result<(), Code> {
    let mut end = End::open(&Set::basic(1, 1, 2), &Timers::USUAL, &Times::USUAL)?;
    end.activate(0)?;
    let moved = std::thread::spawn(move || end.hear(0, &[0x7e; 8], &mut [0; 8]).map(|_| end)).join();
    assert_eq!(moved.expect("a thread that ended")?.look(0)?.turns, 8);
    Ok(())
}

#[test]
fn a_code_has_words() {
    assert_eq!(Code::NO_ROOM.to_string(), "mtpbank answered 50: a buffer is too small");
}
