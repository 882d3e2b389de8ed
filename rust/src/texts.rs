//! What the program's subcommands make of octets.

use crate::raw;
use crate::Code;

/// A subcommand of the program.
#[derive(Clone, Copy, Debug, PartialEq, Eq)]
pub enum Subcommand {
    /// A script of two ends: what each of its lines answers.
    Play,
    /// A script: its chart.
    Ladder,
    /// A script: the units that both ends sent, as a file of pcap.
    Capture,
    /// A script: what end a was asked and answered.
    HistoryOfA,
    /// A script: what end b was.
    HistoryOfB,
    /// A history: whether it's legal.
    Audit,
    /// Units: what they say.
    Decode,
    /// Units with 12-bit numbers: likewise.
    DecodeWide,
    /// Lines that drive one end: what it answers.
    Terminal,
    /// The same, and a line at fault is answered.
    TerminalKeep,
    /// Octets of a line: what a terminal sees in them.
    Units,
}

/// What a subcommand printed.
#[derive(Clone, Debug, PartialEq, Eq)]
pub struct Text {
    /// What it printed, up to the input's fault if there is one.
    pub printed: Vec<u8>,
    /// The lines that tell of that fault.
    pub told: Option<String>,
}

/// What a subcommand makes of an input. With `explains` a fault is explained, and numbers have words ([`Subcommand::Units`] has no
/// such form: [`Code::NO_SUCH_COMMAND`]).
///
/// ```
/// use mtpbank_end::{text, Subcommand};
/// let script = b"set links=1 method=basic a=2 b=1 sio=80\nofer a 85\n";
/// let text = text(Subcommand::Play, true, script)?;
/// assert!(text.told.unwrap().starts_with("fault line 2 text\nline 2: no line of a script begins with this word\n"));
/// # Ok::<(), mtpbank_end::Code>(())
/// ```
pub fn text(subcommand: Subcommand, explains: bool, input: &[u8]) -> Result<Text, Code> {
    let number = subcommand as u8 + if explains { 16 } else { 0 };
    let (mut printed, mut told) = (vec![0; 4096], vec![0; 256]);
    loop {
        let (code, lengths) = raw::text(number, input, &mut printed, &mut told);
        match Code(code) {
            Code::NO_ROOM => {
                printed.resize(lengths.printed.max(printed.len()), 0);
                told.resize(lengths.told.max(told.len()), 0);
            }
            Code(0) => {
                printed.truncate(lengths.printed);
                told.truncate(lengths.told);
                let told = (!told.is_empty()).then(|| String::from_utf8_lossy(&told).into_owned());
                return Ok(Text { printed, told });
            }
            code => return Err(code),
        }
    }
}
