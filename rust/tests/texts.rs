//! The texts of stored examples.
#![cfg(feature = "texts")]

use mtpbank_end::{text, Code, Subcommand};

fn example(name: &str) -> Vec<u8> {
    let folder = concat!(env!("CARGO_MANIFEST_DIR"), "/../examples");
    std::fs::read(format!("{folder}/{name}")).expect(name)
}

#[test]
fn examples_print_what_is_stored() -> Result<(), Code> {
    let told = [
        (Subcommand::Play, "call.play", "call.stdout"),
        (Subcommand::Ladder, "call.play", "call.ladder"),
        (Subcommand::Capture, "call.play", "call.pcap"),
        (Subcommand::HistoryOfA, "call.play", "call.history_a"),
        (Subcommand::HistoryOfB, "call.play", "call.history_b"),
        (Subcommand::Audit, "one_message.history", "one_message.stdout"),
        (Subcommand::Decode, "sent_units.decode", "sent_units.stdout"),
        (Subcommand::DecodeWide, "wide_units.decode_wide", "wide_units.stdout"),
        (Subcommand::Terminal, "terminal/start.terminal", "terminal/start.stdout"),
        (Subcommand::Units, "good_and_damaged.units", "good_and_damaged.stdout"),
    ];
    for (subcommand, input, printed) in told {
        let made = text(subcommand, false, &example(input))?;
        assert!(made.printed == example(printed), "{subcommand:?} of {input}");
        assert_eq!(made.told, None);
    }
    Ok(())
}

#[test]
fn a_fault_is_told_and_explained() -> Result<(), Code> {
    let plain = text(Subcommand::Play, false, b"ofer\n")?;
    assert_eq!(plain.told.as_deref(), Some("fault line 1 text\n"));
    let explained = text(Subcommand::Play, true, b"ofer\n")?.told.expect("a fault");
    assert!(explained.starts_with("fault line 1 text\nline 1: ") && explained.ends_with("\n  ^\n"), "{explained}");
    assert_eq!(text(Subcommand::Units, true, b""), Err(Code::NO_SUCH_COMMAND));
    Ok(())
}
