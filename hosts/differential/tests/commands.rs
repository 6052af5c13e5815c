//! The answers of the independent version to commands worked out by hand, and its scripts.

use gurvazze_differential::script::Script;
use gurvazze_differential::session::{Session, LINE_BYTES};

/// Each command with its answer, one after another.
fn say(session: &mut Session, commands: &[(&str, &str)]) {
    for (command, expected) in commands {
        let answer = session.answer(command.as_bytes()).map_or(String::new(), |answer| answer.text);
        assert_eq!(answer.trim_end(), *expected, "{command}");
    }
}

const NUMBERS: &str = "setup 2 4 3 0 0 0 0 0 1 0 1 0 0 2 2 0 1 2 3";

/// `register EVENTS LINES`: the words, then 1, 20 and 18; what is refused leaves all as it was.
#[test]
fn set_ups_of_registers() {
    say(
        &mut Session::default(),
        &[
            ("show 0", "error=setup"),
            ("register", "error=arguments"),
            ("register 2", "error=arguments"),
            ("register 2 4 4", "error=arguments"),
            ("register 2 x", "error=number"),
            ("register x 4", "error=number"),
            ("register 2 1.1", "error=number"),
            ("register 0 0", "refused=1"),
            ("register 17 17", "refused=1"),
            ("register 2 0", "refused=20"),
            ("register 2 17", "refused=20"),
            ("register 2 18446744073709551617", "refused=20"),
            ("show 0", "error=setup"),
            ("wheel 0 1", "ok"),
            ("register 0 0", "refused=1"),
            ("register 2 0", "refused=20"),
            ("register 2 16", "refused=18"),
            ("wheel 10 3", "ok"),
            ("register 02 0016", "ok"),
            ("show 0", "empty"),
            ("load 0 V A O1.65535.1 G1 X0", "states=2"),
            ("event 0 1 5", "value=65535.1 mm=1 rest=5"),
            ("register 2 17", "refused=20"),
            ("setup 2 4 4 0", "refused=2"),
            ("show 0", "states=2 state=0 total=5"),
            ("register 2 16", "ok"),
            ("show 0", "empty"),
        ],
    );
}

/// A value is written LOW.HIGH; rows have the masks apart.
#[test]
fn values_of_registers() {
    say(
        &mut Session::default(),
        &[
            ("register 2 4", "ok"),
            (
                "table A O1.15.14 V G1 X0",
                "states=3\nrow=0 0 15 15 1\nrow=0 1 15 14 2\nrow=1 0 15 15 1\nrow=1 1 15 15 1\nrow=2 0 15 15 1\nrow=2 1 15 15 2",
            ),
            (
                "dot O1.3.12",
                "digraph table {\n  0 -> 1 [label=\"0/open\"];\n  0 -> 1 [label=\"1/3.12\"];\n  1 -> 1 [label=\"0/open\"];\n  \
                 1 -> 1 [label=\"1/open\"];\n}",
            ),
            ("load 0 V A A G1 O1.15.14 G1 X0 G0 X0", "states=2"),
            ("event 0 1", "value=15.15"),
            ("event 0 1", "value=15.14"),
            ("event 0 1 7", "value=15.14 mm=7 rest=0"),
            ("events 0 0 1 1", "values=15.15 15.15 15.14"),
            ("events 0", "values="),
            ("events 0 0 2", "refused=16"),
            ("load 1 O1.16.0", "refused=6 0"),
            ("load 1 A T O1.0.16", "refused=6 2"),
            ("load 1 O1.65536.0", "refused=6 0"),
            ("load 1 O1.99999.0", "refused=6 0"),
            ("load 1 O1.100000.0", "error=tokens"),
            ("load 1 O1.15", "error=tokens"),
            ("load 1 O1.015.0", "error=tokens"),
            ("load 1 O1.1.1.1", "error=tokens"),
            ("covers O0.14.14 / A O0.15.14 O0.14.15", "yes"),
            ("covers T / O1.15.7", "no=1"),
            ("covers T / O1.15", "error=tokens"),
            (NUMBERS, "ok"),
            ("load 0 O1.1.1", "error=tokens"),
            ("load 0 O1.1", "states=2"),
            ("event 0 1", "value=1"),
        ],
    );
}

/// A device is read by the kind of the set-up in force, which before any set-up is that of numbers.
#[test]
fn devices_of_registers() {
    say(
        &mut Session::default(),
        &[
            ("device 1 0 1.1 0", "error=number"),
            ("device 1 0 3 0 3 0", "ok"),
            ("register 2 4", "ok"),
            ("write", "error=device"),
            ("trial T", "error=device"),
            ("device 1 0 3 0 3 0", "error=number"),
            ("write", "error=device"),
            ("device 2 0 15.14 0 14.15 1 14.15 1 15.14 1", "ok"),
            ("write", "rule=V A G0 X0 A O0.15.14 A G1 V A G0 X0 A O0.14.15 A G1 X0 O1.15.14 O1.14.15"),
            ("trial O0.15.14", "pass=stricter"),
            ("trial O0.14.15", "fail=0"),
            ("register 2 5", "ok"),
            ("trial T", "pass=stricter"),
            ("register 2 3", "ok"),
            ("trial T", "refused=11"),
            ("register 2 17", "refused=20"),
            ("setup 2 4 4 0", "refused=2"),
            ("write", "refused=11"),
            (NUMBERS, "ok"),
            ("write", "error=device"),
            ("device 1 0 1 0 2 0", "ok"),
            ("register 2 17", "refused=20"),
            ("write", "rule=V A G0 X0 A O0.1 A G1 X0 O1.2"),
            ("setup 2 1 0 0", "ok"),
            ("write", "refused=11"),
        ],
    );
}

/// What is no value or no next state is `error=number`; what is too large for a mask or a next state is 11 where the device is used.
#[test]
fn words_of_devices_of_registers() {
    let mut session = Session::default();
    let rule = "rule=V A G0 X0 O0.1.0";
    say(&mut session, &[("register 1 16", "ok"), ("device 1 0 0001.00 0000", "ok"), ("write", rule)]);
    for value in ["1", "1.", ".1", ".", "1..1", "1.1.1", "1.1.", "x.1", "1.x", "-1.1", "1.+1", "1,1"] {
        say(&mut session, &[(&format!("device 1 0 {value} 0"), "error=number"), ("write", rule)]);
        say(&mut session, &[(&format!("device 1 0 1.1 0 {value}"), "error=number"), ("write", rule)]);
    }
    for next in ["x", "1.1", "-1", "0.0"] {
        say(&mut session, &[(&format!("device 1 0 1.1 {next}"), "error=number"), ("write", rule)]);
    }
    for list in [
        "65536.0 0",
        "0.65536 0",
        "0.99999 0",
        "18446744073709551617.0 0",
        "1.1 256",
        "1.1 18446744073709551616",
        "1.1 1",
        "1.1",
        "1.1 0 1.1",
        "1.1 0 65536.0",
        "1.1 0 1.1 0",
        "",
    ] {
        say(&mut session, &[(&format!("device 1 0 {list}"), "ok"), ("write", "refused=11"), ("trial T", "refused=11")]);
    }
    say(&mut session, &[("device 1 0 65535.65535 0", "ok"), ("write", "rule=V A G0 X0 O0.65535.65535")]);
    say(&mut session, &[("device 1 1 1.1 0", "ok"), ("write", "refused=11"), ("device x 0 1.1 0", "error=number")]);
    // All of a list is read, also what no table has room for.
    say(&mut session, &[("register 16 1", "ok")]);
    let entries = |count: usize, end: &str| format!("device 256 0{}{end}", " 1.1 0".repeat(count));
    say(&mut session, &[(&entries(4096, ""), "ok"), ("trial T", "refused=11")]);
    assert!(session.answer(b"write").unwrap().text.starts_with("rule=V A G0 X0 A O0.1.1 A G1 X0 "));
    for (device, answer) in [(entries(5400, ""), "ok"), (entries(5400, " 1.1"), "ok"), (entries(4097, " 1"), "error=number")] {
        assert!(device.len() <= LINE_BYTES);
        say(&mut session, &[(&device, answer), ("write", "refused=11")]);
    }
}

/// The room for tokens is that of the register's own file: 4,096 bytes with its first lines.
#[test]
fn tokens_of_registers_at_their_limit() {
    let mut session = Session::default();
    say(&mut session, &[("register 16 16", "ok")]);
    let room = 4096 - "events=16\nlines=16\nrule=\n".len();
    let tokens = |length: usize| "T ".repeat(length / 2) + if length % 2 == 1 { "T" } else { "" };
    assert_eq!(room % 2, 1);
    say(&mut session, &[(&format!("table {}", tokens(room)), "refused=5")]);
    say(&mut session, &[(&format!("table {}", tokens(room + 2)), "error=tokens")]);
    say(&mut session, &[(&format!("covers {} / {}", tokens(room), tokens(room + 2)), "error=tokens")]);
}

/// `help` has a line for registers behind that of set-ups, its explanation in the column of the others.
#[test]
fn help() {
    let text = Session::default().answer(b"help").unwrap().text;
    let lines: Vec<&str> = text.lines().collect();
    assert_eq!(lines[1], "register EVENTS LINES             the set-up for a register; channels are empty");
    assert_eq!(lines[0].find("the set-up"), lines[1].find("the set-up"));
    assert_eq!(lines.len(), 18);
}

/// Scripts have every answer often enough, and what the program prints for one has room under `rt try`.
#[test]
fn scripts() {
    for seed in 1..=4 {
        let script = Script::new(seed, 20_000);
        assert!(script.tally.missing().is_empty(), "seed {seed}: {}", script.tally.missing().join(", "));
        assert!(script.answers.len() <= 1_048_576, "seed {seed}: {} bytes", script.answers.len());
    }
}
