//! Distance with every event (document 02, F-6), by the tool and by the log.

mod common;

use common::{joined_loops, reading, seeds, Both, WHEEL};
use gurvazze_reference::generate::Generator;
use gurvazze_reference::tool::{Answer, Call, Distance, Log, Tool, Wheel, CHANNELS, MAX_TOTAL};
use gurvazze_reference::values::RawSetUp;
use gurvazze_reference::Refusal;

const MOST: u32 = 4_294_967_295;

fn refused<T>(number: u8) -> Result<T, Refusal> {
    Err(Refusal::new(number))
}

/// The four-value set, two events, with a rule in these channels.
fn loaded(wheel: Wheel, channels: &[usize]) -> Both {
    let mut both = Both::new(2, wheel);
    for &channel in channels {
        both.load(channel, "T").unwrap();
    }
    both
}

/// 256 events with the most pulses, which leave room for 256 more.
fn fill(both: &mut Both, channel: usize) {
    for _ in 0..256 {
        both.event(channel, 0, MOST).unwrap();
    }
    assert_eq!(total_of(both, channel), MAX_TOTAL - 256);
}

fn total_of(both: &Both, channel: usize) -> u64 {
    both.tool.channels[channel].total
}

/// 18: "P or C outside its range".
#[test]
fn wheels_at_their_limits() {
    for pulses in [0, 1, 65_535, 65_536] {
        for millimetres in [0, 1, 65_535, 65_536] {
            let (raw, wheel) = (RawSetUp::four_values(2), Wheel { pulses, millimetres });
            let set_up = (Tool::new(raw.clone(), wheel).map(drop), Log::new(raw, wheel).map(drop));
            let bad = [pulses, millimetres].iter().any(|number| [0, 65_536].contains(number));
            assert_eq!(set_up, if bad { (refused(18), refused(18)) } else { (Ok(()), Ok(())) }, "{wheel:?}");
        }
    }
    for number in [65_537, 131_071, 1 << 32, (1 << 32) + 1, usize::MAX] {
        assert_eq!(Wheel { pulses: number, ..WHEEL }.check(), refused(18));
        assert_eq!(Wheel { millimetres: number, ..WHEEL }.check(), refused(18));
    }
}

/// "18 ... after 3 at set-up".
#[test]
fn a_wheel_is_judged_after_the_set_up() {
    let bad = Wheel { pulses: 0, millimetres: 65_536 };
    for (raw, number) in [
        (RawSetUp::numbers(17, 17, 3, Vec::new()), 1),
        (RawSetUp::numbers(2, 4, 4, Vec::new()), 2),
        (RawSetUp::numbers(2, 4, 3, vec![0; 15]), 3),
        (RawSetUp::numbers(2, 4, 3, vec![4; 16]), 3),
        (RawSetUp::numbers(2, 4, 3, vec![0; 16]), 3),
        (RawSetUp::four_values(2), 18),
        // "18 after 3 (after 20 for a register)".
        (RawSetUp::register(0, 0), 1),
        (RawSetUp::register(17, 17), 1),
        (RawSetUp::register(2, 0), 20),
        (RawSetUp::register(2, 17), 20),
        (RawSetUp::register(2, 16), 18),
    ] {
        assert_eq!(Tool::new(raw.clone(), bad), refused(number));
        assert_eq!(Log::new(raw.clone(), bad).map(drop), refused(number));
        assert_eq!(Tool::new(raw, WHEEL).map(drop), if number == 18 { Ok(()) } else { refused(number) });
    }
}

/// 19: "a total above 1,099,511,627,776". The greatest total itself is accepted.
#[test]
fn totals_at_the_limit() {
    let mut both = loaded(WHEEL, &[0]);
    fill(&mut both, 0);
    assert_eq!(both.event(0, 0, 257), refused(19));
    assert_eq!(both.event(0, 0, MOST), refused(19));
    // One less than the greatest.
    assert_eq!(both.event(0, 0, 255), Ok(reading(3, 1_099_511_627_775, 0)));
    assert_eq!(both.event(0, 0, 2), refused(19));
    // The greatest.
    assert_eq!(both.event(0, 0, 1), Ok(reading(3, 1_099_511_627_776, 0)));
    // One more.
    assert_eq!(both.event(0, 0, 1), refused(19));
    assert_eq!(both.event(0, 0, 0), Ok(reading(3, 1_099_511_627_776, 0)));
    assert_eq!(both.event(0, 0, MOST), refused(19));
    assert_eq!(total_of(&both, 0), 1 << 40);
}

#[test]
fn the_exact_room_is_accepted_in_one_event() {
    for (wheel, distance) in [
        ((1, 65_535), (72_056_494_526_300_160, 0)),
        // 2^40 = 16,777,472 × 65,535 + 256.
        ((65_535, 1), (16_777_472, 256)),
        ((65_535, 65_535), (1_099_511_627_776, 0)),
        ((7, 10), (1_570_730_896_822, 6)),
    ] {
        let mut both = loaded(Wheel { pulses: wheel.0, millimetres: wheel.1 }, &[7]);
        fill(&mut both, 7);
        assert_eq!(both.event(7, 1, 257), refused(19));
        assert_eq!(both.event(7, 1, 256), Ok(reading(3, distance.0, distance.1)));
        assert_eq!(both.event(7, 1, 1), refused(19));
    }
}

/// A refused event leaves the current state as it was, and the value that it would have had is still to come.
#[test]
fn an_event_refused_by_19_does_not_move() {
    let mut both = Both::new(2, WHEEL);
    // Event 1 repeated gives 3, then 1 for ever; event 0 begins anew.
    both.load(0, "V A A G1 O1.1 G1 X0 G0 X0").unwrap();
    fill(&mut both, 0);
    assert_eq!(both.event(0, 1, 257), refused(19));
    assert_eq!(both.event(0, 1, 0).unwrap().value, 3);
    assert_eq!(both.event(0, 1, 257), refused(19));
    assert_eq!(both.event(0, 1, 0).unwrap().value, 1);
    assert_eq!(both.event(0, 1, 256).unwrap().value, 1);
}

/// "after 16", and 14 and 15 before it.
#[test]
fn order_of_an_events_refusals() {
    let mut both = loaded(WHEEL, &[0]);
    fill(&mut both, 0);
    assert_eq!(both.event(8, 2, MOST), refused(14));
    assert_eq!(both.event(1, 2, MOST), refused(15));
    assert_eq!(both.event(0, 2, MOST), refused(16));
    assert_eq!(both.event(0, 1, MOST), refused(19));
    // 17 comes first.
    for total in [MAX_TOTAL + 1, u64::MAX] {
        both.tool.channels[0].total = total;
        assert_eq!(both.tool.event(0, 2, MOST), refused(17));
        assert_eq!(both.tool.event(0, 1, 0), refused(17));
    }
}

/// "A refused event adds no pulses."
#[test]
fn refused_events_add_nothing() {
    let mut both = loaded(Wheel { pulses: 10, millimetres: 3 }, &[0]);
    assert_eq!(both.event(0, 0, 5), Ok(reading(3, 1, 5)));
    assert_eq!(both.event(0, 2, 1000), refused(16));
    assert_eq!(both.event(1, 0, 1000), refused(15));
    assert_eq!(both.event(8, 0, 1000), refused(14));
    assert_eq!(both.event(0, 1, 0), Ok(reading(3, 1, 5)));
    assert_eq!(both.event(0, 0, 5), Ok(reading(3, 3, 0)));
    both.load(1, "T").unwrap();
    assert_eq!(both.event(1, 0, 0), Ok(reading(3, 0, 0)));
}

/// "A channel holds their total since its loading or restart".
#[test]
fn loading_restarting_and_clearing_zero_the_total() {
    type Zero = fn(&mut Both) -> Answer;
    let zeros: [Zero; 4] = [
        |both| both.load(0, "T"),
        |both| both.call(Call::RestartOne { channel: 0 }),
        |both| both.call(Call::RestartAll),
        |both| {
            both.clear(0)?;
            assert_eq!(both.event(0, 0, 1), refused(15));
            both.load(0, "O0.3")
        },
    ];
    for zero in zeros {
        let mut both = loaded(Wheel { pulses: 4, millimetres: 1 }, &[0]);
        for total in [1, 9, MOST, 0] {
            both.event(0, 0, total).unwrap();
            assert_eq!(zero(&mut both), Ok(None));
            assert_eq!(total_of(&both, 0), 0);
            assert_eq!(both.event(0, 1, 7), Ok(reading(3, 1, 3)));
            assert_eq!(zero(&mut both), Ok(None));
        }
        // Also where there is no room.
        fill(&mut both, 0);
        assert_eq!(both.event(0, 0, 257), refused(19));
        assert_eq!(zero(&mut both), Ok(None));
        assert_eq!(both.event(0, 0, MOST), Ok(reading(3, 1_073_741_823, 3)));
    }
}

/// "a refused loading changes neither its channel nor any other", nor does another refused call.
#[test]
fn refused_calls_keep_the_total() {
    let mut both = loaded(WHEEL, &[0]);
    both.event(0, 0, 9).unwrap();
    for items in ["", "V X0", "X0", "T T", &joined_loops(16, 17)] {
        assert!(both.load(0, items).is_err());
    }
    assert_eq!(both.call(Call::RestartOne { channel: 8 }), refused(14));
    assert_eq!(both.call(Call::RestartOne { channel: 1 }), refused(15));
    assert_eq!(both.call(Call::Clear { channel: 8 }), refused(14));
    assert_eq!(both.event(0, 0, 0), Ok(reading(3, 9, 0)));
}

/// "Distances obey the same independence of channels as values."
#[test]
fn each_channel_has_its_own_total() {
    let mut both = loaded(WHEEL, &[0, 1, 2, 3, 4, 5, 6, 7]);
    for round in 1..=3 {
        for channel in 0..CHANNELS {
            let pulses = 10u32.pow(channel as u32);
            assert_eq!(both.event(channel, 0, pulses), Ok(reading(3, round * u64::from(pulses), 0)));
        }
    }
    // A full channel leaves the room of the others.
    both.call(Call::RestartOne { channel: 3 }).unwrap();
    fill(&mut both, 3);
    assert_eq!(both.event(3, 0, 257), refused(19));
    assert_eq!(both.event(4, 0, 257), Ok(reading(3, 30_257, 0)));
    // Restarting one, clearing and loading leave the totals of the others.
    both.call(Call::RestartOne { channel: 3 }).unwrap();
    both.call(Call::Clear { channel: 5 }).unwrap();
    both.load(6, "T").unwrap();
    let totals: Vec<u64> = (0..CHANNELS).map(|channel| total_of(&both, channel)).collect();
    assert_eq!(totals, [3, 30, 300, 0, 30_257, 0, 0, 30_000_000]);
    // Restart all zeroes each, and an empty one remains empty.
    both.call(Call::RestartAll).unwrap();
    assert!((0..CHANNELS).all(|channel| total_of(&both, channel) == 0));
    assert_eq!(both.event(5, 0, 0), refused(15));
}

/// "whole millimetres, total × C divided by P, with the exact remainder in P-ths of a millimetre".
#[test]
fn the_law_of_distances() {
    let holds = |wheel: Wheel, total: u64, Distance { millimetres, rest }: Distance| {
        let [p, c, total, mm, rest] = [wheel.pulses as u64, wheel.millimetres as u64, total, millimetres, rest].map(u128::from);
        mm * p + rest == total * c && rest < p
    };
    let ends = [1, 2, 3, 65_534, 65_535];
    let totals = [0, 1, 2, 65_534, 65_535, 65_536, u64::from(MOST), 1 << 32, MAX_TOTAL - 1, MAX_TOTAL];
    for pulses in ends {
        for millimetres in ends {
            let wheel = Wheel { pulses, millimetres };
            assert!(totals.iter().all(|&total| holds(wheel, total, wheel.distance(total))), "{wheel:?}");
        }
    }
    for seed in seeds(200) {
        let mut g = Generator::new(seed);
        let wheel = g.wheel();
        let mut both = loaded(wheel, &[0]);
        for _ in 0..20 {
            let reading = both.event(0, 0, g.pulses()).unwrap();
            assert!(holds(wheel, total_of(&both, 0), reading.distance), "{wheel:?} {reading:?}");
        }
    }
}

/// The pulses of the event itself are counted in, and P and C are not each other.
#[test]
fn distances_by_hand() {
    let mut both = loaded(Wheel { pulses: 100, millimetres: 314 }, &[0]);
    assert_eq!(both.event(0, 0, 0), Ok(reading(3, 0, 0)));
    assert_eq!(both.event(0, 0, 1), Ok(reading(3, 3, 14)));
    assert_eq!(both.event(0, 0, 99), Ok(reading(3, 314, 0)));
    assert_eq!(both.event(0, 0, 50), Ok(reading(3, 471, 0)));
    assert_eq!(both.event(0, 0, 7), Ok(reading(3, 492, 98)));
    let mut both = loaded(Wheel { pulses: 314, millimetres: 100 }, &[0]);
    assert_eq!(both.event(0, 0, 157), Ok(reading(3, 50, 0)));
    assert_eq!(both.event(0, 0, 1), Ok(reading(3, 50, 100)));
}
