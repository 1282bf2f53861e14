//! Random scripts: what they cover, and what every call on them keeps.

mod common;

use std::collections::BTreeSet;

use oracle::count::Tally;
use oracle::random::{write_script, Generator};
use oracle::script::{make, parse, Answer, Call, Line, LENT};
use oracle::station::{asked_serial, Outcome, PortNumber, Station, Taken};
use oracle::store::read_store;
use oracle::{padding, pings, serials, stores, tally};

fn script(seed: u64, count: u64) -> Vec<u8> {
    let mut script = Vec::new();
    write_script(seed, count, &mut script).expect("memory can be written");
    script
}

/// The calls of a random script.
fn calls(seed: u64, count: usize) -> impl Iterator<Item = Call> {
    let mut generator = Generator::new(seed);
    let lines = (0..count).map(move |_| generator.answered_line());
    lines.filter_map(|line| match parse(&line) {
        Line::Call(call) => Some(call),
        Line::NoCall | Line::Silent => None,
    })
}

fn name(call: &Call) -> &'static str {
    match call {
        Call::Take(_) => "take",
        Call::Request { .. } => "request",
        Call::Cancel { .. } => "cancel",
        Call::Tick => "tick",
        Call::Switch { .. } => "switch",
        Call::GetPaired(_) => "get-paired",
        Call::Led { .. } => "led",
        Call::List(_) => "list",
        Call::Store(_) => "store",
        Call::Restore(_) => "restore",
        Call::Read(_) => "read",
        Call::Frame { .. } => "frame",
        Call::Mouse(_) => "mouse",
        Call::Dump => "dump",
    }
}

#[test]
fn one_seed_gives_one_script() {
    assert_eq!(script(7, 500), script(7, 500));
    assert_ne!(script(7, 500), script(8, 500));
}

#[test]
fn count_is_the_number_of_answered_lines() {
    for count in [0, 1, 2, 300] {
        let script = script(3, count);
        let lines = script.split(|&byte| byte == b'\n');
        let answered = lines.filter(|line| parse(line) != Line::Silent).count();
        assert_eq!(answered as u64, count);
    }
}

#[test]
fn every_kind_of_answer_occurs() {
    for seed in 1..=5 {
        let mut tally = Tally::default();
        let answers = common::answers(script(seed, 10_000));
        answers.iter().for_each(|line| tally.add(line));
        let mut text = Vec::new();
        tally.print(&mut text).expect("memory can be written");
        assert!(tally.is_complete(), "{}", String::from_utf8_lossy(&text));
    }
}

fn everything_occurs<T: tally::Tally>() {
    for seed in 1..=5 {
        let tally = T::read(&script(seed, 50_000)[..]).expect("memory can be read");
        let mut text = Vec::new();
        tally.print(&mut text).expect("memory can be written");
        assert!(tally.is_complete(), "{}", String::from_utf8_lossy(&text));
    }
    assert!(!T::default().is_complete());
}

/// Of every device, in every way, and nearly in every way.
#[test]
fn serials_are_told() {
    everything_occurs::<serials::Tally>();
}

/// On every port, and nearly in every way.
#[test]
fn pings_are_answered() {
    everything_occurs::<pings::Tally>();
}

/// Of every number of devices, with every line that breaks the rules, and in
/// every way.
#[test]
fn stores_are_written_and_read() {
    everything_occurs::<stores::Tally>();
}

/// Of every type that has padding, clean and dirty in every way.
#[test]
fn padding_is_clean_and_dirty() {
    everything_occurs::<padding::Tally>();
}

#[test]
fn a_missing_kind_and_a_strange_line_are_noticed() {
    assert!(!Tally::default().is_complete());
    for line in [
        "",
        "refused 15: EE",
        "refused 15 line=1",
        "refused 16",
        "refused 16: EE",
        "refused 16 line=0",
        "refused 16 line=9",
        "refused 17: EE",
        "refused 17 line=1",
        "refused 18",
        "refused 0",
        "restored 2",
        "wrote 8: 00",
        "reply",
        "reply port=2 byte2=00 byte3=11 start=4 length=3",
        "reply port=255 byte2=83 byte3=B5 start=4 length=3 dropped=1",
        "reply port=2 byte2=83 byte3=B5 start=4 length=16 dropped=1",
        "reply port=255 byte2=83 byte3=B5 start=4 length=16 dropped=5",
        "Moved",
    ] {
        let mut tally = Tally::default();
        tally.add(line);
        let mut text = Vec::new();
        tally.print(&mut text).expect("memory can be written");
        assert!(
            text.ends_with(b" 1  lines that are no answer\n"),
            "{line:?}"
        );
    }
}

/// The call that each refusal is for, from 01's table.
#[test]
fn every_call_is_refused_in_every_way_and_no_other() {
    let mut seen = BTreeSet::new();
    let mut station = Station::default();
    for call in calls(11, 40_000) {
        if let Some(refusal) = make(&mut station, &call).refusal() {
            seen.insert((name(&call), refusal.number()));
        }
    }
    let table: [(&str, &[u8]); 12] = [
        ("take", &[1, 2, 3, 4, 5, 6, 7, 8, 17]),
        ("request", &[5, 9, 10, 11, 12]),
        ("cancel", &[5, 13]),
        ("switch", &[10, 14]),
        ("get-paired", &[10]),
        ("led", &[5, 10]),
        ("list", &[10]),
        ("store", &[10]),
        ("restore", &[15, 16]),
        ("read", &[1, 2, 3, 4, 5, 6]),
        ("frame", &[5, 9, 10]),
        ("mouse", &[3]),
    ];
    let pairs = table
        .iter()
        .flat_map(|(name, numbers)| numbers.iter().map(|&number| (*name, number)));
    assert_eq!(seen, pairs.collect());
}

#[test]
fn refused_calls_change_nothing() {
    let mut station = Station::default();
    for call in calls(12, 40_000) {
        let before = station.clone();
        let answer = make(&mut station, &call);
        if answer.refusal().is_some() {
            assert_eq!(station, before, "{call:?}");
        }
        if let Answer::Written(Err(_), buffer) = answer {
            assert!(buffer.iter().all(|&byte| byte == LENT), "{call:?}");
        }
    }
}

#[test]
fn writers_keep_the_bytes_around_the_frame() {
    let mut station = Station::default();
    for call in calls(13, 40_000) {
        let Answer::Written(Ok(length), buffer) = make(&mut station, &call) else {
            continue;
        };
        let (Call::Request { lent, .. }
        | Call::Switch { lent, .. }
        | Call::GetPaired(lent)
        | Call::Led { lent, .. }
        | Call::List(lent)
        | Call::Store(lent)
        | Call::Frame { lent, .. }) = call
        else {
            panic!("{call:?} is no writer");
        };
        let offset = usize::from(lent.offset);
        let around = buffer[..offset].iter().chain(&buffer[offset + length..]);
        assert!(around.clone().all(|&byte| byte == LENT));
        assert_eq!(buffer.len(), usize::from(lent.length));
    }
}

/// Striking out the calls for other devices leaves a port's record and
/// answers. The calls for the receiver stay in every device's sequence. A
/// store that is read begins a new sequence with its own station.
#[test]
fn ports_are_independent() {
    let mut whole = Station::default();
    let mut alone: [Station; 7] = Default::default();
    for call in calls(14, 40_000) {
        let answer = make(&mut whole, &call);
        if let Some(start) = start(&call) {
            alone = [(); 7].map(|()| start.clone());
        }
        for (slot, number) in PortNumber::ALL.into_iter().enumerate() {
            let station = &mut alone[slot];
            if call == Call::Tick {
                assert_eq!(ended(&make(station, &call), slot), ended(&answer, slot));
            } else if named_port(&call) == Some(number.byte()) {
                let own = make(station, &call);
                assert_eq!(
                    without_drops(own),
                    without_drops(answer.clone()),
                    "{call:?}"
                );
            } else if named_port(&call) == Some(PortNumber::RECEIVER.byte()) {
                let beside = make(station, &call);
                let [beside, full] = [&beside, &answer];
                assert_eq!(drops(number, &call, beside), drops(number, &call, full));
                assert_eq!(lent(beside), lent(full), "{call:?}");
            }
            assert_eq!(station.port(number), whole.port(number), "{call:?}");
        }
    }
}

/// The station with which a read begins a new sequence, where it is accepted.
fn start(call: &Call) -> Option<Station> {
    match call {
        Call::Restore(text) => read_store(text).ok(),
        _ => None,
    }
}

/// A device's own replies drop nothing, so that this changes those of the
/// receiver alone.
fn without_drops(mut answer: Answer) -> Answer {
    if let Answer::Taken(Taken::Hidpp {
        outcome: Outcome::Reply { dropped },
        port: PortNumber::RECEIVER,
        ..
    }) = &mut answer
    {
        *dropped = 0;
    }
    answer
}

/// The drops that a call for the receiver answers for this device, which the
/// report's own first parameter names.
fn drops(device: PortNumber, call: &Call, answer: &Answer) -> u8 {
    match (call, answer) {
        (
            Call::Take(report),
            Answer::Taken(Taken::Hidpp {
                outcome: Outcome::Reply { dropped },
                ..
            }),
        ) if asked_serial(report[4]) == Some(device) => *dropped,
        _ => 0,
    }
}

fn lent(answer: &Answer) -> Option<&Vec<u8>> {
    match answer {
        Answer::Written(_, buffer) => Some(buffer),
        _ => None,
    }
}

/// Two orders in which each device's calls, the ticks and all calls for the
/// receiver keep one sequence end in one station. A store that is read ends
/// the sequence, and both begin anew with its station.
#[test]
fn orders_of_devices_do_not_matter() {
    let (mut one, mut other) = (Station::default(), Station::default());
    let mut held: [Vec<Call>; 6] = Default::default();
    let mut starts = 0;
    for call in calls(15, 40_000) {
        if let Some(start) = start(&call) {
            catch_up(&mut other, &mut held, &Call::Dump);
            assert_eq!(one, other);
            other = start;
            starts += 1;
        }
        make(&mut one, &call);
        match named_port(&call) {
            Some(port @ 1..=6) => held[usize::from(port) - 1].push(call),
            Some(255) => catch_up(&mut other, &mut held, &call),
            _ if call == Call::Tick => catch_up(&mut other, &mut held, &call),
            _ => (),
        }
    }
    catch_up(&mut other, &mut held, &Call::Dump);
    assert_eq!(one, other);
    assert!(starts > 100);
}

/// Makes the calls that were held back, the highest device's first, and then
/// this one.
fn catch_up(station: &mut Station, held: &mut [Vec<Call>; 6], call: &Call) {
    for calls in held.iter_mut().rev() {
        calls.drain(..).for_each(|call| {
            make(station, &call);
        });
    }
    make(station, call);
}

fn ended(answer: &Answer, slot: usize) -> u8 {
    match answer {
        Answer::Ended(counts) => counts[slot],
        _ => panic!("{answer:?} is no answer to a tick"),
    }
}

fn named_port(call: &Call) -> Option<u8> {
    match call {
        Call::Take(report) => report.get(1).copied(),
        Call::Request { port, .. } | Call::Cancel { port, .. } | Call::Led { port, .. } => {
            Some(*port)
        }
        Call::Switch { .. } | Call::GetPaired(_) => Some(PortNumber::RECEIVER.byte()),
        _ => None,
    }
}
