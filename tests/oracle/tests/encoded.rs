//! Encoded calls: blocks, rows and runs.

use oracle::encoded::{opcode, run, run_all, Block, MALFORMED, RESTORED, ROW, UNREAD};
use oracle::random::write_runs;

fn block(opcode: u8, arguments: [u8; 3], data: &[u8]) -> Block {
    Block {
        opcode,
        arguments,
        data: data.to_vec(),
        ..Block::default()
    }
}

fn encode(blocks: &[Block]) -> Vec<u8> {
    let mut encoded = Vec::new();
    blocks.iter().for_each(|block| block.encode(&mut encoded));
    encoded
}

/// 01, case c: a ping and its reply, and then the listing's refusal.
#[test]
fn ping_and_its_reply() {
    let ping = Block {
        ticks: 10,
        lent: 7,
        ..block(1, [2, 0x00, 0x11], &[0x00, 0x00, 0x5A])
    };
    let reply = block(0, [0; 3], &[0x10, 0x02, 0x00, 0x11, 0x02, 0x00, 0x5A]);
    let encoded = encode(&[ping, reply, block(3, [0; 3], &[]), block(7, [0; 3], &[])]);
    let (mut arena, mut answers) = ([0xAA; 7], [0xEE; 4 * ROW + 1]);
    assert_eq!(run(&encoded, &mut arena, &mut answers), Ok(4 * ROW));
    assert_eq!(arena, [0x10, 0x02, 0x00, 0x11, 0x00, 0x00, 0x5A]);
    let rows: Vec<&[u8]> = answers.chunks(ROW).collect();
    assert_eq!(rows[0], [13, 7, 0, 0, 0, 0, 0, 0, 0, 0]);
    assert_eq!(rows[1], [1, 2, 0x00, 0x11, 4, 3, 0, 0, 0, 0]);
    assert_eq!(rows[2], [16, 0, 0, 0, 0, 0, 0, 0, 0, 0]);
    assert_eq!(rows[3], [12, 10, 0, 0, 0, 0, 0, 0, 0, 0]);
    assert_eq!(rows[4], [0xEE]);
}

/// 01, case f, whose WPID and bitfield have more than one byte.
#[test]
fn pairing() {
    let mut report = [0; 15];
    report[..10].copy_from_slice(&[0x20, 2, 0x41, 1, 0x10, 0x20, 0x0E, 1, 2, 3]);
    let mut answers = [0; ROW];
    let encoded = encode(&[block(0, [0; 3], &report)]);
    assert_eq!(run(&encoded, &mut [], &mut answers), Ok(ROW));
    assert_eq!(answers, [8, 2, 1, 0x10, 0x20, 0x0E, 1, 2, 3, 0]);
}

/// 02, Ask 1: the row of a reply has the number of dropped requests.
#[test]
fn another_serial() {
    let pair = block(0, [0; 3], &{
        let mut report = [0; 15];
        report[..7].copy_from_slice(&[0x20, 2, 0x41, 0, 0x10, 0x20, 0x0E]);
        report
    });
    let request = |arguments, parameters: &[u8]| Block {
        ticks: 10,
        lent: 7,
        ..block(1, arguments, parameters)
    };
    let told = |last: u8| {
        let mut report = [0; 20];
        report[..9].copy_from_slice(&[0x11, 0xFF, 0x83, 0xB5, 0x31, 1, 2, 3, last]);
        block(0, [0; 3], &report)
    };
    let ask = request([255, 0x83, 0xB5], &[0x31, 0, 0]);
    let waiting = request([2, 0x05, 0x01], &[0; 3]);
    let blocks = [pair, ask.clone(), told(4), waiting, ask, told(5)];
    let mut answers = [0; 6 * ROW];
    let encoded = encode(&blocks);
    assert_eq!(run(&encoded, &mut [0; 21], &mut answers), Ok(6 * ROW));
    let rows: Vec<&[u8]> = answers.chunks(ROW).collect();
    assert_eq!(rows[2], [1, 255, 0x83, 0xB5, 4, 16, 0, 0, 0, 0]);
    assert_eq!(rows[5], [1, 255, 0x83, 0xB5, 4, 16, 1, 0, 0, 0]);
}

/// 02, Ask 5: the number of the refusal, and nothing else.
#[test]
fn dirty_padding() {
    let report = |report_type, last| {
        let mut report = [0; 15];
        report[..7].copy_from_slice(&[0x20, 2, report_type, 0, 0x10, 0x20, 0x0E]);
        report[14] = last;
        block(0, [0; 3], &report)
    };
    let blocks = [report(0x41, 1), report(2, 1), report(2, 0)];
    let mut answers = [0; 3 * ROW];
    let encoded = encode(&blocks);
    assert_eq!(run(&encoded, &mut [], &mut answers), Ok(3 * ROW));
    let rows: Vec<&[u8]> = answers.chunks(ROW).collect();
    assert_eq!(rows[1], [0, 17, 0, 0, 0, 0, 0, 0, 0, 0]);
    assert_eq!(rows[2], [6, 2, 3, 7, 0, 0, 0, 0, 0, 0]);
}

#[test]
fn nothing_is_no_call() {
    assert_eq!(run(&[], &mut [], &mut []), Ok(0));
    assert_eq!(run(&[], &mut [0], &mut []), Err(MALFORMED));
}

#[test]
fn malformed_blocks() {
    let tick = encode(&[block(3, [0; 3], &[1, 2])]);
    let mut answers = [0xEE; 2 * ROW];
    assert_eq!(run(&tick, &mut [], &mut answers), Ok(ROW));
    for length in 1..tick.len() {
        let cut = run(&tick[..length], &mut [], &mut answers);
        assert_eq!(cut, Err(MALFORMED), "{length} bytes");
    }
    let unknown = encode(&[block(opcode::LAST + 1, [0; 3], &[])]);
    assert_eq!(run(&unknown, &mut [], &mut answers), Err(MALFORMED));
    let lent = Block {
        lent: 3,
        ..block(5, [0; 3], &[])
    };
    let lent = encode(&[lent]);
    for room in [0, 2, 4] {
        let ran = run(&lent, &mut vec![0; room], &mut answers);
        assert_eq!(ran, Err(MALFORMED), "arena of {room} bytes");
    }
}

#[test]
fn rows_that_do_not_fit() {
    let ticks = encode(&[block(3, [0; 3], &[]), block(3, [0; 3], &[])]);
    let mut answers = [0xEE; 2 * ROW];
    let refused = run(&ticks, &mut [], &mut answers[..2 * ROW - 1]);
    assert_eq!(refused, Err(10));
    assert_eq!(answers, [0xEE; 2 * ROW]);
}

/// 02, Ask 3: a store is written into the arena, and read from the data.
#[test]
fn stores() {
    let text = b"pads\t1\n3\t2010\t0A1B2C3D\t0000000E\t2.0\t0\t0\t0\t7\t0\n";
    let read = |text: &[u8]| block(opcode::RESTORE, [0; 3], text);
    let store = Block {
        offset: 1,
        lent: text.len() as u16 + 2,
        ..block(opcode::STORE, [0; 3], &[])
    };
    let blocks = [
        store.clone(),
        read(text),
        read(b"pads\t10\n"),
        read(&text[..text.len() - 1]),
        read(b""),
        store,
    ];
    let room = text.len() + 2;
    let (mut arena, mut answers) = (vec![0xAA; 2 * room], [0; 6 * ROW]);
    let encoded = encode(&blocks);
    assert_eq!(run(&encoded, &mut arena, &mut answers), Ok(6 * ROW));
    let rows: Vec<&[u8]> = answers.chunks(ROW).map(|row| &row[..3]).collect();
    let length = text.len() as u8;
    assert_eq!(
        rows,
        [
            [13, 7, 0],
            [RESTORED, 0, 0],
            [UNREAD, 15, 0],
            [UNREAD, 16, 2],
            [UNREAD, 16, 1],
            [13, length, 0]
        ]
    );
    assert_eq!(arena[..9], *b"\xAApads\t1\n\xAA");
    assert_eq!(arena[room + 1..2 * room - 1], text[..]);
}

/// Take, cancel, tick and restore are lent nothing, whatever their field says.
#[test]
fn calls_that_write_nothing() {
    let blocks = [opcode::TAKE, opcode::CANCEL, opcode::TICK, opcode::RESTORE];
    let blocks = blocks.map(|opcode| Block {
        lent: 65535,
        ..block(opcode, [0; 3], &[])
    });
    let mut answers = [0; 4 * ROW];
    assert_eq!(
        run(&encode(&blocks), &mut [], &mut answers),
        Ok(answers.len())
    );
    assert_eq!([answers[1], answers[11]], [1, 5]);
}

#[test]
fn random_runs_have_every_kind() {
    let mut runs = Vec::new();
    write_runs(1, 20_000, &mut runs).unwrap();
    let tally = run_all(&runs[..], std::io::sink()).unwrap();
    assert!(tally.is_complete(), "{tally:?}");
}
