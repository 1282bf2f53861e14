//! Random runs of encoded calls, whole and spoilt.

use std::io::{self, Write};

use super::rng::Rng;
use super::Generator;
use crate::encoded::{opcode, Block, HEADER, ROW};
use crate::script::{Call, Lent};
use crate::station::Key;

/// Writes random runs with about `count` calls: half of them in one run, the
/// others in short ones, of which some are spoilt.
pub fn write_runs(seed: u64, count: u64, mut output: impl Write) -> io::Result<()> {
    let mut rng = Rng::new(seed);
    let long = count as usize / 2;
    write_run(&mut rng, seed, long, false, &mut output)?;
    let mut left = count as usize - long;
    let mut run = seed;
    while left > 0 {
        let calls = rng.between(0, 40).min(left);
        left -= calls.max(1);
        run = run.wrapping_mul(31).wrapping_add(7);
        let spoilt = rng.chance(40);
        write_run(&mut rng, run, calls, spoilt, &mut output)?;
    }
    output.flush()
}

fn write_run(
    rng: &mut Rng,
    seed: u64,
    calls: usize,
    spoilt: bool,
    output: &mut impl Write,
) -> io::Result<()> {
    let mut generator = Generator::new(seed);
    let (mut encoded, mut arena, mut starts) = (Vec::new(), 0, vec![0]);
    for _ in 0..calls {
        let call = generator.station_call();
        let block = block(rng, call);
        arena += block.room();
        block.encode(&mut encoded);
        starts.push(encoded.len());
    }
    let mut answers = calls * ROW + rng.pick(&[0, 0, 1, 9, 10, 23]);
    if spoilt {
        starts.pop();
        match rng.below(8) {
            0 => answers = rng.below(calls * ROW + 1),
            1 => answers = (calls * ROW).saturating_sub(1),
            2 => arena += rng.between(1, 3),
            3 => arena = arena.saturating_sub(rng.between(1, 3)),
            4 => encoded.truncate(rng.below(encoded.len() + 1)),
            5 => encoded.extend((0..rng.between(1, HEADER + 2)).map(|_| rng.byte())),
            _ => spoil(rng, &mut encoded, &starts),
        }
    }
    for length in [encoded.len(), arena, answers] {
        output.write_all(&(length as u32).to_le_bytes())?;
    }
    output.write_all(&encoded)?;
    let arena: Vec<u8> = (0..arena).map(|_| rng.byte()).collect();
    output.write_all(&arena)
}

/// Changes a byte of a header: an opcode, or one of a length.
fn spoil(rng: &mut Rng, encoded: &mut [u8], starts: &[usize]) {
    let Some(start) = rng.pick_if_any(starts) else {
        return;
    };
    let at = start + rng.pick(&[0, 0, 8, 9, 10, 11]);
    encoded[at] = match rng.below(4) {
        0 => rng.pick(&[opcode::LAST, opcode::LAST + 1, opcode::LAST + 2, 0x80, 0xFF]),
        1 => encoded[at].wrapping_add(1),
        2 => encoded[at].wrapping_sub(1),
        _ => rng.byte(),
    };
}

/// The block of a call. What the call does not have is random.
fn block(rng: &mut Rng, call: Call) -> Block {
    let mut block = Block {
        opcode: opcode::TAKE,
        arguments: [rng.byte(), rng.byte(), rng.byte()],
        ticks: rng.below(65536) as u16,
        offset: rng.below(65536) as u16,
        lent: rng.pick(&[0, 0, 1, 7, 4096, 65535]),
        data: (0..rng.pick(&[0, 0, 0, 1, 5]))
            .map(|_| rng.byte())
            .collect(),
    };
    match call {
        Call::Take(report) => block.data = report,
        Call::Request {
            port,
            key,
            ticks,
            lent,
            parameters,
        } => {
            block.opcode = opcode::REQUEST;
            block.arguments = named(port, key);
            block.ticks = ticks;
            block.data = parameters;
            lend(&mut block, lent);
        }
        Call::Cancel { port, key } => {
            block.opcode = opcode::CANCEL;
            block.arguments = named(port, key);
        }
        Call::Tick => block.opcode = opcode::TICK,
        Call::Switch {
            bits,
            timeout,
            lent,
        } => {
            block.opcode = opcode::SWITCH;
            block.arguments[..2].copy_from_slice(&[bits, timeout]);
            lend(&mut block, lent);
        }
        Call::GetPaired(lent) => {
            block.opcode = opcode::GET_PAIRED;
            lend(&mut block, lent);
        }
        Call::Led { port, value, lent } => {
            block.opcode = opcode::LED;
            block.arguments[..2].copy_from_slice(&[port, value]);
            lend(&mut block, lent);
        }
        Call::List(lent) => {
            block.opcode = opcode::LIST;
            lend(&mut block, lent);
        }
        Call::Store(lent) => {
            block.opcode = opcode::STORE;
            lend(&mut block, lent);
        }
        Call::Restore(text) => {
            block.opcode = opcode::RESTORE;
            block.data = text;
        }
        Call::Read(_) | Call::Frame { .. } | Call::Mouse(_) | Call::Dump => {
            unreachable!("no call of the station")
        }
    }
    block
}

fn named(port: u8, key: Key) -> [u8; 3] {
    [port, key.byte2, key.byte3]
}

fn lend(block: &mut Block, lent: Lent) {
    block.offset = lent.offset;
    block.lent = lent.length;
}
