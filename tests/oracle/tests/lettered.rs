//! 01, "Lettered cases".

use oracle::station::*;

const PING: Key = Key {
    byte2: 0x00,
    byte3: 0x11,
};

fn device(byte: u8) -> PortNumber {
    PortNumber::device(byte).unwrap()
}

fn padded<const N: usize>(start: &[u8]) -> [u8; N] {
    let mut report = [0; N];
    report[..start.len()].copy_from_slice(start);
    report
}

fn pair_2(station: &mut Station) -> Result<Taken, Refusal> {
    station.take(&padded::<15>(&[0x20, 2, 0x41, 0, 0x10, 0x20, 0x0E]))
}

fn ping_2(station: &mut Station) -> [u8; 7] {
    let mut buffer = [0; 7];
    let frame = Frame {
        port: 2,
        key: PING,
        parameters: &[0, 0, 0x5A],
    };
    assert_eq!(station.request(&frame, 10, 0, &mut buffer), Ok(7));
    buffer
}

fn hidpp(outcome: Outcome, port: u8, key: Key) -> Result<Taken, Refusal> {
    Ok(Taken::Hidpp {
        outcome,
        port: PortNumber::device_or_receiver(port).unwrap(),
        key,
        length: 3,
    })
}

#[test]
fn a_empty_report() {
    let mut station = Station::default();
    assert_eq!(station.take(&[]).unwrap_err().number(), 1);
}

#[test]
fn b_short_report_of_six_bytes() {
    let mut station = Station::default();
    let refusal = station.take(&[0x10, 1, 0, 0x13, 0, 0]).unwrap_err();
    assert_eq!(refusal.number(), 3);
}

#[test]
fn c_ping_and_its_reply() {
    let mut station = Station::default();
    assert_eq!(ping_2(&mut station), [0x10, 2, 0, 0x11, 0, 0, 0x5A]);
    let answer = station.take(&[0x10, 2, 0, 0x11, 2, 0, 0x5A]);
    assert_eq!(answer, hidpp(Outcome::Reply { dropped: 0 }, 2, PING));
    let version = Version { major: 2, minor: 0 };
    assert_eq!(station.port(device(2)).version, Some(version));
    assert_eq!(station.port(device(2)).waiting_count(), 0);
}

#[test]
fn d_reply_from_another_device() {
    let mut station = Station::default();
    ping_2(&mut station);
    let answer = station.take(&[0x10, 3, 0, 0x11, 2, 0, 0x5A]);
    assert_eq!(answer, hidpp(Outcome::Stray, 3, PING));
    assert_eq!(station.port(device(2)).waiting_count(), 1);
    assert_eq!(station.port(device(3)), &Port::default());
}

#[test]
fn e_error_that_tells_version_1() {
    let mut station = Station::default();
    ping_2(&mut station);
    let answer = station.take(&[0x10, 2, 0x8F, 0, 0x11, 1, 0]);
    let error = Outcome::Error {
        code: 1,
        kind: ErrorKind::Hidpp10,
    };
    assert_eq!(answer, hidpp(error, 2, PING));
    let version = Version { major: 1, minor: 0 };
    assert_eq!(station.port(device(2)).version, Some(version));
}

#[test]
fn f_pairing() {
    let mut station = Station::default();
    let notice = Notice::Paired {
        port: device(2),
        more: false,
        wpid: 0x2010,
        reports: 0b1110,
        dropped: 0,
    };
    assert_eq!(pair_2(&mut station), Ok(Taken::Notice(notice)));
    let declared = (0..=255).filter(|&t| station.port(device(2)).declares(t));
    assert_eq!(declared.collect::<Vec<u8>>(), [1, 2, 3]);
}

#[test]
fn g_undeclared_and_unpaired() {
    let report = padded::<15>(&[0x20, 2, 4, 1]);
    let mut station = Station::default();
    assert_eq!(station.take(&report).unwrap_err().number(), 7);
    pair_2(&mut station).unwrap();
    assert_eq!(station.take(&report).unwrap_err().number(), 8);
}

#[test]
fn h_mouse_movement() {
    let movement = Movement {
        buttons: 1,
        x: -1,
        y: 1,
        wheel: 1,
        pan: -1,
    };
    let payload = [0x01, 0x00, 0xFF, 0x1F, 0x00, 0x01, 0xFF];
    assert_eq!(read_mouse(&payload), Ok(movement));
}

#[test]
fn i_lowest_x() {
    let movement = read_mouse(&[0, 0, 0x00, 0x08, 0, 0, 0]).unwrap();
    assert_eq!((movement.x, movement.y), (-2048, 0));
}

#[test]
fn j_fifth_request() {
    let mut station = Station::default();
    let request = |station: &mut Station, software_id: u8| {
        let frame = Frame {
            port: 4,
            key: Key {
                byte2: 5,
                byte3: software_id,
            },
            parameters: &[0; 3],
        };
        station.request(&frame, 1, 0, &mut [0; 7])
    };
    for software_id in 1..=4 {
        assert_eq!(request(&mut station, software_id), Ok(7));
    }
    assert_eq!(request(&mut station, 5).unwrap_err().number(), 12);
    assert_eq!(station.tick(), [0, 0, 0, 4, 0, 0, 0]);
    assert_eq!(request(&mut station, 5), Ok(7));
}

#[test]
fn k_empty_list() {
    let mut station = Station::default();
    let answer = station.take(&padded::<15>(&[0x20, 9, 0x41, 2]));
    assert_eq!(answer, Ok(Taken::Notice(Notice::EmptyList)));
    assert_eq!(station, Station::default());
}

#[test]
fn m_switch() {
    let mut buffer = [0xEE; 15];
    let station = Station::default();
    assert_eq!(station.switch(0x03, 0x0A, 0, &mut buffer), Ok(15));
    assert_eq!(buffer, padded::<15>(&[0x20, 0xFF, 0x80, 0x03, 0x0A]));
}

#[test]
fn n_listing() {
    let mut station = Station::default();
    pair_2(&mut station).unwrap();
    ping_2(&mut station);
    station.take(&[0x10, 2, 0, 0x11, 2, 0, 0x5A]).unwrap();
    let expected = "port\twpid\treports\tlink\tversion\tbattery\twaiting\n\
                    2\t2010\t0000000E\tdown\t2.0\t-\t0\n";
    let mut buffer = [0xEE; 80];
    assert_eq!(station.list(2, &mut buffer), Ok(76));
    assert_eq!(&buffer[2..78], expected.as_bytes());
    assert_eq!(
        (&buffer[..2], &buffer[78..]),
        (&[0xEE; 2][..], &[0xEE; 2][..])
    );
}

#[test]
fn p_error_of_a_register() {
    let key = Key {
        byte2: 0x81,
        byte3: 0xF1,
    };
    let frame = Frame {
        port: 255,
        key,
        parameters: &[3, 0, 0],
    };
    let mut station = Station::default();
    assert_eq!(station.request(&frame, 9, 0, &mut [0; 7]), Ok(7));
    let answer = station.take(&[0x10, 0xFF, 0x8F, 0x81, 0xF1, 0x03, 0x00]);
    let error = Outcome::Error {
        code: 3,
        kind: ErrorKind::Hidpp10,
    };
    assert_eq!(answer, hidpp(error, 255, key));
    assert_eq!(station, Station::default());
}
