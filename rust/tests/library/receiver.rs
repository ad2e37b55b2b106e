//! A receiver through loss, repeats, late arrival and rubbish.

use crate::{client_keys, hex, initial, sealed, SENTINEL};
use driftwicket::{FullPn, Initial, Receiver, Refusal, LIMIT};

/// The packet of a number; its payload tells the number.
fn packet(number: u64) -> Vec<u8> {
    let payload = format!("packet {number}");
    sealed(&Initial { payload: payload.as_bytes(), ..initial(number) })
}

/// What must not open: damaged, cut short, another sender's, or no packet at all.
fn rubbish(number: u64) -> Vec<u8> {
    let mut datagram = packet(number);
    match number % 4 {
        0 => datagram[40] ^= 1,
        1 => datagram.truncate(datagram.len() - 1),
        2 => datagram = hex(include_str!("vectors/rfc9001-server.hex")),
        _ => datagram = b"no packet".to_vec(),
    }
    datagram
}

/// Every third is lost, every fourth comes twice, every fifth comes a hundred places late.
fn arrivals() -> Vec<u64> {
    let mut timed = Vec::new();
    for number in (0..1_000).filter(|number| number % 3 != 2) {
        let late = if number % 5 == 0 { 100 } else { 0 };
        timed.extend(vec![(number + late, number); if number % 4 == 0 { 2 } else { 1 }]);
    }
    timed.sort();
    timed.into_iter().map(|(_, number)| number).collect()
}

#[test]
fn yields_every_packet() {
    let mut receiver = Receiver::new(client_keys());
    let mut greatest = 0;
    for number in arrivals() {
        let mut out = [SENTINEL; LIMIT];
        let before = receiver.expected();
        assert!(receiver.open(&rubbish(number), &mut out).is_err());
        assert_eq!((receiver.expected(), out), (before, [SENTINEL; LIMIT]));

        let opened = receiver.open(&packet(number), &mut out).unwrap();
        assert_eq!(opened.number, FullPn(number));
        assert_eq!(opened.payload, format!("packet {number}").as_bytes());
        greatest = greatest.max(number);
        assert_eq!(receiver.expected(), greatest + 1);
    }
    assert_eq!(receiver.expected(), 1_000);
}

#[test]
fn goes_on_where_it_stopped() {
    let last = (1 << 62) - 1;
    let mut receiver = Receiver::expecting(client_keys(), last - 3);
    let mut out = [0; LIMIT];
    assert_eq!(receiver.open(&packet(last), &mut out).unwrap().number, FullPn(last));
    assert_eq!(receiver.expected(), 1 << 62);
    assert_eq!(receiver.open(&packet(last), &mut out).unwrap().number, FullPn(last));
    // a number of two bytes that could only be one above the last
    assert_eq!(receiver.open(&packet(1 << 16), &mut out), Err(Refusal::Range));
}
