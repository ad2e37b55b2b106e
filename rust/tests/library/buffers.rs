//! What a call writes and what it leaves: parts of the caller's datagram, buffers short, exact and longer, secrets.

use crate::{client_keys, initial, installed_keys, long, sealed, ID, SENTINEL};
use driftwicket::retry::{self, Retry};
use driftwicket::{open, read_header, seal, seal_long, Keys, Level, Refusal, Version, LIMIT, TAG};
use std::mem::{self, MaybeUninit};
use std::ops::Range;

/// Where a part stands in the bytes that it is a part of.
fn place(part: &[u8], whole: &[u8]) -> Range<usize> {
    let start = part.as_ptr() as usize - whole.as_ptr() as usize;
    start..start + part.len()
}

#[test]
fn header_parts_are_the_datagrams() {
    let packet = initial(9);
    let datagram = sealed(&packet);
    let header = read_header(&datagram).unwrap();
    assert_eq!(header.version, Version::ONE);
    assert_eq!((header.destination, place(header.destination, &datagram)), (packet.destination, 6..17));
    assert_eq!((header.source, place(header.source, &datagram)), (packet.source, 18..24));
    assert_eq!((header.token, place(header.token, &datagram)), (packet.token, 25..32));
    assert_eq!(header.number_at, 34);
    assert_eq!(header.length, datagram.len() - 34);
}

#[test]
fn retry_parts_are_the_datagrams() {
    let packet = Retry {
        version: Version::DRAFT_2,
        original: &ID,
        destination: b"destination",
        source: b"source",
        token: b"a token",
        low_bits: 0,
    };
    let mut out = [SENTINEL; 60];
    let length = retry::write(&packet, &mut out).unwrap().len();
    assert_eq!(length, 31 + TAG);
    assert_eq!(out[length..], [SENTINEL; 60][length..]);

    let datagram = &out[..length];
    let checked = retry::check(&ID, datagram).unwrap();
    assert_eq!((checked.destination, place(checked.destination, datagram)), (packet.destination, 6..17));
    assert_eq!((checked.source, place(checked.source, datagram)), (packet.source, 18..24));
    assert_eq!((checked.token, place(checked.token, datagram)), (packet.token, 24..31));
}

#[test]
fn sealing_into_short_exact_and_longer() {
    let packet = initial(9);
    let datagram = sealed(&packet);
    for room in [0, datagram.len() - 1] {
        let mut out = vec![SENTINEL; room];
        assert_eq!(seal(&client_keys(), &packet, &mut out), Err(Refusal::Room));
        assert_eq!(out, vec![SENTINEL; room]);
    }
    for more in [0, 1, 40] {
        let mut out = vec![SENTINEL; datagram.len() + more];
        assert_eq!(seal(&client_keys(), &packet, &mut out).unwrap(), datagram);
        assert_eq!(out[datagram.len()..], vec![SENTINEL; more]);
    }
}

#[test]
fn sealing_without_a_token_into_short_exact_and_longer() {
    let (keys, packet) = (installed_keys(Level::Handshake), long(9));
    let datagram = seal_long(&keys, &packet, &mut [0; LIMIT]).unwrap().to_vec();
    for room in [0, datagram.len() - 1] {
        let mut out = vec![SENTINEL; room];
        assert_eq!(seal_long(&keys, &packet, &mut out), Err(Refusal::Room));
        assert_eq!(out, vec![SENTINEL; room]);
    }
    for more in [0, 1, 40] {
        let mut out = vec![SENTINEL; datagram.len() + more];
        assert_eq!(seal_long(&keys, &packet, &mut out).unwrap(), datagram);
        assert_eq!(out[datagram.len()..], vec![SENTINEL; more]);
    }
}

#[test]
fn opening_into_short_exact_and_longer() {
    let packet = initial(9);
    let datagram = sealed(&packet);
    let needed = datagram.len() - TAG;
    for room in [0, needed - 1] {
        let (mut out, mut expected) = (vec![SENTINEL; room], 4);
        assert_eq!(open(&client_keys(), &mut expected, &datagram, &mut out), Err(Refusal::Room));
        assert_eq!((out, expected), (vec![SENTINEL; room], 4));
    }
    for more in [0, 1, 40] {
        let (mut out, mut expected) = (vec![SENTINEL; needed + more], 4);
        let opened = open(&client_keys(), &mut expected, &datagram, &mut out).unwrap();
        assert_eq!(opened.header.len(), 36);
        assert_eq!(opened.header[6..17], *packet.destination);
        assert_eq!(opened.header[34..], [0, 9]);
        assert_eq!(opened.payload, packet.payload);
        assert_eq!(expected, 10);
        assert_eq!(out[needed..], vec![SENTINEL; more]);
    }
}

#[test]
fn bytes_behind_a_packet_are_not_used() {
    let first = sealed(&initial(3));
    let second = sealed(&initial(4));
    let datagram = [&first[..], &second].concat();
    let (mut out, mut expected) = ([0; 200], 0);
    let used = open(&client_keys(), &mut expected, &datagram, &mut out).unwrap().used;
    assert_eq!(used, first.len());
    open(&client_keys(), &mut expected, &datagram[used..], &mut out).unwrap();
    assert_eq!(expected, 5);
}

#[test]
fn debug_tells_no_secret() {
    let record = std::array::from_fn(|place| if place < 4 { 0 } else { SENTINEL });
    assert_eq!(format!("{:?}", Keys::from_bytes(record)), "Keys { version: Version(0x00000000), level: None, .. }");
    let keys = installed_keys(Level::ZeroRtt);
    assert_eq!(format!("{keys:?}"), "Keys { version: Version(0x00000001), level: Some(ZeroRtt), .. }");
}

#[test]
fn a_dropped_record_is_wiped() {
    let mut place = MaybeUninit::new(Keys::from_bytes([SENTINEL; Keys::LENGTH]));
    // SAFETY: the keys are there until they are dropped, once; what they leave is bytes.
    let left = unsafe {
        place.as_mut_ptr().drop_in_place();
        place.as_ptr().cast::<[u8; Keys::LENGTH]>().read()
    };
    assert_eq!(mem::size_of::<Keys>(), Keys::LENGTH);
    assert_eq!(left, [0; Keys::LENGTH]);
}
