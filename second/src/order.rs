//! docs/SCOPE.md, "Refusals": each refusal, and calls with several faults at once, which show the order.

use crate::header::{read_header, Header, TAG};
use crate::integer;
use crate::keys::{initial_keys, install_keys, Keys, Side};
use crate::numbers::NUMBER_LIMIT;
use crate::open::{open, Opened};
use crate::refusal::Refusal;
use crate::retry::{self, check_retry, write_retry};
use crate::seal::{protect, seal, Plain};

fn keys() -> Keys {
    initial_keys(1, &[8; 8], Side::Client).expect("a known version and eight bytes")
}

fn numbered<T>(answer: Result<T, Refusal>) -> u32 {
    answer.err().map_or(0, Refusal::number)
}

#[test]
fn of_keys() {
    assert_eq!(numbered(initial_keys(1, &[0; 20], Side::Client)), 0);
    assert_eq!(numbered(initial_keys(0x709a_50c4, &[], Side::Server)), 0);
    assert_eq!(numbered(initial_keys(1, &[0; 21], Side::Client)), 5);
    assert_eq!(numbered(initial_keys(2, &[0; 21], Side::Client)), 4);
}

/// 4, then 6: the Initial level, a number that names none, and 0-RTT for a server.
#[test]
fn of_installing_keys() {
    for version in [1, 0x709a_50c4] {
        let installed = |level, side| numbered(install_keys(version, level, side, &[7; 32]));
        assert_eq!(installed(1, Side::Client), 0);
        assert_eq!(installed(2, Side::Client), 0);
        assert_eq!(installed(2, Side::Server), 0);
        assert_eq!(installed(1, Side::Server), 6);
        for none in [0, 3, 4, 255, 256, 257, 258, 0x1_0001, 0x8000_0002, u32::MAX] {
            assert_eq!(installed(none, Side::Client), 6, "level {none}");
            assert_eq!(installed(none, Side::Server), 6, "level {none}");
        }
    }
    assert_eq!(numbered(install_keys(2, 0, Side::Client, &[7; 32])), 4);
    assert_eq!(numbered(install_keys(2, 1, Side::Server, &[7; 32])), 4);
}

/// Faults added one in front of the other: each hides those behind it.
#[test]
fn of_sealing() {
    let (small, token, payload, long_id) = ([0; 2], [0; 1_500], [0; 40], [0; 21]);
    let mut keys = keys();
    let mut plain = Plain {
        number: 300,
        acknowledged: Some(200),
        number_length: 1,
        destination: &[],
        source: &[],
        token: Some(&[]),
        payload: &payload,
    };
    let sealed = |keys: &Keys, plain: &Plain| {
        let mut output = [0x5a; 67];
        let answer = numbered(seal(keys, plain, &mut output));
        assert!(answer == 0 || output == [0x5a; 67], "a refusal leaves the output");
        answer
    };
    assert_eq!(sealed(&keys, &plain), 0);
    plain.destination = &long_id[..1];
    assert_eq!(sealed(&keys, &plain), 8);
    plain.token = Some(&token);
    assert_eq!(sealed(&keys, &plain), 1);
    plain.payload = &small;
    assert_eq!(sealed(&keys, &plain), 7);
    plain.source = &long_id;
    assert_eq!(sealed(&keys, &plain), 5);
    plain.number_length = 0;
    assert_eq!(sealed(&keys, &plain), 12);
    plain.acknowledged = Some(300);
    assert_eq!(sealed(&keys, &plain), 14);
    plain.number = NUMBER_LIMIT;
    assert_eq!(sealed(&keys, &plain), 10);
    keys.level = 2;
    assert_eq!(sealed(&keys, &plain), 6);
    plain.token = None;
    assert_eq!(sealed(&keys, &plain), 10);
    keys.version = 2;
    assert_eq!(sealed(&keys, &plain), 4);
}

/// A token goes with the Initial level, even an empty one, and none with the others. An unnamed level goes with nothing.
#[test]
fn of_sealing_at_each_level() {
    for level in 0..=255 {
        let keys = Keys { level, ..keys() };
        let with = |token| Plain {
            number: 0,
            acknowledged: None,
            number_length: 4,
            destination: &[],
            source: &[],
            token,
            payload: &[],
        };
        let sealed = |token| numbered(seal(&keys, &with(token), &mut [0; 60]));
        assert_eq!(sealed(Some(&[])), if level == 0 { 0 } else { 6 });
        assert_eq!(sealed(None), if level == 1 || level == 2 { 0 } else { 6 });
    }
}

/// A slice of a million bytes is 1, after what stands before it.
#[test]
fn of_sealing_much() {
    let million = vec![0; 1_000_000];
    let plain = Plain {
        number: 0,
        acknowledged: None,
        number_length: 1,
        destination: &[],
        source: &[],
        token: Some(&million),
        payload: &million,
    };
    assert_eq!(numbered(seal(&keys(), &plain, &mut [])), 1);
    assert_eq!(numbered(seal(&keys(), &Plain { payload: &[], ..plain.clone() }, &mut [])), 7);
    assert_eq!(numbered(seal(&keys(), &Plain { source: &million, ..plain.clone() }, &mut [])), 5);
    assert_eq!(numbered(seal(&keys(), &Plain { number_length: usize::MAX, ..plain }, &mut [])), 12);
}

/// An Initial of version 1 with a first byte, a Length and a number of its own; its tag is right.
fn initial(first: u8, length_field: &[u8], number: u64) -> Vec<u8> {
    let header = [&[first, 0, 0, 0, 1, 1, 9, 2, 9, 9, 0x40, 3, 7, 7, 7][..], length_field].concat();
    protect(&keys(), header, number, usize::from(first & 3) + 1, &[5; 30])
}

fn opened(keys: &Keys, expected: u64, datagram: &[u8], room: usize) -> u32 {
    let mut output = vec![0x5a; room];
    let mut expected_after = expected;
    let answer = numbered(open(keys, &mut expected_after, datagram, &mut output));
    assert!(answer == 0 || (expected_after == expected && output.iter().all(|byte| *byte == 0x5a)));
    answer
}

/// The end of the order: 8, 9, 10, 11. The number's length is two bytes, so Length is 48 and the packet 64 bytes.
#[test]
fn of_opening_at_the_end() {
    let top = NUMBER_LIMIT;
    let good = initial(0xc1, &[48], 7);
    assert_eq!(good.len(), 64);
    assert_eq!(opened(&keys(), 0, &good, 48), 0);
    assert_eq!(opened(&keys(), 0, &good, 47), 8);
    let mut damaged = good.clone();
    damaged[63] ^= 1;
    assert_eq!(opened(&keys(), 0, &damaged, 48), 11);
    // recovered to 2^62: its own tag is right
    let mut packet = initial(0xc1, &[48], top);
    assert_eq!(opened(&keys(), top, &packet, 48), 10);
    packet[63] ^= 1;
    assert_eq!(opened(&keys(), top, &packet, 48), 10);
    let mut packet = initial(0xc9, &[48], top);
    assert_eq!(opened(&keys(), top, &packet, 48), 9);
    packet[63] ^= 1;
    assert_eq!(opened(&keys(), top, &packet, 48), 9);
    assert_eq!(opened(&keys(), top, &packet, 47), 8);
    assert_eq!(opened(&keys(), top, &packet[..63], 47), 3);
}

/// The beginning of the order: 10 (expected), 4 (the keys' version), 1, 2, and the version's 4 before the type's 6.
#[test]
fn of_opening_at_the_start() {
    let good = initial(0xc0, &[47], 7);
    let unknown = Keys { version: 0, ..keys() };
    assert_eq!(opened(&unknown, NUMBER_LIMIT + 1, &[], 0), 10);
    assert_eq!(opened(&unknown, NUMBER_LIMIT, &[], 0), 4);
    assert_eq!(opened(&keys(), 0, &[], 0), 1);
    assert_eq!(opened(&keys(), 0, &[0; 1_501], 0), 1);
    assert_eq!(opened(&keys(), 0, &[0; 1_500], 0), 2);
    assert_eq!(opened(&keys(), 0, &[0x80], 0), 2);
    assert_eq!(opened(&keys(), 0, &[0x40], 0), 2);
    assert_eq!(opened(&keys(), 0, &good[..4], 0), 3);
    let of_version = |first, version: u32| [&[first][..], &version.to_be_bytes()].concat();
    assert_eq!(opened(&keys(), 0, &of_version(0xff, 2), 0), 4);
    assert_eq!(opened(&keys(), 0, &of_version(0xff, 0x709a_50c4), 0), 4);
    assert_eq!(opened(&keys(), 0, &of_version(0xd0, 1), 0), 6);
    assert_eq!(opened(&keys(), 0, &of_version(0xc0, 1), 0), 3);
}

/// RFC 9000 section 17.2 and document 003 section 3.2: the types of Initial, 0-RTT, Handshake and Retry.
#[test]
fn of_the_types() {
    for (version, types) in [(1_u32, [0, 1, 2, 3]), (0x709a_50c4, [1, 2, 3, 0])] {
        for (place, packet_type) in types.into_iter().enumerate() {
            let start = [&[0xc0 | packet_type << 4][..], &version.to_be_bytes()].concat();
            // only a Retry is refused before the IDs are found to be missing
            assert_eq!(numbered(read_header(&start)), if place == 3 { 6 } else { 3 });
            assert_eq!(numbered(check_retry(&[], &start)), if place == 3 { 3 } else { 6 });
            for level in 0..=255 {
                let keys = Keys { version, level, ..keys() };
                let of_level = place < 3 && usize::from(level) == place;
                assert_eq!(opened(&keys, 0, &start, 0), if of_level { 3 } else { 6 });
            }
        }
    }
}

/// The fields as they stand, each whole before it is right.
#[test]
fn of_the_fields() {
    let read = |behind_version: &[u8]| numbered(read_header(&[&[0xc0, 0, 0, 0, 1], behind_version].concat()));
    assert_eq!(read(&[]), 3);
    assert_eq!(read(&[21]), 5);
    assert_eq!(read(&[20]), 3);
    assert_eq!(read(&[1, 0]), 3);
    assert_eq!(read(&[1, 0, 255]), 5);
    assert_eq!(read(&[0, 2, 0]), 3);
    assert_eq!(read(&[0, 0]), 3);
    assert_eq!(read(&[0, 0, 0x40]), 3);
    assert_eq!(read(&[0, 0, 1]), 3);
    assert_eq!(read(&[0, 0, 0xff, 0xff, 0xff, 0xff, 0xff, 0xff, 0xff, 0xff]), 3);
    assert_eq!(read(&[0, 0, 0]), 3);
    assert_eq!(read(&[0, 0, 0, 0x80, 0, 0]), 3);
    assert_eq!(read(&[0, 0, 0, 19]), 7);
    assert_eq!(read(&[0, 0, 0, 0x80, 0, 0, 19]), 7);
    assert_eq!(read(&[0, 0, 0, 20]), 3);
    assert_eq!(read(&[&[0, 0, 0, 20][..], &[0; 19]].concat()), 3);
    assert_eq!(read(&[&[0, 0, 0, 20][..], &[0; 20]].concat()), 0);
}

/// Without a token Length stands right behind the source ID: what would be a token's length is 7 or ends too late.
#[test]
fn of_the_fields_without_a_token() {
    for first in [0xd0, 0xe0] {
        let read = |behind_version: &[u8]| read_header(&[&[first, 0, 0, 0, 1], behind_version].concat());
        assert_eq!(numbered(read(&[0, 0])), 3);
        assert_eq!(numbered(read(&[0, 0, 0])), 7);
        assert_eq!(numbered(read(&[0, 0, 19])), 7);
        assert_eq!(numbered(read(&[0, 0, 20])), 3);
        assert_eq!(numbered(read(&[&[0, 0, 0, 20][..], &[0; 20]].concat())), 7);
        let header = read(&[&[0, 1, 9, 20][..], &[0; 20]].concat()).expect("a whole packet");
        let level = u64::from(first >> 4 & 3);
        assert_eq!(header.words(), [1, 6, 0, 7, 1, 0, 0, 20, 9, level]);
    }
    // an empty token of an Initial keeps its place
    let header = read_header(&[&[0xc0, 0, 0, 0, 1, 0, 1, 9, 0, 20][..], &[0; 20]].concat()).expect("a whole packet");
    assert_eq!(header.words(), [1, 6, 0, 7, 1, 9, 0, 20, 10, 0]);
}

/// Any form of Length opens, and the bytes behind the packet aren't looked at.
#[test]
fn of_forms_and_bytes_behind() {
    for (form, number_length) in [(1, 1), (2, 2), (4, 3), (8, 4)] {
        let length = (number_length + 30 + TAG) as u64;
        let packet = initial(0xc0 | (number_length - 1) as u8, &integer::write_in(form, length), 7);
        let datagram = [&packet[..], &[0xee; 9]].concat();
        let mut output = [0; 100];
        let header_length = 15 + form + number_length;
        let bytes_used = packet.len();
        let record = Opened { number: 7, number_length, header_length, payload_length: 30, bytes_used };
        assert_eq!(open(&keys(), &mut 0, &datagram, &mut output), Ok(record));
        assert_eq!(output[header_length..bytes_used - TAG], [5; 30]);
        let header = read_header(&datagram).map(|header: Header| header.words());
        assert_eq!(header, Ok([1, 6, 1, 8, 2, 12, 3, length, 15 + form as u64, 0]));
    }
}

#[test]
fn of_writing_a_retry() {
    let (long_id, token) = ([0; 21], [0; 1_478]);
    let mut plain =
        retry::Plain { version: 1, original: &[], destination: &[], source: &[], token: &token[..1477], low_bits: 0 };
    let written = |plain: &retry::Plain, room| numbered(write_retry(plain, &mut vec![0; room]));
    assert_eq!(written(&plain, 1_500), 0);
    assert_eq!(written(&plain, 1_499), 8);
    plain.token = &token;
    assert_eq!(written(&plain, 1_499), 1);
    plain.token = &[];
    assert_eq!(written(&plain, 0), 13);
    for place in 0..3 {
        let mut plain = plain.clone();
        let ids = [&mut plain.original, &mut plain.destination, &mut plain.source];
        *ids.into_iter().nth(place).expect("three IDs") = &long_id;
        assert_eq!(written(&plain, 0), 5);
        plain.version = 0;
        assert_eq!(written(&plain, 0), 4);
    }
}

#[test]
fn of_checking_a_retry() {
    let start = [0xf0, 0, 0, 0, 1, 1, 9, 2, 9, 9];
    let check = |original: usize, datagram: &[u8]| numbered(check_retry(&vec![0; original], datagram));
    let behind = |length| [&start[..], &vec![0; length]].concat();
    assert_eq!(check(21, &[]), 5);
    assert_eq!(check(20, &[]), 1);
    assert_eq!(check(20, &[0; 1_501]), 1);
    assert_eq!(check(20, &[0x80]), 2);
    assert_eq!(check(20, &start[..4]), 3);
    assert_eq!(check(20, &[0xc0, 0, 0, 0, 2]), 4);
    assert_eq!(check(20, &[0xc0, 0, 0, 0, 1]), 6);
    assert_eq!(check(20, &[0xf0, 0, 0, 0, 1, 21]), 5);
    assert_eq!(check(20, &[0xf0, 0, 0, 0, 1, 20]), 3);
    assert_eq!(check(20, &behind(15)), 3);
    assert_eq!(check(20, &behind(16)), 13);
    assert_eq!(check(20, &behind(17)), 11);
}
