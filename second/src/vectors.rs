//! The public packets: RFC 9001 appendix A, document 003 appendix A, and the scope's lines on sealing; and packets of the
//! other levels, which no paper prints.

use crate::header::{read_header, Place};
use crate::hex;
use crate::keys::{initial_keys, install_keys, Keys, Secret, Side, LEVEL_AT};
use crate::level::Level;
use crate::open::{open, Opened};
use crate::refusal::Refusal;
use crate::retry::{self, check_retry, write_retry};
use crate::seal::{apply_mask, mask, seal, Plain};

const VERSIONS: [u32; 2] = [1, 0x709a_50c4];

/// The client's connection ID in both appendices, and the server's.
const CLIENT_ID: &str = "8394c8f03e515708";
const SERVER_ID: &str = "f067a5502a4262b5";

/// The client's CRYPTO frame, padded to 1,162 bytes. (Document 003 as scanned has wrong digits in it; its packet is right.)
fn client_payload() -> Vec<u8> {
    let mut payload = hex::bytes(include_str!("../vectors/client-frame.hex"));
    payload.resize(1_162, 0);
    payload
}

fn server_payload() -> Vec<u8> {
    hex::bytes(
        "02000000000600405a020000560303eefce7f7b37ba1d1632e96677825ddf73988cfc79825df566dc5430b9a045a1200130100002e0033\
         0024001d00209d3c940d89690b84d08a60993c144eca684d1081287c834d5311bcf32bb9da1a002b00020304",
    )
}

fn keys_of(version: u32, side: Side) -> Keys {
    initial_keys(version, &hex::bytes(CLIENT_ID), side).expect("a known version and eight bytes")
}

/// A.1 of both appendices, for a version and a side: the secret, and the key, iv and hp that it gives.
const A1: [(u32, Side, &str, &str); 4] = [
    (
        1,
        Side::Client,
        "c00cf151ca5be075ed0ebfb5c80323c42d6b7db67881289af4008f1f6c357aea",
        "1f369613dd76d5467730efcbe3b1a22dfa044b2f42a3fd3b46fb255c9f50449e04a0e810283a1e9933adedd2",
    ),
    (
        1,
        Side::Server,
        "3c199828fd139efd216c155ad844cc81fb82fa8d7446fa7d78be803acdda951b",
        "cf3a5331653c364c88f0f379b6067e370ac1493ca1905853b0bba03ec206b8d9b9f0f37644430b490eeaa314",
    ),
    (
        0x709a_50c4,
        Side::Client,
        "9fe72e1452e91f551b770005054034e47575d4a0fb4c27b7c6cb303a338423ae",
        "95df2be2e8d549c82e996fc9339f4563ea5e3c95f933db14b7020ad8091efb735702447d07908f6501845794",
    ),
    (
        0x709a_50c4,
        Side::Server,
        "3c9bf6a9c1c8c71819876967bd8b979efd98ec665edf27f22c06e9845ba0ae2f",
        "15d5b4d9a2b8916aa39b1bfe574d2aada85e7ac31cd275cbb095c626b13861cfadbb9d11ff942dd80c8fc33b",
    ),
];

/// The secret that A.1 prints for a version and a side.
fn secret(version: u32, side: Side) -> Secret {
    let line = A1.into_iter().find(|line| (line.0, line.1) == (version, side)).expect("a known version");
    hex::bytes(line.2).try_into().expect("32 bytes")
}

fn check_record(keys: &Keys, version: u32, level: Level, parts: &str) {
    let record = keys.to_record();
    assert_eq!(record[..LEVEL_AT], version.to_be_bytes());
    assert_eq!(record[LEVEL_AT], level.number());
    assert_eq!(hex::text(&record[LEVEL_AT + 1..]), parts);
    assert_eq!(Keys::from_record(&record), *keys);
}

#[test]
fn initial_key_parts() {
    for (version, side, _, parts) in A1 {
        check_record(&keys_of(version, side), version, Level::Initial, parts);
    }
}

/// Section 5.1 of RFC 9001 has one rule for every level: so the secrets of A.1, installed, give the keys of A.1.
#[test]
fn installed_key_parts() {
    for (version, side, _, parts) in A1 {
        for level in [Level::ZeroRtt, Level::Handshake] {
            let keys = install_keys(version, u32::from(level.number()), side, &secret(version, side));
            match (level, side) {
                (Level::ZeroRtt, Side::Server) => assert_eq!(keys, Err(Refusal::PacketType)),
                _ => check_record(&keys.expect("a level that is installed"), version, level, parts),
            }
        }
    }
}

/// Seals to exactly these bytes, and opens them again.
fn check_packet(keys: &Keys, plain: &Plain, packet: &[u8], header_length: usize) {
    let mut output = [0x5a; 1_501];
    assert_eq!(seal(keys, plain, &mut output), Ok(packet.len()));
    assert_eq!(hex::text(&output[..packet.len()]), hex::text(packet));
    assert!(output[packet.len()..].iter().all(|byte| *byte == 0x5a));

    let mut expected = plain.acknowledged.map_or(0, |acknowledged| acknowledged + 1);
    let mut output = [0x5a; 1_501];
    let opened = Opened {
        number: plain.number,
        number_length: plain.number_length,
        header_length,
        payload_length: plain.payload.len(),
        bytes_used: packet.len(),
    };
    assert_eq!(open(keys, &mut expected, packet, &mut output), Ok(opened));
    assert_eq!(expected, plain.number + 1);
    assert_eq!(output[header_length..packet.len() - 16], *plain.payload);
    assert!(output[packet.len() - 16..].iter().all(|byte| *byte == 0x5a));
}

/// A.2 of both appendices: the client's Initial of 1,200 bytes, number 2 in four bytes.
#[test]
fn client_initials() {
    let packets = [include_str!("../vectors/rfc9001-a2.hex"), include_str!("../vectors/document003-a2.hex")];
    for (version, packet) in VERSIONS.into_iter().zip(packets) {
        let plain = Plain {
            number: 2,
            acknowledged: None,
            number_length: 4,
            destination: &hex::bytes(CLIENT_ID),
            source: &[],
            token: Some(&[]),
            payload: &client_payload(),
        };
        check_packet(&keys_of(version, Side::Client), &plain, &hex::bytes(packet), 22);
    }
}

const SERVER_PACKETS: [&str; 2] = [
    "cf000000010008f067a5502a4262b5004075c0d95a482cd0991cd25b0aac406a5816b6394100f37a1c69797554780bb38cc5a99f5ede4cf73c3e\
     c2493a1839b3dbcba3f6ea46c5b7684df3548e7ddeb9c3bf9c73cc3f3bded74b562bfb19fb84022f8ef4cdd93795d77d06edbb7aaf2f58891850\
     abbdca3d20398c276456cbc42158407dd074ee",
    "d0709a50c40008f067a5502a4262b5004075103e63b4ebb7972fdce59d50e7e49ff2a7e8de76b0cd8c10100a1f13d549dd6fe801588fb14d279b\
     ef8d7c53ef6266a9a7a1a5f2fa026c236a5bf8df5aa0f9d74773aeccfffe910b0f76814b5e33f7b7f8ec278d23fd8c7a9e66856b8bbe72558135\
     bca27c54d63fcc902253461cfc089d4e6b9b19",
];

/// A.3 of both appendices: the server's Initial, number 1 in two bytes.
#[test]
fn server_initials() {
    for (version, packet) in VERSIONS.into_iter().zip(SERVER_PACKETS) {
        let plain = Plain {
            number: 1,
            acknowledged: None,
            number_length: 2,
            destination: &[],
            source: &hex::bytes(SERVER_ID),
            token: Some(&[]),
            payload: &server_payload(),
        };
        let packet = hex::bytes(packet);
        check_packet(&keys_of(version, Side::Server), &plain, &packet, 20);
        let header = read_header(&packet).expect("an Initial");
        assert_eq!(header.words(), [u64::from(version), 6, 0, 7, 8, 16, 0, 117, 18, 0]);
        assert_eq!(hex::text(header.source.of(&packet)), SERVER_ID);
    }
}

/// A packet without a token: what it is sealed from, the place of its number, and its bytes in both versions.
struct Tokenless {
    level: Level,
    side: Side,
    plain: Plain<'static>,
    number_at: usize,
    packets: [&'static str; 2],
}

const ZERO_RTT: Tokenless = Tokenless {
    level: Level::ZeroRtt,
    side: Side::Client,
    plain: Plain {
        number: 0,
        acknowledged: None,
        number_length: 1,
        destination: &hex::array::<8>(CLIENT_ID),
        source: &[],
        token: None,
        payload: b"early data",
    },
    number_at: 17,
    packets: [
        "da00000001088394c8f03e51570800401baf25d563b6e35cc746b7c7f34da978cbc2245b1620ae792cb539fd",
        "ef709a50c4088394c8f03e51570800401bcd7c5fb112aba6df795175b8495a86fbd3190b214c1d2624aa0636",
    ],
};

const CLIENT_HANDSHAKE: Tokenless = Tokenless {
    level: Level::Handshake,
    side: Side::Client,
    plain: Plain {
        number: 0xac5c02,
        acknowledged: Some(0xabe8b3),
        number_length: 3,
        destination: &hex::array::<8>(SERVER_ID),
        source: &hex::array::<8>(CLIENT_ID),
        token: None,
        payload: b"a client's Finished",
    },
    number_at: 25,
    packets: [
        "e10000000108f067a5502a4262b5088394c8f03e51570840265245b266a505cbb5942f79b72280b6a8db54a682de7ebe6234d14c7abe\
         91278655f5c20a1b73",
        "f2709a50c408f067a5502a4262b5088394c8f03e5157084026f13d7afd1fdd938ff49c7c42442f56c65f7081ddc0e119f870cb7770dc\
         2db9256ae8fa3de0ea",
    ],
};

const SERVER_HANDSHAKE: Tokenless = Tokenless {
    level: Level::Handshake,
    side: Side::Server,
    plain: Plain {
        number: 1,
        acknowledged: None,
        number_length: 2,
        destination: &[],
        source: &hex::array::<8>(SERVER_ID),
        token: None,
        payload: b"a server's Certificate",
    },
    number_at: 17,
    packets: [
        "ed000000010008f067a5502a4262b540285f0439685fb5eb6cb76977dd60296b67c1bedb8e67a813ad821c8a3a4461bf3a414ef332d2\
         4e8593",
        "fb709a50c40008f067a5502a4262b540286f36009498d2e55fb9d7e021c7a7ac83d06f44f8241f83d43e6717121a271695f76b027447\
         80a44a",
    ],
};

/// No paper prints a packet of these levels under AES. These were computed with Python's cryptography package (OpenSSL's
/// AES-128-GCM) from the secrets of A.1, by a script that shares no line with this program and isn't kept here.
#[test]
fn packets_without_a_token() {
    for line in [ZERO_RTT, CLIENT_HANDSHAKE, SERVER_HANDSHAKE] {
        for (version, packet) in VERSIONS.into_iter().zip(line.packets) {
            let level = u32::from(line.level.number());
            let keys = install_keys(version, level, line.side, &secret(version, line.side)).expect("a side that sends");
            let packet = hex::bytes(packet);
            check_packet(&keys, &line.plain, &packet, line.number_at + line.plain.number_length);
            let header = read_header(&packet).expect("a packet with a number");
            assert_eq!((header.level, header.number_at), (line.level, line.number_at));
            assert_eq!(header.token, Place { at: 0, length: 0 });
            assert_eq!(header.destination.of(&packet), line.plain.destination);
            assert_eq!(header.source.of(&packet), line.plain.source);
        }
    }
}

/// Document 003 A.3 and the scope's boundary line: the server's header under its mask.
#[test]
fn server_header_mask() {
    let packet = hex::bytes(SERVER_PACKETS[1]);
    let mask = mask(&keys_of(0x709a_50c4, Side::Server), &packet, 18);
    assert_eq!(hex::text(&mask), "41103f438e");
    let mut header = hex::bytes("d1709a50c40008f067a5502a4262b50040750001");
    apply_mask(&mut header, mask, 18, 2);
    assert_eq!(hex::text(&header), "d0709a50c40008f067a5502a4262b5004075103e");
}

/// A.4 of both appendices, written and checked.
#[test]
fn retries() {
    let packets = [
        "ff000000010008f067a5502a4262b5746f6b656e04a265ba2eff4d829058fb3f0f2496ba",
        "cf709a50c40008f067a5502a4262b5746f6b656e1dc71130cd1ed39d6efcee5c85806501",
    ];
    for (version, packet) in VERSIONS.into_iter().zip(packets) {
        let original = hex::bytes(CLIENT_ID);
        let plain = retry::Plain {
            version,
            original: &original,
            destination: &[],
            source: &hex::bytes(SERVER_ID),
            token: b"token",
            low_bits: 31,
        };
        let mut output = [0x5a; 40];
        assert_eq!(write_retry(&plain, &mut output), Ok(36));
        assert_eq!(hex::text(&output[..36]), packet);
        assert_eq!(output[36..], [0x5a; 4]);
        let checked = check_retry(&original, &output[..36]).expect("its tag matches");
        assert_eq!(checked.words(), [u64::from(version), 6, 0, 7, 8, 15, 5]);
        assert_eq!(checked.token, Place { at: 15, length: 5 });
        assert_eq!(check_retry(&original[1..], &output[..36]), Err(Refusal::Tag));
    }
}

/// The scope: number length 1 and payload 2 is 7, payload 3 is sealed; 1,500 bytes are sealed, 1,501 are 1.
#[test]
fn sealing_boundaries() {
    for version in VERSIONS {
        let keys = keys_of(version, Side::Client);
        let payload = [7; 1_500];
        let mut output = [0; 1_501];
        let mut try_seal = |number_length, payload_length: usize| {
            let plain = Plain {
                number: 0,
                acknowledged: None,
                number_length,
                destination: &[1; 8],
                source: &[],
                token: Some(&[]),
                payload: &payload[..payload_length],
            };
            seal(&keys, &plain, &mut output)
        };
        assert_eq!(try_seal(1, 2), Err(Refusal::Length));
        assert_eq!(try_seal(1, 3), Ok(18 + 1 + 3 + 16));
        assert_eq!(try_seal(4, 0), Ok(18 + 4 + 16));
        assert_eq!(try_seal(1, 1_500 - 18 - 1 - 16), Ok(1_500));
        assert_eq!(try_seal(1, 1_500 - 18 - 1 - 15), Err(Refusal::Size));
    }
}
