//! RFC 9001 appendix A, and the version 2 draft's appendix A: keys, both Initials and the Retry.

use crate::{hex, ID};
use driftwicket::retry::{self, Retry};
use driftwicket::{open, seal, FullPn, Initial, Keys, Level, Receiver, Side, Version, LIMIT};

/// The server's connection ID.
const SERVER_ID: [u8; 8] = [0xf0, 0x67, 0xa5, 0x50, 0x2a, 0x42, 0x62, 0xb5];

/// What a paper prints.
struct Paper {
    version: Version,
    client_secret: &'static str,
    server_secret: &'static str,
    /// key, iv and hp
    client_keys: &'static str,
    server_keys: &'static str,
    client_packet: &'static str,
    server_packet: &'static str,
    retry: &'static str,
}

const PAPERS: [Paper; 2] = [
    Paper {
        version: Version::ONE,
        client_secret: "c00cf151ca5be075ed0ebfb5c80323c42d6b7db67881289af4008f1f6c357aea",
        server_secret: "3c199828fd139efd216c155ad844cc81fb82fa8d7446fa7d78be803acdda951b",
        client_keys: "1f369613dd76d5467730efcbe3b1a22d fa044b2f42a3fd3b46fb255c 9f50449e04a0e810283a1e9933adedd2",
        server_keys: "cf3a5331653c364c88f0f379b6067e37 0ac1493ca1905853b0bba03e c206b8d9b9f0f37644430b490eeaa314",
        client_packet: include_str!("vectors/rfc9001-client.hex"),
        server_packet: include_str!("vectors/rfc9001-server.hex"),
        retry: include_str!("vectors/rfc9001-retry.hex"),
    },
    Paper {
        version: Version::DRAFT_2,
        client_secret: "9fe72e1452e91f551b770005054034e47575d4a0fb4c27b7c6cb303a338423ae",
        server_secret: "3c9bf6a9c1c8c71819876967bd8b979efd98ec665edf27f22c06e9845ba0ae2f",
        client_keys: "95df2be2e8d549c82e996fc9339f4563 ea5e3c95f933db14b7020ad8 091efb735702447d07908f6501845794",
        server_keys: "15d5b4d9a2b8916aa39b1bfe574d2aad a85e7ac31cd275cbb095c626 b13861cfadbb9d11ff942dd80c8fc33b",
        client_packet: include_str!("vectors/document003-client.hex"),
        server_packet: include_str!("vectors/document003-server.hex"),
        retry: include_str!("vectors/document003-retry.hex"),
    },
];

/// The client's CRYPTO frame, and zeros up to the size that the papers give it.
fn client_payload() -> Vec<u8> {
    let mut payload = hex(include_str!("vectors/client-frame.hex"));
    payload.resize(1_162, 0);
    payload
}

fn server_payload() -> Vec<u8> {
    hex(include_str!("vectors/server-payload.hex"))
}

/// The client's Initial: number 2 in four bytes.
fn client_initial(payload: &[u8]) -> Initial<'_> {
    Initial {
        number: FullPn(2),
        acknowledged: None,
        number_length: 4,
        destination: &ID,
        source: b"",
        token: b"",
        payload,
    }
}

/// The server's Initial: number 1 in two bytes.
fn server_initial(payload: &[u8]) -> Initial<'_> {
    Initial {
        number: FullPn(1),
        acknowledged: None,
        number_length: 2,
        destination: b"",
        source: &SERVER_ID,
        token: b"",
        payload,
    }
}

#[test]
fn keys() {
    for paper in &PAPERS {
        for (side, printed) in [(Side::Client, paper.client_keys), (Side::Server, paper.server_keys)] {
            let keys = Keys::initial(paper.version, &ID, side).unwrap();
            assert_eq!((keys.version(), keys.level()), (paper.version, Some(Level::Initial)));
            assert_eq!(keys.as_bytes()[..4], paper.version.0.to_be_bytes());
            assert_eq!(keys.as_bytes()[4..], [&[0][..], &hex(printed)].concat());
        }
    }
}

/// RFC 9001 section 5.1 has one rule for every level, so the papers' secrets, installed, give the papers' keys.
#[test]
fn installed_keys() {
    for paper in &PAPERS {
        let client = (Side::Client, paper.client_secret, paper.client_keys);
        let server = (Side::Server, paper.server_secret, paper.server_keys);
        let cases = [(Level::ZeroRtt, 1, client), (Level::Handshake, 2, client), (Level::Handshake, 2, server)];
        for (level, number, (side, secret, printed)) in cases {
            let secret = hex(secret).try_into().unwrap();
            let keys = Keys::install(paper.version, level, side, &secret).unwrap();
            assert_eq!((keys.version(), keys.level()), (paper.version, Some(level)));
            assert_eq!(keys.as_bytes()[..4], paper.version.0.to_be_bytes());
            assert_eq!(keys.as_bytes()[4..], [&[number][..], &hex(printed)].concat());
        }
    }
}

/// Seals a packet to the bytes that the paper prints, and opens those to what was sealed.
fn both_ways(keys: &Keys, packet: &Initial, printed: &[u8]) {
    let mut out = [0; LIMIT];
    assert_eq!(seal(keys, packet, &mut out).unwrap(), printed);

    let mut expected = 0;
    let mut plain = [0; LIMIT];
    let opened = open(keys, &mut expected, printed, &mut plain).unwrap();
    assert_eq!(opened.number, packet.number);
    assert_eq!(opened.number_length, packet.number_length);
    assert_eq!(opened.payload, packet.payload);
    assert_eq!(opened.used, printed.len());
    let number = packet.number.0.to_be_bytes();
    assert!(opened.header.ends_with(&number[8 - packet.number_length..]));
    assert_eq!(expected, packet.number.0 + 1);
    assert_eq!(Receiver::new(keys.clone()).open(printed, &mut [0; LIMIT]).unwrap().payload, packet.payload);
}

#[test]
fn client_and_server_initial() {
    for paper in &PAPERS {
        let keys = |side| Keys::initial(paper.version, &ID, side).unwrap();
        both_ways(&keys(Side::Client), &client_initial(&client_payload()), &hex(paper.client_packet));
        both_ways(&keys(Side::Server), &server_initial(&server_payload()), &hex(paper.server_packet));
    }
}

#[test]
fn retry_packet() {
    for paper in &PAPERS {
        let packet = Retry {
            version: paper.version,
            original: &ID,
            destination: b"",
            source: &SERVER_ID,
            token: b"token",
            low_bits: 0xff,
        };
        let printed = hex(paper.retry);
        let mut out = [0; LIMIT];
        assert_eq!(retry::write(&packet, &mut out).unwrap(), printed);

        let checked = retry::check(&ID, &printed).unwrap();
        assert_eq!(checked.version, paper.version);
        assert_eq!(checked.destination, b"");
        assert_eq!(checked.source, SERVER_ID);
        assert_eq!(checked.token, b"token");
    }
}
