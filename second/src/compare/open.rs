//! `dw_open`: RFC 9001 sections 5.3 and 5.4, RFC 9000 appendix A.3.

use super::arrival::{each_faulty, opening_faults};
use super::damage::{self, Sealed};
use super::draft::{expected_for, Draft, Token};
use super::entry::Entry;
use super::opening::{report, Open};
use super::receiver;
use super::sample::{self, near, Kind};
use super::tally::Tally;
use crate::random::Random;
use second::integer::FORMS;
use second::keys::{Keys, LEVEL_AT};
use second::level::LEVELS;
use second::numbers::NUMBER_LIMIT;
use second::receiver::Receiver;

pub const ENTRY: Entry = Entry {
    name: "dw_open",
    parts: &[
        ("every truncation and every bit of sealed packets", damaged),
        ("payloads of every size", payload_sizes),
        ("outputs of no byte, one short, exact and longer", rooms),
        ("bytes behind the packet, datagrams around 1,500 bytes, of a million and more", behind),
        ("every form of token length and Length", forms),
        ("token lengths and Lengths that are a little off, far off or anything", claims),
        ("token fields that the level hasn't, or none where it has one", token_fields),
        ("expected numbers around every window's edges", windows),
        ("every fault, every two and larger sets, at every level", fault_sets),
        ("keys that are one bit off", other_keys),
        ("every level byte of the keys", levels),
        ("packets of any levels one behind the other", coalesced),
        ("random bytes behind a good start, some under forged keys", rubbish),
        ("lists to a receiver of each level, with loss, repeats, late arrival and rubbish", receiver::lists),
    ],
    refusals: &[1, 2, 3, 4, 5, 6, 7, 8, 9, 10, 11],
};

/// An expected number from which a packet's number is recovered.
fn expected_of(random: &mut Random, sealed: &Sealed) -> u64 {
    expected_for(random, sealed.draft.number, sealed.draft.number_length)
}

/// A good packet, with a token, where its level has one, and a payload of some sizes.
fn good(random: &mut Random, kind: Kind) -> Sealed {
    let (token, payload) = (random.pick(&[0, 0, 1, 30, 64]), random.between(3..=60));
    let draft = Draft::valid(random, kind, token, payload);
    Sealed::new(random, draft)
}

fn damaged(tally: &mut Tally, random: &mut Random) {
    for sealed in damage::sealed(random) {
        let expected = expected_of(random, &sealed);
        let output = random.bytes(sealed.packet.len());
        let mut call = Open { keys: &sealed.record, expected, datagram: &sealed.packet, output: &output };
        tally.compare_yielding(&call, report(&sealed.draft));
        call.output = &output[..sealed.packet.len() - 16];
        tally.compare_yielding(&call, report(&sealed.draft));
        damage::each(&sealed.packet, |datagram| {
            tally.compare(&Open { datagram, ..call });
        });
    }
}

/// Every count of whole blocks, and every rest behind them, in packets that fit whatever their IDs are.
fn payload_sizes(tally: &mut Tally, random: &mut Random) {
    for payload in 3..=1_400 {
        let kind = sample::kind(random);
        let draft = Draft::valid(random, kind, 0, payload);
        let sealed = Sealed::new(random, draft);
        let expected = expected_of(random, &sealed);
        let output = random.bytes(sealed.packet.len() - 16);
        let call = Open { keys: &sealed.record, expected, datagram: &sealed.packet, output: &output };
        tally.compare_yielding(&call, report(&sealed.draft));
    }
}

fn rooms(tally: &mut Tally, random: &mut Random) {
    for _ in 0..400 {
        let kind = sample::kind(random);
        let sealed = good(random, kind);
        let expected = expected_of(random, &sealed);
        let needed = sealed.packet.len() - 16;
        // the smallest packets have fewer bytes before their tag than it has
        let less_a_tag = needed.saturating_sub(16);
        for room in [0, 1, less_a_tag, needed - 2, needed - 1, needed, needed + 1, needed + 15, needed + 16, 1_600] {
            let output = random.bytes(room);
            let call = Open { keys: &sealed.record, expected, datagram: &sealed.packet, output: &output };
            tally.compare_knowing(&call, if room < needed { 8 } else { 0 });
        }
    }
}

/// What stands behind the packet isn't looked at; only the datagram's size is judged.
fn behind(tally: &mut Tally, random: &mut Random) {
    for _ in 0..60 {
        let kind = sample::kind(random);
        let sealed = good(random, kind);
        let expected = expected_of(random, &sealed);
        let output = random.bytes(sealed.packet.len() + 8);
        let to_limit = 1_500 - sealed.packet.len();
        let any = random.between(1..=to_limit);
        for more in [0, 1, 2, 15, 16, 17, sealed.packet.len(), any, to_limit - 1, to_limit, to_limit + 1, to_limit + 2]
        {
            let mut datagram = sealed.packet.clone();
            match random.below(3) {
                0 => datagram.resize(datagram.len() + more, 0),
                1 => datagram.extend(sealed.packet.iter().cycle().take(more)),
                _ => datagram.extend(random.bytes(more)),
            }
            let call = Open { keys: &sealed.record, expected, datagram: &datagram, output: &output };
            tally.compare_knowing(&call, u32::from(more > to_limit));
        }
        for datagram in sample::huge() {
            let mut call = Open { keys: &sealed.record, expected, datagram, output: &output };
            tally.compare_knowing(&call, 1);
            call.expected = NUMBER_LIMIT + 1;
            tally.compare_knowing(&call, 10);
        }
    }
}

/// Compares the opening of a draft with some bytes behind it.
fn open_draft(tally: &mut Tally, random: &mut Random, draft: Draft, known: Option<[u64; 5]>) {
    let sealed = Sealed::new(random, draft);
    let expected = expected_of(random, &sealed);
    let behind = random.pick(&[0, 0, 1, 3, 40]);
    let datagram = [&sealed.packet[..], &random.bytes(behind)].concat();
    let output = random.bytes(datagram.len());
    let call = Open { keys: &sealed.record, expected, datagram: &datagram, output: &output };
    match known {
        Some(report) => tally.compare_yielding(&call, report),
        None => tally.compare(&call),
    };
}

fn forms(tally: &mut Tally, random: &mut Random) {
    for (token_form, length_form) in FORMS.into_iter().flat_map(|token| FORMS.map(|length| (token, length))) {
        for (kind, number_length) in sample::kinds().flat_map(|kind| [1, 2, 3, 4].map(|n| (kind, n))) {
            for _ in 0..3 {
                let token = random.between(0..=if token_form == 1 { 63 } else { 70 });
                let mut draft = Draft::valid(random, kind, token, 20);
                (draft.length_form, draft.number_length) = (length_form, number_length);
                if let Some(token) = &mut draft.token {
                    token.form = token_form;
                }
                let known = report(&draft);
                open_draft(tally, random, draft, Some(known));
            }
        }
    }
}

fn claims(tally: &mut Tally, random: &mut Random) {
    for _ in 0..16_000 {
        let kind = sample::kind(random);
        let (token, payload) = (random.pick(&[0, 1, 20, 63, 64, 100]), random.between(3..=30));
        let mut draft = Draft::valid(random, kind, token, payload);
        if let Some(token) = draft.token.as_mut().filter(|_| random.one_in(2)) {
            let claim = sample::claim(random, token.claimed);
            token.claim(random, claim);
        } else {
            let claim = sample::claim(random, draft.length());
            draft.claim_length(random, claim);
        }
        open_draft(tally, random, draft, None);
    }
}

fn token_fields(tally: &mut Tally, random: &mut Random) {
    for _ in 0..2_000 {
        let kind = sample::kind(random);
        let mut draft = good(random, kind).draft;
        Token::misplace(&mut draft.token, random);
        open_draft(tally, random, draft, None);
    }
}

/// A number opens where it stands within half a window of what is expected, and is another number elsewhere.
fn windows(tally: &mut Tally, random: &mut Random) {
    for _ in 0..30_000 {
        let kind = sample::kind(random);
        let mut draft = Draft::valid(random, kind, 0, 4);
        let window = 1u64 << (8 * draft.number_length);
        let anywhere = random.below(NUMBER_LIMIT - 3);
        let centre =
            random.pick(&[3, window / 2, window, 2 * window, anywhere, NUMBER_LIMIT - window, NUMBER_LIMIT - 4]);
        let number = near(random, centre.max(3));
        draft.number = number;
        let step = random.pick(&[3, window / 2, window]);
        let off = near(random, step);
        let expected = if random.one_in(2) { number.saturating_add(off) } else { number.saturating_sub(off) };
        let sealed = Sealed::new(random, draft);
        let output = random.bytes(sealed.packet.len());
        let call = Open { keys: &sealed.record, expected, datagram: &sealed.packet, output: &output };
        if Receiver::new(Keys::from_record(&sealed.record), expected).recovers(number, sealed.draft.number_length) {
            tally.compare_yielding(&call, report(&sealed.draft));
        } else {
            tally.compare(&call);
        }
    }
}

fn fault_sets(tally: &mut Tally, random: &mut Random) {
    each_faulty(opening_faults, random, |arrival, known, random| {
        let (datagram, output) = (arrival.datagram(random), arrival.output(random));
        let call = Open { keys: &arrival.record, expected: arrival.expected, datagram: &datagram, output: &output };
        tally.compare_knowing(&call, known);
    });
}

/// Every bit of the key record matters.
fn other_keys(tally: &mut Tally, random: &mut Random) {
    for kind in sample::kinds() {
        for _ in 0..2 {
            let sealed = good(random, kind);
            let expected = expected_of(random, &sealed);
            let output = random.bytes(sealed.packet.len());
            let mut keys = sealed.record;
            for bit in 0..8 * keys.len() {
                keys[bit / 8] ^= 1 << (bit % 8);
                tally.compare(&Open { keys: &keys, expected, datagram: &sealed.packet, output: &output });
                keys[bit / 8] ^= 1 << (bit % 8);
            }
        }
    }
}

/// A packet opens under keys of its level and is 6 under the same keys with any other level byte. A Retry's type is 6
/// under all of them. The tag is right each time.
fn levels(tally: &mut Tally, random: &mut Random) {
    for kind in sample::kinds() {
        let sealed = good(random, kind);
        let mut retry = sealed.draft.clone();
        retry.show_type(kind.known_version().retry_type);
        let retry = retry.packet(&Keys::from_record(&sealed.record));
        let expected = expected_of(random, &sealed);
        let output = random.bytes(sealed.packet.len());
        let mut keys = sealed.record;
        for level in 0..=255 {
            keys[LEVEL_AT] = level;
            let call = Open { keys: &keys, expected, datagram: &sealed.packet, output: &output };
            tally.compare_knowing(&call, if level == kind.level.number() { 0 } else { 6 });
            tally.compare_knowing(&Open { datagram: &retry, ..call }, 6);
        }
    }
}

/// RFC 9000 section 12.2: each packet opens where the one before it ends, under its own keys. Under those of another
/// level it is 6, whatever stands behind it.
fn coalesced(tally: &mut Tally, random: &mut Random) {
    for _ in 0..400 {
        let version = sample::known_version(random);
        let mut levels = LEVELS;
        levels.rotate_left(random.between(0..=2));
        let packets = levels.map(|level| good(random, Kind { version, level }));
        let datagram = packets.each_ref().map(|sealed| &sealed.packet[..]).concat();
        let output = random.bytes(datagram.len());
        let mut at = 0;
        for sealed in &packets {
            let expected = expected_of(random, sealed);
            for other in &packets {
                let call = Open { keys: &other.record, expected, datagram: &datagram[at..], output: &output };
                if other.draft.kind.level == sealed.draft.kind.level {
                    tally.compare_yielding(&call, report(&sealed.draft));
                } else {
                    tally.compare_knowing(&call, 6);
                }
            }
            at += sealed.packet.len();
        }
    }
}

/// Bytes that start as a packet does, or that are one with some of its bytes changed.
fn rubbish(tally: &mut Tally, random: &mut Random) {
    for _ in 0..40_000 {
        let kind = sample::kind(random);
        let sealed = good(random, kind);
        let expected = expected_of(random, &sealed);
        let output = random.bytes(sealed.packet.len() + 60);
        let mut datagram = sealed.packet.clone();
        if random.one_in(2) {
            datagram.truncate(random.between(0..=60));
            let behind = random.between(0..=100);
            datagram.extend(random.bytes(behind));
        } else {
            for _ in 0..random.between(1..=4) {
                let at = random.between(0..=datagram.len() - 1);
                datagram[at] = random.word() as u8;
            }
        }
        let mut keys = sealed.record;
        match random.below(8) {
            0 => keys = sample::any_record(random),
            1 => keys[LEVEL_AT] = random.below(4) as u8,
            _ => {}
        }
        tally.compare(&Open { keys: &keys, expected, datagram: &datagram, output: &output });
    }
}
