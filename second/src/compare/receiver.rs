//! Long lists to the receivers of a connection, through `dw_open`: one for each level, with its own keys and its own
//! expected number. Whatever is lost, repeated, late or rubbish, every good packet is yielded (RFC 9000 sections 12.3 and
//! 13.2, and appendix A.3).

use super::damage::Sealed;
use super::draft::Draft;
use super::opening::{report, Open};
use super::sample::{self, Kind};
use super::tally::Tally;
use crate::random::Random;
use second::keys::{Keys, Record};
use second::level::LEVELS;
use second::numbers::NUMBER_LIMIT;
use second::receiver::Receiver;
use second::retry;

/// What is sent at one level, and the number from which on.
struct Sender {
    record: Record,
    start: u64,
    sent: Vec<Sealed>,
}

/// The senders of all levels, in their order.
type Senders = [Sender; LEVELS.len()];

/// What arrives at the receiver of a level, and the place of the packet that it is among those sent there; rubbish is
/// none.
struct Arrival {
    level: usize,
    datagram: Vec<u8>,
    sent: Option<usize>,
}

pub fn lists(tally: &mut Tally, random: &mut Random) {
    for _ in 0..160 {
        let version = sample::known_version(random);
        let senders = LEVELS.map(|level| Sender::new(random, Kind { version, level }));
        let arrivals = travel(random, &senders);
        receive(tally, random, &senders, &arrivals);
    }
}

impl Sender {
    /// Packets with rising numbers and number lengths that vary.
    fn new(random: &mut Random, kind: Kind) -> Sender {
        let record = sample::record(random, kind);
        let anywhere = random.below(NUMBER_LIMIT);
        let start = random.pick(&[0, 0, 0, 1_000, NUMBER_LIMIT - 300, NUMBER_LIMIT - 40, anywhere]);
        let count = random.between(6..=133);
        let (mut number, mut sent) = (start, Vec::new());
        while sent.len() < count && number < NUMBER_LIMIT {
            let (token, payload) = (random.pick(&[0, 0, 9]), random.between(3..=60));
            let mut draft = Draft::valid(random, kind, token, payload);
            draft.number = number;
            let packet = draft.packet(&Keys::from_record(&record));
            sent.push(Sealed { record, draft, packet });
            number += random.pick(&[1, 1, 1, 1, 2, 5, 100, 130]);
        }
        Sender { record, start, sent }
    }
}

/// A packet that was sent at any level.
fn any_sent<'a>(random: &mut Random, senders: &'a Senders) -> &'a Sealed {
    let sent = &senders[random.between(0..=LEVELS.len() - 1)].sent;
    &sent[random.between(0..=sent.len() - 1)]
}

/// The road: some packets are lost, some come twice, some late or with others behind them, and rubbish comes between.
fn travel(random: &mut Random, senders: &Senders) -> Vec<Arrival> {
    let mut timed = Vec::new();
    for (level, sender) in senders.iter().enumerate() {
        for (place, sealed) in sender.sent.iter().enumerate() {
            let copies = random.pick(&[0, 1, 1, 1, 1, 1, 2, 3]);
            for _ in 0..copies {
                let late = random.pick(&[0, 0, 0, 2, 10, 40, 200]);
                let datagram = [&sealed.packet[..], &behind(random, senders)].concat();
                timed.push((10 * place + random.between(0..=late), Arrival { level, datagram, sent: Some(place) }));
            }
            if random.one_in(2) {
                let datagram = rubbish(random, senders, sealed);
                timed.push((10 * place + random.between(0..=30), Arrival { level, datagram, sent: None }));
            }
        }
    }
    timed.sort_by_key(|(time, _)| *time);
    timed.into_iter().map(|(_, arrival)| arrival).collect()
}

/// What stands behind a good packet: nothing, a packet of any level, or any bytes.
fn behind(random: &mut Random, senders: &Senders) -> Vec<u8> {
    match random.below(5) {
        0 => any_sent(random, senders).packet.clone(),
        1 => random.bytes(20),
        _ => Vec::new(),
    }
}

/// Something that a receiver must not open, where a packet of its own would come: that one damaged or in part, one of
/// another sender or level, one that shows another type under the receiver's own keys, a Retry, or no packet at all.
fn rubbish(random: &mut Random, senders: &Senders, sealed: &Sealed) -> Vec<u8> {
    let mut datagram = sealed.packet.clone();
    let mut draft = sealed.draft.clone();
    match random.below(8) {
        0 => {
            let bit = random.between(0..=8 * datagram.len() - 1);
            datagram[bit / 8] ^= 1 << (bit % 8);
        }
        1 => datagram.truncate(random.between(0..=sealed.packet.len() - 1)),
        2 => datagram = Sealed::new(random, draft).packet,
        3 => {
            let other = any_sent(random, senders);
            let is_own = other.draft.kind.level == draft.kind.level;
            datagram = if is_own { Vec::new() } else { other.packet.clone() };
        }
        4 => {
            draft.first ^= random.pick(&[0x10, 0x20, 0x30]);
            datagram = draft.packet(&Keys::from_record(&sealed.record));
        }
        5 => {
            draft.first |= 0x08;
            datagram = draft.packet(&Keys::from_record(&sealed.record));
        }
        6 => datagram = written_retry(random, draft.kind.version),
        _ => {
            let length = random.between(0..=100);
            datagram = random.bytes(length);
        }
    }
    datagram
}

fn written_retry(random: &mut Random, version: u32) -> Vec<u8> {
    let token = random.bytes(9);
    let plain = retry::Plain { version, original: &[], destination: &[], source: &[], token: &token, low_bits: 0 };
    let mut output = vec![0; 60];
    let length = retry::write_retry(&plain, &mut output).expect("a Retry with a token");
    output.truncate(length);
    output
}

/// Runs the list. The receivers of the second program tell what is expected next, and which packets must open; rubbish,
/// and good packets for which too little room is lent, must leave everything as it is.
fn receive(tally: &mut Tally, random: &mut Random, senders: &Senders, arrivals: &[Arrival]) {
    let new_receiver = |sender: &Sender| Receiver::new(Keys::from_record(&sender.record), sender.start);
    let mut receivers = senders.each_ref().map(new_receiver);
    let mut expected = senders.each_ref().map(|sender| sender.start);
    for Arrival { level, datagram, sent } in arrivals {
        let (sender, receiver, expected) = (&senders[*level], &mut receivers[*level], &mut expected[*level]);
        let room = random.pick(&[datagram.len(), datagram.len(), 1_500, 20]);
        let output = random.bytes(room);
        let call = Open { keys: &sender.record, expected: *expected, datagram, output: &output };
        let good = sent.map(|place| &sender.sent[place]);
        let opens = good.filter(|sealed| {
            let draft = &sealed.draft;
            receiver.recovers(draft.number, draft.number_length) && room >= sealed.packet.len() - 16
        });
        // the model's own run, whose buffer is thrown away
        let _ = receiver.receive(datagram, &mut output.clone());
        let after = receiver.expected();
        let as_sent = |answer: Result<[u64; 5], u32>| match (opens, good) {
            (Some(sealed), _) => answer == Ok(report(&sealed.draft)),
            (None, Some(_)) => true,
            (None, None) => answer.is_err(),
        };
        let effect = tally.compare_if(
            &call,
            |ours| as_sent(ours.answer) && ours.expected == after && payload_stands(ours.output.as_slice(), opens),
            "what the receiver's model tells",
        );
        *expected = effect.expected;
    }
}

/// A packet that opens leaves its payload behind its header.
fn payload_stands(output: &[u8], opened: Option<&Sealed>) -> bool {
    opened.is_none_or(|sealed| {
        let header = sealed.draft.fields().number + sealed.draft.number_length;
        output[header..].starts_with(&sealed.draft.payload)
    })
}
