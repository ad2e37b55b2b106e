//! Packets of every level whose every field may be wrong, and which are encrypted and masked by the rules all the same.

use super::sample::{self, Kind};
use crate::random::Random;
use second::header::{FIXED_BIT, FORM_BIT, TYPE_BITS};
use second::integer::{self, FORMS};
use second::keys::Keys;
use second::numbers::NUMBER_LIMIT;
use second::seal::protect;

/// A connection ID and the length that is claimed for it.
#[derive(Clone)]
pub struct Id {
    pub claimed: u8,
    pub bytes: Vec<u8>,
}

impl Id {
    pub fn new(bytes: Vec<u8>) -> Id {
        Id { claimed: bytes.len() as u8, bytes }
    }
}

/// A token, the length that is claimed for it, and how many bytes that length takes.
#[derive(Clone)]
pub struct Token {
    pub bytes: Vec<u8>,
    pub claimed: u64,
    pub form: usize,
}

impl Token {
    /// A token of so many bytes, whose length stands in any form.
    pub fn new(random: &mut Random, length: usize) -> Token {
        let claimed = length as u64;
        Token { bytes: random.bytes(length), claimed, form: any_form(random, claimed) }
    }

    /// Claims a length in a form that holds it.
    pub fn claim(&mut self, random: &mut Random, length: u64) {
        self.claimed = length;
        self.form = any_form(random, length);
    }

    /// Takes the field away where there is one, and puts one where there is none.
    pub fn misplace(field: &mut Option<Token>, random: &mut Random) {
        *field = match field {
            Some(_) => None,
            None => {
                let length = random.pick(&[0, 0, 1, 19, 20, 25, 64]);
                Some(Token::new(random, length))
            }
        };
    }

    /// The field: the length and the bytes.
    fn field(&self) -> Vec<u8> {
        [integer::write_in(self.form, self.claimed), self.bytes.clone()].concat()
    }
}

#[derive(Clone)]
pub struct Draft {
    /// the first byte but for the number's length; its type is the level's where nothing is wrong
    pub first: u8,
    pub kind: Kind,
    pub destination: Id,
    pub source: Id,
    /// the token field, which an Initial has and other packets haven't where nothing is wrong
    pub token: Option<Token>,
    /// the Length that is claimed where it isn't the right one, and how many bytes it takes
    pub length_claimed: Option<u64>,
    pub length_form: usize,
    /// the number that encrypts, of which the packet carries the last bytes
    pub number: u64,
    pub number_length: usize,
    pub payload: Vec<u8>,
}

/// Where a packet's fields start. Without a token field, that field's places are where Length stands.
pub struct Fields {
    pub destination_length: usize,
    pub destination: usize,
    pub source_length: usize,
    pub source: usize,
    pub token_length: usize,
    pub token: usize,
    pub length: usize,
    pub number: usize,
}

/// A form that holds the value.
pub fn any_form(random: &mut Random, value: u64) -> usize {
    let forms: Vec<usize> = FORMS.into_iter().filter(|form| value < integer::limit(*form)).collect();
    random.pick(&forms)
}

/// A number expected, from which a number in so many bytes is recovered (RFC 9000 appendix A.3).
pub fn expected_for(random: &mut Random, number: u64, number_length: usize) -> u64 {
    let half_window = 1 << (8 * number_length - 1);
    let lowest = number.saturating_sub(half_window);
    let highest = (number + half_window - 1).min(NUMBER_LIMIT);
    let between = lowest + random.below(highest - lowest + 1);
    random.pick(&[lowest, highest, between, between, number, number + 1])
}

impl Draft {
    /// A packet with nothing wrong, in any forms, with a payload of the size named, and where its level has a token also
    /// with that. A payload of three bytes or more goes with every number's length.
    pub fn valid(random: &mut Random, kind: Kind, token: usize, payload: usize) -> Draft {
        let number_length = random.between(1..=4);
        let length = (number_length + payload + 16) as u64;
        Draft {
            first: FORM_BIT | FIXED_BIT | kind.level.packet_type(kind.known_version()) << 4,
            kind,
            destination: Id::new(sample::id(random)),
            source: Id::new(sample::id(random)),
            token: kind.level.has_token().then(|| Token::new(random, token)),
            length_claimed: None,
            length_form: any_form(random, length),
            number: sample::number(random) % NUMBER_LIMIT,
            number_length,
            payload: random.bytes(payload),
        }
    }

    /// Shows a type, whatever the level is.
    pub fn show_type(&mut self, packet_type: u8) {
        self.first = self.first & !TYPE_BITS | packet_type << 4;
    }

    /// Number, payload and tag.
    pub fn length(&self) -> u64 {
        (self.number_length + self.payload.len() + 16) as u64
    }

    /// Claims a Length in a form that holds it.
    pub fn claim_length(&mut self, random: &mut Random, length: u64) {
        self.length_claimed = Some(length);
        self.length_form = any_form(random, length);
    }

    pub fn fields(&self) -> Fields {
        let destination_length = 1 + 4;
        let destination = destination_length + 1;
        let source_length = destination + self.destination.bytes.len();
        let source = source_length + 1;
        let token_length = source + self.source.bytes.len();
        let (form, token_bytes) = self.token.as_ref().map_or((0, 0), |token| (token.form, token.bytes.len()));
        let token = token_length + form;
        let length = token + token_bytes;
        let number = length + self.length_form;
        Fields { destination_length, destination, source_length, source, token_length, token, length, number }
    }

    /// The header before the number.
    fn header(&self) -> Vec<u8> {
        let mut header = vec![self.first | (self.number_length - 1) as u8];
        header.extend(self.kind.version.to_be_bytes());
        for id in [&self.destination, &self.source] {
            header.push(id.claimed);
            header.extend(&id.bytes);
        }
        header.extend(self.token.iter().flat_map(Token::field));
        header.extend(integer::write_in(self.length_form, self.length_claimed.unwrap_or(self.length())));
        header
    }

    /// The packet under some keys, whose version and level are not asked.
    pub fn packet(&self, keys: &Keys) -> Vec<u8> {
        protect(keys, self.header(), self.number, self.number_length, &self.payload)
    }
}
