//! SHA-256 (FIPS 180-4).

/// Section 4.2.2: the first 32 bits of the fractional parts of the cube roots of the first 64 primes.
const ROUND_CONSTANTS: [u32; 64] = root_fractions(3);

/// Section 5.3.3: the same of the square roots of the first eight primes.
const INITIAL_HASH: [u32; 8] = root_fractions(2);

/// The first 32 bits of the fractional parts of the roots of the first N primes.
const fn root_fractions<const N: usize>(degree: u32) -> [u32; N] {
    let mut fractions = [0; N];
    let mut found = 0;
    let mut candidate: u128 = 2;
    while found < N {
        if is_prime(candidate) {
            // the whole root of p·2^(32·degree) is the root of p times 2^32: its low half is the fraction
            fractions[found] = (whole_root(candidate << (32 * degree), degree) & 0xffff_ffff) as u32;
            found += 1;
        }
        candidate += 1;
    }
    fractions
}

const fn is_prime(number: u128) -> bool {
    let mut divisor = 2;
    while divisor * divisor <= number {
        if number.is_multiple_of(divisor) {
            return false;
        }
        divisor += 1;
    }
    true
}

/// The greatest whole number whose power is not above the value, found bit by bit.
const fn whole_root(value: u128, degree: u32) -> u128 {
    let mut root: u128 = 0;
    let mut bit = 1 << 36;
    while bit > 0 {
        if (root + bit).pow(degree) <= value {
            root += bit;
        }
        bit >>= 1;
    }
    root
}

/// Section 6.2: the hash of a message.
pub fn sha256(message: &[u8]) -> [u8; 32] {
    let mut hash = INITIAL_HASH;
    let blocks = message.chunks_exact(64);
    let last = padded(blocks.remainder(), message.len());
    for block in blocks.chain(last.chunks_exact(64)) {
        compress(&mut hash, block);
    }
    let mut digest = [0; 32];
    for (bytes, word) in digest.chunks_exact_mut(4).zip(hash) {
        bytes.copy_from_slice(&word.to_be_bytes());
    }
    digest
}

/// Section 5.1.1: what stands behind the whole blocks, a one bit, zeros, and the message's length in bits.
fn padded(rest: &[u8], message_length: usize) -> Vec<u8> {
    let mut last = rest.to_vec();
    last.push(0x80);
    while last.len() % 64 != 56 {
        last.push(0);
    }
    last.extend((8 * message_length as u64).to_be_bytes());
    last
}

/// Section 6.2.2: one block.
fn compress(hash: &mut [u32; 8], block: &[u8]) {
    let schedule = schedule(block);
    let [mut a, mut b, mut c, mut d, mut e, mut f, mut g, mut h] = *hash;
    for (constant, word) in ROUND_CONSTANTS.iter().zip(schedule) {
        let upper_sigma_1 = e.rotate_right(6) ^ e.rotate_right(11) ^ e.rotate_right(25);
        let choice = (e & f) ^ (!e & g);
        let t1 = h.wrapping_add(upper_sigma_1).wrapping_add(choice).wrapping_add(*constant).wrapping_add(word);
        let upper_sigma_0 = a.rotate_right(2) ^ a.rotate_right(13) ^ a.rotate_right(22);
        let majority = (a & b) ^ (a & c) ^ (b & c);
        let t2 = upper_sigma_0.wrapping_add(majority);
        (h, g, f, e) = (g, f, e, d.wrapping_add(t1));
        (d, c, b, a) = (c, b, a, t1.wrapping_add(t2));
    }
    for (word, add) in hash.iter_mut().zip([a, b, c, d, e, f, g, h]) {
        *word = word.wrapping_add(add);
    }
}

/// Section 6.2.2, step 1: the message schedule of a block.
fn schedule(block: &[u8]) -> [u32; 64] {
    let mut words = [0; 64];
    for (word, bytes) in words.iter_mut().zip(block.chunks_exact(4)) {
        *word = u32::from_be_bytes([bytes[0], bytes[1], bytes[2], bytes[3]]);
    }
    for t in 16..64 {
        let (early, late) = (words[t - 15], words[t - 2]);
        let lower_sigma_0 = early.rotate_right(7) ^ early.rotate_right(18) ^ (early >> 3);
        let lower_sigma_1 = late.rotate_right(17) ^ late.rotate_right(19) ^ (late >> 10);
        words[t] = lower_sigma_1.wrapping_add(words[t - 7]).wrapping_add(lower_sigma_0).wrapping_add(words[t - 16]);
    }
    words
}

#[cfg(test)]
mod tests {
    use super::*;
    use crate::hex;

    /// FIPS 180-4, sections 4.2.2 and 5.3.3: the ends of both tables as printed there.
    #[test]
    fn constants() {
        assert_eq!(ROUND_CONSTANTS[..4], [0x428a2f98, 0x71374491, 0xb5c0fbcf, 0xe9b5dba5]);
        assert_eq!(ROUND_CONSTANTS[60..], [0x90befffa, 0xa4506ceb, 0xbef9a3f7, 0xc67178f2]);
        assert_eq!(INITIAL_HASH[0], 0x6a09e667);
        assert_eq!(INITIAL_HASH[7], 0x5be0cd19);
    }

    #[test]
    fn examples() {
        let long = "abcdefghbcdefghicdefghijdefghijkefghijklfghijklmghijklmnhijklmnoijklmnopjklmnopqklmnopqrlmnopqrsmnopqrstnopqrstu";
        let million = "a".repeat(1_000_000);
        let lines = [
            ("", "e3b0c44298fc1c149afbf4c8996fb92427ae41e4649b934ca495991b7852b855"),
            ("abc", "ba7816bf8f01cfea414140de5dae2223b00361a396177a9cb410ff61f20015ad"),
            (
                "abcdbcdecdefdefgefghfghighijhijkijkljklmklmnlmnomnopnopq",
                "248d6a61d20638b8e5c026930c3e6039a33ce45964ff2167f6ecedd419db06c1",
            ),
            (long, "cf5b16a778af8380036ce59e7b0492370b249b11e8f07a51afac45037afee9d1"),
            (&million, "cdc76e5c9914fb9281a1c7e284d73e67f1809a48a497200e046d39ccc7112cd0"),
        ];
        for (message, digest) in lines {
            assert_eq!(hex::text(&sha256(message.as_bytes())), digest);
        }
    }

    /// Messages of (7i + 3) mod 256 on either side of every corner of the padding.
    #[test]
    fn padding_corners() {
        let lines = [
            (1, "084fed08b978af4d7d196a7446a86b58009e636b611db16211b65a9aadff29c5"),
            (3, "6ab0dba1f4f1dfbb37b4f9eeb092c09fca4900ad32bdcd147d8dde35d6c87c35"),
            (54, "160bbf14b458c877b7049e7cb5771dd653930f97d20bdd8ee795c16062906233"),
            (55, "e7313d333c272e639f790978283f9eb392e843d0f29b7016828bb1daa4aac70b"),
            (56, "4324d65f3c103567f5589c710bc08f8523f929a9272e3af36fc968e52abc6c27"),
            (57, "35df609437dcfea3279283ab79fd554e2bf78f8f7ae2de532d8ee300b09e8f73"),
            (63, "81c80242132f230c3bd41b3e63bbcff16107339549214a99614ff26664625055"),
            (64, "39e3d7b6b5d075d37d053ad89b24b41bef4f3c29760c84447cab3f3be1882241"),
            (65, "aacca6ff74fdbb296d165a45cecfa04e5127bc008770fbbdd48006f2d2fae95e"),
            (118, "2c49b89c5aaaaaa69ae70251cc0803f14afaf1a2caa461fa6b083750bc07ce88"),
            (119, "9ce7368e4daf32341631b492e80359dc9f594b48453cd0dd5bf0b19279cc177e"),
            (120, "7836b787757e95e58b3ca5aec90b1b004e8deba1e50e9675af9cabf1a13a04b5"),
            (121, "1189a98a00c71bc1848ea8bdc9700b442bee0be7c3f45172303f1ab0b6f1617e"),
            (127, "a8d23e75d936f303d248888d9b165ee543f4cbafcad3c9dd2a79bd84faa11d07"),
            (128, "d2742f1f4ac6bb7ca2b239ee18402ba8b3f9f8e652d2a72973c2b9ba11c08cf6"),
            (129, "307f8fc2c1622b92762e818d39a185d4d667ad49a4b07ceae1f4afa008a93ec4"),
            (1000, "1e9bc38cbf860b9ec31918b065f9b52476c549a782e0e7990bed8ce3868d2371"),
        ];
        for (length, digest) in lines {
            let message: Vec<u8> = (0..length).map(|i: usize| (7 * i + 3) as u8).collect();
            assert_eq!(hex::text(&sha256(&message)), digest, "{length} bytes");
        }
    }
}
