//! AES-128 in Galois/Counter Mode with nonces of 96 bits and tags of 128 (SP 800-38D).

use crate::aes::Aes128;

/// Section 6.3: a block as an element of the field. Its first bit, the coefficient of x^0, is the number's highest.
type Element = u128;

/// Section 6.3: R, that is x^128 modulo the field's polynomial.
const R: Element = 0xe1 << 120;

/// The product with x.
const fn times_x(a: Element) -> Element {
    (a >> 1) ^ ((a & 1) * R)
}

/// x^4 times each of the sixteen elements that have only their last four bits.
const REDUCTION: [Element; 16] = reduction();

const fn reduction() -> [Element; 16] {
    let mut table = [0; 16];
    let mut i = 0;
    while i < 16 {
        table[i] = times_x(times_x(times_x(times_x(i as Element))));
        i += 1;
    }
    table
}

/// A key with what is made of it once: the expanded cipher and the hash key's products with all half bytes.
pub struct Gcm {
    cipher: Aes128,
    products: [Element; 16],
}

impl Gcm {
    pub fn new(key: &[u8; 16]) -> Gcm {
        let cipher = Aes128::new(key);
        // section 7.1, step 1: the hash key is the cipher of the zero block
        let hash_key = Element::from_be_bytes(cipher.encrypt([0; 16]));
        Gcm { cipher, products: products(hash_key) }
    }

    /// Section 7.1, step 3: the text combined with the key stream, which starts at inc32(J0).
    pub fn counter_mode(&self, nonce: &[u8; 12], text: &[u8]) -> Vec<u8> {
        let mut output = text.to_vec();
        for (counter, bytes) in (2..).zip(output.chunks_mut(16)) {
            let stream = self.cipher.encrypt(counter_block(nonce, counter));
            for (byte, key) in bytes.iter_mut().zip(stream) {
                *byte ^= key;
            }
        }
        output
    }

    /// Section 7.1, steps 4 to 6: the tag over associated data and ciphertext.
    pub fn tag(&self, nonce: &[u8; 12], associated: &[u8], ciphertext: &[u8]) -> [u8; 16] {
        let bits = |bytes: &[u8]| 8 * bytes.len() as Element;
        let lengths = bits(associated) << 64 | bits(ciphertext);
        let mut hash = self.absorb(0, associated);
        hash = self.absorb(hash, ciphertext);
        hash = self.times_hash_key(hash ^ lengths);
        let mask = Element::from_be_bytes(self.cipher.encrypt(counter_block(nonce, 1)));
        (hash ^ mask).to_be_bytes()
    }

    /// Section 6.4: GHASH goes on over some bytes, the last block padded with zeros.
    fn absorb(&self, hash: Element, bytes: &[u8]) -> Element {
        bytes.chunks(16).fold(hash, |hash, chunk| {
            let mut block = [0; 16];
            block[..chunk.len()].copy_from_slice(chunk);
            self.times_hash_key(hash ^ Element::from_be_bytes(block))
        })
    }

    /// The product with the hash key, four bits at a time, from the highest powers of x down.
    fn times_hash_key(&self, a: Element) -> Element {
        (0..32).fold(0, |sum: Element, half_byte| {
            let shifted = (sum >> 4) ^ REDUCTION[(sum & 15) as usize];
            shifted ^ self.products[(a >> (4 * half_byte) & 15) as usize]
        })
    }
}

/// Section 7.1, step 2: J0 for a nonce of 96 bits, with a counter in its last four bytes.
fn counter_block(nonce: &[u8; 12], counter: u32) -> [u8; 16] {
    let mut block = [0; 16];
    block[..12].copy_from_slice(nonce);
    block[12..].copy_from_slice(&counter.to_be_bytes());
    block
}

/// The products of a hash key with every half byte, whose highest bit is the coefficient of x^0.
fn products(hash_key: Element) -> [Element; 16] {
    let mut table = [0; 16];
    let mut multiple = hash_key;
    for bit in [8, 4, 2, 1] {
        for (i, entry) in table.iter_mut().enumerate() {
            if i & bit != 0 {
                *entry ^= multiple;
            }
        }
        multiple = times_x(multiple);
    }
    table
}

#[cfg(test)]
mod tests {
    use super::*;
    use crate::hex;
    use crate::sha256::sha256;

    /// Section 6.3, algorithm 1: the product bit by bit.
    fn product(x: Element, y: Element) -> Element {
        let (mut z, mut v) = (0, y);
        for i in 0..128 {
            if x >> (127 - i) & 1 == 1 {
                z ^= v;
            }
            v = times_x(v);
        }
        z
    }

    #[test]
    fn table_follows_the_definition() {
        let gcm = Gcm::new(&[7; 16]);
        let hash_key = Element::from_be_bytes(gcm.cipher.encrypt([0; 16]));
        for bit in 0..128 {
            assert_eq!(gcm.times_hash_key(1 << bit), product(1 << bit, hash_key));
        }
        let mut a: Element = 1;
        for _ in 0..100 {
            a = a.wrapping_mul(0x2545_f491_4f6c_dd1d_8d2b_7c1e_93a5_0f47).rotate_left(7) ^ R;
            assert_eq!(gcm.times_hash_key(a), product(a, hash_key));
        }
    }

    /// The test cases of the GCM specification with keys of 128 bits and nonces of 96: 1 to 4.
    #[test]
    fn cases() {
        let key = "feffe9928665731c6d6a8f9467308308";
        let nonce = "cafebabefacedbaddecaf888";
        let plain = "d9313225f88406e5a55909c5aff5269a86a7a9531534f7da2e4c303d8a318a721c3c0c95956809532fcf0e2449a6b525\
                     b16aedf5aa0de657ba637b391aafd255";
        let cipher = "42831ec2217774244b7221b784d0d49ce3aa212f2c02a4e035c17e2329aca12e21d514b25466931c7d8f6a5aac84aa05\
                      1ba30b396a0aac973d58e091473f5985";
        let zero = "00000000000000000000000000000000";
        let lines = [
            (zero, &zero[..24], "", "", "", "58e2fccefa7e3061367f1d57a4e7455a"),
            (zero, &zero[..24], "", zero, "0388dace60b6a392f328c2b971b2fe78", "ab6e47d42cec13bdf53a67b21257bddf"),
            (key, nonce, "", plain, cipher, "4d5c2af327cd64a62cf35abd2ba6fab4"),
            (
                key,
                nonce,
                "feedfacedeadbeeffeedfacedeadbeefabaddad2",
                &plain[..120],
                &cipher[..120],
                "5bc94fbc3221a5db94fae95ae7121a47",
            ),
        ];
        for (key, nonce, associated, plain, cipher, tag) in lines {
            let (gcm, nonce) = (Gcm::new(&hex::array(key)), hex::array(nonce));
            let encrypted = gcm.counter_mode(&nonce, &hex::bytes(plain));
            assert_eq!(hex::text(&encrypted), cipher);
            assert_eq!(hex::text(&gcm.tag(&nonce, &hex::bytes(associated), &encrypted)), tag);
        }
    }

    /// Lengths of associated data and text around the block's: key 3i+1, nonce 5i+2, associated 7i+3, text 11i+4.
    #[test]
    fn lengths() {
        let series = |length, step: usize, start| (0..length).map(|i| (step * i + start) as u8).collect::<Vec<u8>>();
        let gcm = Gcm::new(&series(16, 3, 1).try_into().unwrap());
        let nonce = series(12, 5, 2).try_into().unwrap();
        let lines = [
            (0, 1, "d03502c4", "1024343af39c4aeb8aac1bea83a4bdb0"),
            (1, 0, "e3b0c442", "35c059a8b2205b4aaf6f635f2776fa5d"),
            (1, 1, "d03502c4", "ad7b96b7d224ce784a4063dce097a3db"),
            (15, 15, "50c0ed26", "711c6bf2874c9b0dea744c56a4cf2dcd"),
            (16, 16, "d22be3a1", "30798166315aa97819459873a681a5c7"),
            (17, 17, "44ed44be", "732c42e341b126ed8ff73acbd1bd081c"),
            (20, 31, "fd4af5eb", "ded104c23aa96fc9c1300cde526ccf81"),
            (33, 47, "dbc5d400", "78c02ca69c50e94a1d76f470fb3f9dc8"),
            (21, 0, "e3b0c442", "a9fdb308527a85bef091eba75096d6d5"),
            (45, 1162, "5c997cac", "2afbc1d1d885ecefe6377b37015f9174"),
            (1000, 5, "8ccaeee6", "63da77d858bfaa810109e904000f3b8b"),
        ];
        for (associated, text, cipher_digest, tag) in lines {
            let encrypted = gcm.counter_mode(&nonce, &series(text, 11, 4));
            assert!(hex::text(&sha256(&encrypted)).starts_with(cipher_digest));
            assert_eq!(hex::text(&gcm.tag(&nonce, &series(associated, 7, 3), &encrypted)), tag);
        }
    }
}
