//! HMAC (RFC 2104), HKDF (RFC 5869) and HKDF-Expand-Label (RFC 8446 section 7.1), all over SHA-256.

use crate::sha256::sha256;

const BLOCK: usize = 64;
const DIGEST: usize = 32;

/// RFC 2104 section 2: H(K XOR opad, H(K XOR ipad, text)); a key longer than a block is hashed first.
pub fn hmac(key: &[u8], text: &[u8]) -> [u8; DIGEST] {
    let mut block_key = [0; BLOCK];
    if key.len() > BLOCK {
        block_key[..DIGEST].copy_from_slice(&sha256(key));
    } else {
        block_key[..key.len()].copy_from_slice(key);
    }
    let padded = |pad: u8, text: &[u8]| [&block_key.map(|byte| byte ^ pad)[..], text].concat();
    let inner = sha256(&padded(0x36, text));
    sha256(&padded(0x5c, &inner))
}

/// RFC 5869 section 2.2. An absent salt is a block's worth of zeros, which an empty key comes to as well.
pub fn extract(salt: &[u8], input: &[u8]) -> [u8; DIGEST] {
    hmac(salt, input)
}

/// RFC 5869 section 2.3: T(1) | T(2) | .. up to the length asked for.
pub fn expand(secret: &[u8], info: &[u8], length: usize) -> Vec<u8> {
    let mut output = Vec::new();
    let mut previous: Vec<u8> = Vec::new();
    for counter in 1..=length.div_ceil(DIGEST) {
        let counter = u8::try_from(counter).expect("at most 255 digests");
        previous = hmac(secret, &[&previous[..], info, &[counter]].concat()).to_vec();
        output.extend(&previous);
    }
    output.truncate(length);
    output
}

/// RFC 8446 section 7.1: HkdfLabel with an empty context.
pub fn label_info(label: &str, length: usize) -> Vec<u8> {
    let label = ["tls13 ", label].concat();
    let length = u16::try_from(length).expect("a length of two bytes").to_be_bytes();
    let label_length = u8::try_from(label.len()).expect("a length of one byte");
    [&length[..], &[label_length], label.as_bytes(), &[0]].concat()
}

/// RFC 8446 section 7.1: HKDF-Expand-Label with an empty context; the length stands in the answer's type.
pub fn expand_label<const N: usize>(secret: &[u8], label: &str) -> [u8; N] {
    let output = expand(secret, &label_info(label, N), N);
    output.try_into().expect("expand gives the length asked for")
}

#[cfg(test)]
mod tests {
    use super::*;
    use crate::hex;

    /// RFC 4231, the cases whose key fits one block.
    #[test]
    fn hmac_cases() {
        let lines = [
            (
                "0b0b0b0b0b0b0b0b0b0b0b0b0b0b0b0b0b0b0b0b".to_string(),
                "4869205468657265".to_string(),
                "b0344c61d8db38535ca8afceaf0bf12b881dc200c9833da726e9376c2e32cff7",
            ),
            (
                "4a656665".to_string(),
                "7768617420646f2079612077616e7420666f72206e6f7468696e673f".to_string(),
                "5bdcc146bf60754e6a042426089575c75a003f089d2739839dec58b964ec3843",
            ),
            ("aa".repeat(20), "dd".repeat(50), "773ea91e36800e46854db8ebd09181a72959098b3ef8c122d9635514ced565fe"),
            (
                "0102030405060708090a0b0c0d0e0f10111213141516171819".to_string(),
                "cd".repeat(50),
                "82558a389a443c0ea4cc819899f2083a85f0faa3e578f8077a2e3ff46729665b",
            ),
        ];
        for (key, text, digest) in lines {
            assert_eq!(hex::text(&hmac(&hex::bytes(&key), &hex::bytes(&text))), digest);
        }
    }

    /// The bytes from one value to another, as RFC 5869 A.2 has them.
    fn run(from: u8, to: u8) -> Vec<u8> {
        (from..=to).collect()
    }

    /// RFC 5869 appendix A.1 to A.3: input, salt, info, pseudorandom key, output.
    #[test]
    fn hkdf_cases() {
        let zero_b = vec![0x0b; 22];
        let lines = [
            (
                zero_b.clone(),
                run(0x00, 0x0c),
                run(0xf0, 0xf9),
                "077709362c2e32df0ddc3f0dc47bba6390b6c73bb50f9c3122ec844ad7c2b3e5",
                "3cb25f25faacd57a90434f64d0362f2a2d2d0a90cf1a5a4c5db02d56ecc4c5bf34007208d5b887185865",
            ),
            (
                run(0x00, 0x4f),
                run(0x60, 0xaf),
                run(0xb0, 0xff),
                "06a6b88c5853361a06104c9ceb35b45cef760014904671014a193f40c15fc244",
                "b11e398dc80327a1c8e7f78c596a49344f012eda2d4efad8a050cc4c19afa97c59045a99cac7827271cb41c65e590e09\
                 da3275600c2f09b8367793a9aca3db71cc30c58179ec3e87c14c01d5c1f3434f1d87",
            ),
            (
                zero_b,
                vec![],
                vec![],
                "19ef24a32c717b167f33a91d6f648bdf96596776afdb6377ac434c1c293ccb04",
                "8da4e775a563c18f715f802a063c5a31b8a11f5c5ee1879ec3454e5f3c738d2d9d201395faa4b61a96c8",
            ),
        ];
        for (input, salt, info, prk, okm) in lines {
            let secret = extract(&salt, &input);
            assert_eq!(hex::text(&secret), prk);
            assert_eq!(hex::text(&expand(&secret, &info, okm.len() / 2)), okm);
        }
    }

    /// Document 003 appendix A.1 and docs/SCOPE.md, "Boundaries".
    #[test]
    fn infos() {
        let lines = [
            ("client in", 32, "00200f746c73313320636c69656e7420696e00"),
            ("server in", 32, "00200f746c7331332073657276657220696e00"),
            ("quicv2 key", 16, "001010746c73313320717569637632206b657900"),
            ("quicv2 iv", 12, "000c0f746c7331332071756963763220697600"),
            ("quicv2 hp", 16, "00100f746c7331332071756963763220687000"),
            ("quic key", 16, "00100e746c7331332071756963206b657900"),
            ("quic iv", 12, "000c0d746c733133207175696320697600"),
            ("quic hp", 16, "00100d746c733133207175696320687000"),
        ];
        for (label, length, info) in lines {
            assert_eq!(hex::text(&label_info(label, length)), info);
        }
    }
}
