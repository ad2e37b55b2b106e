//! AES-128 (FIPS 197).

/// The state of section 3.4, column by column: the byte of row r and column c stands at r + 4c.
type State = [u8; 16];

/// Section 5.1.1: the inverse in the field, then the affine step.
const S_BOX: [u8; 256] = s_box();

const fn s_box() -> [u8; 256] {
    let mut table = [0; 256];
    let mut value = 0;
    while value < 256 {
        let b = inverse(value as u8);
        table[value] = b ^ b.rotate_left(1) ^ b.rotate_left(2) ^ b.rotate_left(3) ^ b.rotate_left(4) ^ 0x63;
        value += 1;
    }
    table
}

/// Section 4.2.1: the product with x, modulo x^8 + x^4 + x^3 + x + 1.
const fn xtime(a: u8) -> u8 {
    (a << 1) ^ ((a >> 7) * 0x1b)
}

/// Section 4.2: the product in the field.
const fn product(mut a: u8, mut b: u8) -> u8 {
    let mut sum = 0;
    while b > 0 {
        if b & 1 == 1 {
            sum ^= a;
        }
        a = xtime(a);
        b >>= 1;
    }
    sum
}

/// The inverse as the 254th power, a^2 · a^4 · .. · a^128, which is 0 for 0.
const fn inverse(a: u8) -> u8 {
    let mut power = a;
    let mut result = 1;
    let mut squarings = 0;
    while squarings < 7 {
        power = product(power, power);
        result = product(result, power);
        squarings += 1;
    }
    result
}

/// An expanded key.
pub struct Aes128 {
    round_keys: [State; 11],
}

impl Aes128 {
    /// Section 5.2: key expansion.
    pub fn new(key: &[u8; 16]) -> Aes128 {
        let mut round_keys = [*key; 11];
        let mut round_constant = 1;
        for round in 1..11 {
            let previous = round_keys[round - 1];
            // SubWord(RotWord(temp)) XOR Rcon, on the last word of the round key before
            let mut word = [13, 14, 15, 12].map(|at: usize| S_BOX[usize::from(previous[at])]);
            word[0] ^= round_constant;
            for (at, byte) in previous.iter().enumerate() {
                word[at % 4] ^= byte;
                round_keys[round][at] = word[at % 4];
            }
            round_constant = xtime(round_constant);
        }
        Aes128 { round_keys }
    }

    /// Section 5.1: the cipher of one block.
    pub fn encrypt(&self, block: [u8; 16]) -> [u8; 16] {
        let mut state = add_round_key(block, &self.round_keys[0]);
        for round_key in &self.round_keys[1..10] {
            state = add_round_key(mix_columns(shift_rows(sub_bytes(state))), round_key);
        }
        add_round_key(shift_rows(sub_bytes(state)), &self.round_keys[10])
    }
}

/// Section 5.1.1.
fn sub_bytes(state: State) -> State {
    state.map(|byte| S_BOX[usize::from(byte)])
}

/// Section 5.1.2: row r moves r places to the left.
fn shift_rows(state: State) -> State {
    let mut shifted = [0; 16];
    for (at, byte) in shifted.iter_mut().enumerate() {
        let (row, column) = (at % 4, at / 4);
        *byte = state[row + 4 * ((column + row) % 4)];
    }
    shifted
}

/// Section 5.1.3: each column times 3x^3 + x^2 + x + 2.
fn mix_columns(state: State) -> State {
    let mut mixed = [0; 16];
    for (new, old) in mixed.chunks_exact_mut(4).zip(state.chunks_exact(4)) {
        for row in 0..4 {
            let (a, b, c, d) = (old[row], old[(row + 1) % 4], old[(row + 2) % 4], old[(row + 3) % 4]);
            // 2a + 3b + c + d, where 3b = 2b + b
            new[row] = xtime(a ^ b) ^ b ^ c ^ d;
        }
    }
    mixed
}

/// Section 5.1.4.
fn add_round_key(state: State, round_key: &State) -> State {
    let mut sum = state;
    for (byte, key) in sum.iter_mut().zip(round_key) {
        *byte ^= key;
    }
    sum
}

#[cfg(test)]
mod tests {
    use super::*;
    use crate::hex;

    #[test]
    fn s_box_entries() {
        // the inverse is one, over the whole field
        for a in 1..=255 {
            assert_eq!(product(a, inverse(a)), 1);
        }
        assert_eq!(inverse(0), 0);
        // FIPS 197 figure 7: row 0 and row f
        assert_eq!(hex::text(&S_BOX[..16]), "637c777bf26b6fc53001672bfed7ab76");
        assert_eq!(hex::text(&S_BOX[240..]), "8ca1890dbfe6426841992d0fb054bb16");
    }

    /// FIPS 197 appendix A.1.
    #[test]
    fn expansion() {
        let aes = Aes128::new(&hex::array("2b7e151628aed2a6abf7158809cf4f3c"));
        let words = "2b7e151628aed2a6abf7158809cf4f3ca0fafe1788542cb123a339392a6c7605f2c295f27a96b9435935807a7359f67f\
                     3d80477d4716fe3e1e237e446d7a883bef44a541a8525b7fb671253bdb0bad00d4d1c6f87c839d87caf2b8bc11f915bc\
                     6d88a37a110b3efddbf98641ca0093fd4e54f70e5f5fc9f384a64fb24ea6dc4fead27321b58dbad2312bf5607f8d292f\
                     ac7766f319fadc2128d12941575c006ed014f9a8c9ee2589e13f0cc8b6630ca6";
        assert_eq!(hex::text(&aes.round_keys.concat()), words);
    }

    /// FIPS 197 appendix B and C.1, the zero block, and the masks of RFC 9001 A.2 and A.3.
    #[test]
    fn blocks() {
        let lines = [
            (
                "2b7e151628aed2a6abf7158809cf4f3c",
                "3243f6a8885a308d313198a2e0370734",
                "3925841d02dc09fbdc118597196a0b32",
            ),
            (
                "000102030405060708090a0b0c0d0e0f",
                "00112233445566778899aabbccddeeff",
                "69c4e0d86a7b0430d8cdb78070b4c55a",
            ),
            (
                "00000000000000000000000000000000",
                "00000000000000000000000000000000",
                "66e94bd4ef8a2c3b884cfa59ca342b2e",
            ),
            ("9f50449e04a0e810283a1e9933adedd2", "d1b1c98dd7689fb8ec11d242b123dc9b", "437b9aec36"),
            ("c206b8d9b9f0f37644430b490eeaa314", "2cd0991cd25b0aac406a5816b6394100", "2ec0d8356a"),
        ];
        for (key, block, cipher) in lines {
            let encrypted = Aes128::new(&hex::array(key)).encrypt(hex::array(block));
            assert!(hex::text(&encrypted).starts_with(cipher));
        }
    }
}
