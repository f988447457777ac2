//! SHA-256 (FIPS 180-4), by which a file is told from another. Nothing here comes from a registry.

/// The first 32 bits of the fractional part of a root of a number: 2 for its square root, 3 for its cube root.
fn fraction(of: u32, root: u32) -> u32 {
    let shifted = u128::from(of) << (32 * root);
    let (mut low, mut high) = (0u128, 1 << 40);
    while high - low > 1 {
        let middle = (low + high) / 2;
        if middle.pow(root) <= shifted {
            low = middle;
        } else {
            high = middle;
        }
    }
    low as u32
}

fn primes() -> impl Iterator<Item = u32> {
    (2u32..).filter(|&number| (2..number).all(|divisor| number % divisor != 0))
}

/// The words that the rounds of a block take.
fn schedule(block: &[u8]) -> [u32; 64] {
    let mut words = [0; 64];
    for (word, four) in words.iter_mut().zip(block.chunks_exact(4)) {
        *word = u32::from_be_bytes(four.try_into().expect("a chunk has four bytes"));
    }
    for i in 16..64 {
        let (a, b) = (words[i - 15], words[i - 2]);
        let first = a.rotate_right(7) ^ a.rotate_right(18) ^ a >> 3;
        let second = b.rotate_right(17) ^ b.rotate_right(19) ^ b >> 10;
        words[i] = words[i - 16].wrapping_add(first).wrapping_add(words[i - 7]).wrapping_add(second);
    }
    words
}

fn compress(state: &mut [u32; 8], block: &[u8], constants: &[u32]) {
    let [mut a, mut b, mut c, mut d, mut e, mut f, mut g, mut h] = *state;
    for (word, constant) in schedule(block).into_iter().zip(constants) {
        let choice = e & f ^ !e & g;
        let second = e.rotate_right(6) ^ e.rotate_right(11) ^ e.rotate_right(25);
        let first = h.wrapping_add(second).wrapping_add(choice).wrapping_add(*constant).wrapping_add(word);
        let majority = a & b ^ a & c ^ b & c;
        let third = a.rotate_right(2) ^ a.rotate_right(13) ^ a.rotate_right(22);
        (h, g, f, e) = (g, f, e, d.wrapping_add(first));
        (d, c, b, a) = (c, b, a, first.wrapping_add(third).wrapping_add(majority));
    }
    for (sum, new) in state.iter_mut().zip([a, b, c, d, e, f, g, h]) {
        *sum = sum.wrapping_add(new);
    }
}

/// The digest of some data, in hex.
pub fn hex(data: &[u8]) -> String {
    let constants: Vec<u32> = primes().take(64).map(|prime| fraction(prime, 3)).collect();
    let mut state: [u32; 8] = [0; 8];
    state.iter_mut().zip(primes()).for_each(|(word, prime)| *word = fraction(prime, 2));
    let mut padded = data.to_vec();
    padded.push(0x80);
    padded.resize((padded.len() + 8).next_multiple_of(64) - 8, 0);
    padded.extend((8 * data.len() as u64).to_be_bytes());
    padded.chunks_exact(64).for_each(|block| compress(&mut state, block, &constants));
    state.iter().map(|word| format!("{word:08x}")).collect()
}

#[cfg(test)]
mod tests {
    use super::hex;

    /// Examples of the standard, and lengths at which the padding takes a block more.
    #[test]
    fn known_digests() {
        for (data, digest) in [
            ("".to_owned(), "e3b0c44298fc1c149afbf4c8996fb92427ae41e4649b934ca495991b7852b855"),
            ("abc".to_owned(), "ba7816bf8f01cfea414140de5dae2223b00361a396177a9cb410ff61f20015ad"),
            ("a".repeat(55), "9f4390f8d30c2dd92ec9f095b65e2b9ae9b0a925a5258e241c9f1e910f734318"),
            ("a".repeat(56), "b35439a4ac6f0948b6d6f9e3c6af0f5f590ce20f1bde7090ef7970686ec6738a"),
            ("a".repeat(64), "ffe054fe7ae0cb6dc65c3af9b61d5209f439851db43d0ba5997337df154668eb"),
            ("a".repeat(1_000_000), "cdc76e5c9914fb9281a1c7e284d73e67f1809a48a497200e046d39ccc7112cd0"),
        ] {
            assert_eq!(hex(data.as_bytes()), digest, "{} bytes", data.len());
        }
    }
}
