//! SHA-256 (FIPS 180-4), by which the head of a table names its files.

/// The first 32 bits of the fractional parts of a root of the first primes: of the cube root for 64 of them, of the square root for 8.
fn constants<const N: usize>(root: impl Fn(f64) -> f64) -> [u32; N] {
    let is_prime = |n: &u32| (2..*n).all(|divisor| n % divisor != 0);
    let mut primes = (2..).filter(is_prime);
    std::array::from_fn(|_| (root(primes.next().unwrap().into()).fract() * 4_294_967_296.0) as u32)
}

/// The bytes of a message with its padding.
fn padded(message: &[u8]) -> Vec<u8> {
    let mut bytes = message.to_vec();
    bytes.push(0x80);
    bytes.resize((bytes.len() + 8).next_multiple_of(64) - 8, 0);
    bytes.extend((8 * message.len() as u64).to_be_bytes());
    bytes
}

/// The words of a block's schedule.
fn schedule(block: &[u8]) -> [u32; 64] {
    let mut words = [0u32; 64];
    for (word, bytes) in words.iter_mut().zip(block.as_chunks().0) {
        *word = u32::from_be_bytes(*bytes);
    }
    for t in 16..64 {
        let (x, y) = (words[t - 15], words[t - 2]);
        let low = x.rotate_right(7) ^ x.rotate_right(18) ^ (x >> 3);
        let high = y.rotate_right(17) ^ y.rotate_right(19) ^ (y >> 10);
        words[t] = words[t - 16].wrapping_add(low).wrapping_add(words[t - 7]).wrapping_add(high);
    }
    words
}

/// The hash of a message, in hexadecimal digits.
pub fn sha256(message: &[u8]) -> String {
    let (rounds, mut state) = (constants::<64>(f64::cbrt), constants::<8>(f64::sqrt));
    for block in padded(message).chunks(64) {
        let [mut a, mut b, mut c, mut d, mut e, mut f, mut g, mut h] = state;
        for (word, constant) in schedule(block).into_iter().zip(rounds) {
            let choice = (e & f) ^ (!e & g);
            let majority = (a & b) ^ (a & c) ^ (b & c);
            let one = e.rotate_right(6) ^ e.rotate_right(11) ^ e.rotate_right(25);
            let zero = a.rotate_right(2) ^ a.rotate_right(13) ^ a.rotate_right(22);
            let first = h.wrapping_add(one).wrapping_add(choice).wrapping_add(constant).wrapping_add(word);
            let second = zero.wrapping_add(majority);
            (h, g, f, e, d, c, b, a) = (g, f, e, d.wrapping_add(first), c, b, a, first.wrapping_add(second));
        }
        for (word, change) in state.iter_mut().zip([a, b, c, d, e, f, g, h]) {
            *word = word.wrapping_add(change);
        }
    }
    state.map(|word| format!("{word:08x}")).concat()
}
