//! SHA-256, by which a file is named.

/// The checksum in hexadecimal digits.
pub fn hex(bytes: &[u8]) -> String {
    let primes: Vec<u64> = (2u64..).filter(|n| (2..*n).take_while(|d| d * d <= *n).all(|d| n % d != 0)).take(64).collect();
    let keys: Vec<u32> = primes.iter().map(|&prime| root_part(prime, 3)).collect();
    let mut sums: Vec<u32> = primes[..8].iter().map(|&prime| root_part(prime, 2)).collect();
    let mut padded = bytes.to_vec();
    padded.push(0x80);
    let end = (padded.len() + 8).next_multiple_of(64);
    padded.resize(end, 0);
    padded[end - 8..].copy_from_slice(&(8 * bytes.len() as u64).to_be_bytes());
    for block in padded.chunks_exact(64) {
        let turned = turned(&sums, &schedule(block), &keys);
        sums.iter_mut().zip(turned).for_each(|(sum, more)| *sum = sum.wrapping_add(more));
    }
    sums.iter().map(|sum| format!("{sum:08x}")).collect()
}

/// The first 32 bits after the point of a prime's square or cube root, in whole numbers.
fn root_part(prime: u64, power: u32) -> u32 {
    let wanted = u128::from(prime) << (32 * power);
    let (mut low, mut high) = (0u128, 1u128 << 40);
    while high - low > 1 {
        let middle = (low + high) / 2;
        *(if middle.pow(power) <= wanted { &mut low } else { &mut high }) = middle;
    }
    low as u32
}

/// A block's 64 words.
fn schedule(block: &[u8]) -> Vec<u32> {
    let mut words: Vec<u32> = block.chunks_exact(4).map(|word| u32::from_be_bytes([word[0], word[1], word[2], word[3]])).collect();
    for at in 16..64 {
        let (early, late) = (words[at - 15], words[at - 2]);
        let early = early.rotate_right(7) ^ early.rotate_right(18) ^ (early >> 3);
        let late = late.rotate_right(17) ^ late.rotate_right(19) ^ (late >> 10);
        words.push(words[at - 16].wrapping_add(early).wrapping_add(words[at - 7]).wrapping_add(late));
    }
    words
}

/// The eight sums after a block's 64 turns.
fn turned(sums: &[u32], words: &[u32], keys: &[u32]) -> Vec<u32> {
    let mut v = sums.to_vec();
    for (word, key) in words.iter().zip(keys) {
        let chosen = (v[4] & v[5]) ^ (!v[4] & v[6]);
        let most = (v[0] & v[1]) ^ (v[0] & v[2]) ^ (v[1] & v[2]);
        let fifth = v[4].rotate_right(6) ^ v[4].rotate_right(11) ^ v[4].rotate_right(25);
        let first = v[0].rotate_right(2) ^ v[0].rotate_right(13) ^ v[0].rotate_right(22);
        let more = v[7].wrapping_add(fifth).wrapping_add(chosen).wrapping_add(*key).wrapping_add(*word);
        v.rotate_right(1);
        v[4] = v[4].wrapping_add(more);
        v[0] = more.wrapping_add(first).wrapping_add(most);
    }
    v
}

#[cfg(test)]
mod tests {
    use super::hex;

    /// The values of the standard, and every length about a block's end.
    #[test]
    fn values() {
        assert_eq!(hex(b""), "e3b0c44298fc1c149afbf4c8996fb92427ae41e4649b934ca495991b7852b855");
        assert_eq!(hex(b"abc"), "ba7816bf8f01cfea414140de5dae2223b00361a396177a9cb410ff61f20015ad");
        let two_blocks = b"abcdbcdecdefdefgefghfghighijhijkijkljklmklmnlmnomnopnopq";
        assert_eq!(hex(two_blocks), "248d6a61d20638b8e5c026930c3e6039a33ce45964ff2167f6ecedd419db06c1");
        for (length, sum) in
            [(55, "9f4390f8"), (56, "b35439a4"), (63, "7d3e74a0"), (64, "ffe054fe"), (119, "31eba51c"), (120, "2f3d335432c7")]
        {
            assert!(hex(&vec![b'a'; length]).starts_with(sum), "{length}");
        }
    }
}
