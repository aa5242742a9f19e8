//! Exhaustive lists over small alphabets.

/// Every word over the alphabet of at most `longest` letters, the shorter first.
pub fn each_word(alphabet: &[u8], longest: usize, visit: &mut dyn FnMut(&[u8])) {
    for length in 0..=longest {
        let mut digits = vec![0; length];
        loop {
            let word: Vec<u8> = digits.iter().map(|&d| alphabet[d]).collect();
            visit(&word);
            if !step(&mut digits, alphabet.len()) {
                break;
            }
        }
    }
}

/// The next number of as many digits, or false after the last.
fn step(digits: &mut [usize], base: usize) -> bool {
    for digit in digits.iter_mut().rev() {
        *digit += 1;
        if *digit < base {
            return true;
        }
        *digit = 0;
    }
    false
}

pub fn words(alphabet: &[u8], longest: usize) -> Vec<Vec<u8>> {
    let mut list = Vec::new();
    each_word(alphabet, longest, &mut |word| list.push(word.to_vec()));
    list
}

/// Every legal key of 1 to `most` parts over the names `a` and `b`, with `?` and both bindings.
pub fn keys(most: usize) -> Vec<Vec<u8>> {
    const PARTS: [&[u8]; 6] = [b".a", b".b", b".?", b"*a", b"*b", b"*?"];
    let mut list = Vec::new();
    each_word(&[0, 1, 2, 3, 4, 5], most, &mut |word| {
        let parts: Vec<&[u8]> = word.iter().map(|&p| PARTS[p as usize]).collect();
        if parts.last().is_some_and(|part| part[1] != b'?') {
            list.push(parts.concat());
        }
    });
    list
}

/// Every well-formed query of at most `most` parts over these one-letter names, joined by dots.
pub fn queries(letters: &[u8], most: usize) -> Vec<Vec<u8>> {
    let joined = |word: Vec<u8>| word.iter().map(|&b| vec![b]).collect::<Vec<_>>().join(&b'.');
    words(letters, most).into_iter().map(joined).collect()
}
