//! The library's search for set bytes against the independent program's, through the C interface: every
//! short slice of few set bytes, and seeded long ones.

use against::next_set;
use against::random::Random;

/// Up to so many bytes every place is set, alone and with every other, and each of these starts is tried.
const SHORT: usize = 40;
const SHORT_STARTS: usize = 46;

/// Long slices, how long they are at most, and starts in each: so many anywhere and so many near its end.
const LONG_SLICES: usize = 2_000;
const LONG: usize = 70_000;
const LONG_STARTS: usize = 30;

/// How much lies on either side of a slice. A slice begins at each of so many places behind it, and so at
/// every byte of a word.
const MARGIN: usize = 8;
const OFFSETS: usize = 8;

/// What lies next to a slice on either side. All else there is set, so that a search that goes past an end
/// finds something: with a 0 first also some other place than the length.
const NEXT: [u8; 2] = [0xff, 0];

/// What a set byte holds: each bit alone, and all of them.
const VALUES: [u8; 9] = [1, 2, 4, 8, 16, 32, 64, 128, 255];

/// The number of bytes that are looked at as one word.
const WORD: usize = 8;

/// What was seen of the calls.
#[derive(Debug, Default)]
struct Seen {
    /// Starts at the end of a slice and past it.
    at_end: usize,
    past_end: usize,
    /// Calls before the end that find nothing: in a slice without set bytes, and in one where all of them are
    /// before the start.
    nothing: usize,
    nothing_but_before: usize,
    /// Calls that find something although a byte is set before the start.
    also_before: usize,
    /// What is found in whole words from the start on, by its place in its word; and in how many of these
    /// calls other words are passed over before.
    in_words: [usize; WORD],
    after_words: usize,
    /// What is found behind the whole words, by its place there.
    in_rest: [usize; WORD - 1],
    /// What is found by a single bit, by that bit.
    by_bit: [usize; 8],
}

impl Seen {
    fn note(&mut self, bytes: &[u8], start: usize, answer: usize) {
        if start >= bytes.len() {
            match start == bytes.len() {
                true => self.at_end += 1,
                false => self.past_end += 1,
            }
            return;
        }
        let is_before = bytes[..start].iter().any(|&byte| byte != 0);
        let Some(&found) = bytes.get(answer) else {
            match is_before {
                true => self.nothing_but_before += 1,
                false => self.nothing += 1,
            }
            return;
        };
        self.also_before += usize::from(is_before);
        let ahead = answer - start;
        let words = (bytes.len() - start) / WORD * WORD;
        if ahead < words {
            self.in_words[ahead % WORD] += 1;
            self.after_words += usize::from(ahead >= WORD);
        } else {
            self.in_rest[ahead - words] += 1;
        }
        if found.is_power_of_two() {
            self.by_bit[found.trailing_zeros() as usize] += 1;
        }
    }

    /// Prints what was seen, and wants each at least so many times.
    fn judge(&self, least: usize) {
        println!("{self:?}");
        let alone = [
            self.at_end,
            self.past_end,
            self.nothing,
            self.nothing_but_before,
            self.also_before,
            self.after_words,
        ];
        let seen = [&alone[..], &self.in_words, &self.in_rest, &self.by_bit].concat();
        assert!(seen.iter().all(|&times| times >= least), "{least}");
    }
}

fn compare(bytes: &[u8], start: usize, seen: &mut Seen) {
    let library = next_set(bytes, start);
    let independent = independent::next_set(bytes, start);
    assert!(
        library == independent,
        "{} bytes, set at {:?}, from {start}\nlibrary: {library}\nindependent: {independent}",
        bytes.len(),
        set_places(bytes)
    );
    seen.note(bytes, start, independent);
}

fn set_places(bytes: &[u8]) -> Vec<usize> {
    let places = 0..bytes.len();
    places.filter(|&place| bytes[place] != 0).collect()
}

/// A slice of zeros in a buffer, with something else on either side of it.
fn lay(buffer: &mut [u8], length: usize, offset: usize, next: u8) -> &mut [u8] {
    let start = MARGIN + offset;
    let end = start + length;
    buffer.fill(0xff);
    (buffer[start - 1], buffer[end]) = (next, next);
    buffer[start..end].fill(0);
    &mut buffer[start..end]
}

/// Tries so many bytes, with these alone set, wherever they lie and from every start.
fn compare_short(length: usize, set: &[(usize, u8)], seen: &mut Seen) {
    let mut buffer = [0; OFFSETS + SHORT + 2 * MARGIN];
    for n in 0..OFFSETS * NEXT.len() {
        let bytes = lay(&mut buffer, length, n % OFFSETS, NEXT[n / OFFSETS]);
        for &(place, value) in set {
            bytes[place] = value;
        }
        for start in 0..SHORT_STARTS {
            compare(bytes, start, seen);
        }
    }
}

#[test]
fn every_short_slice_of_at_most_two_set_bytes() {
    let mut seen = Seen::default();
    for length in 0..=SHORT {
        compare_short(length, &[], &mut seen);
        for place in 0..length {
            for value in VALUES {
                compare_short(length, &[(place, value)], &mut seen);
            }
            // With one more before it, the values in turn.
            for other in 0..place {
                let values = [place + other, place].map(|n| VALUES[n % VALUES.len()]);
                let set = [(other, values[0]), (place, values[1])];
                compare_short(length, &set, &mut seen);
            }
        }
    }
    seen.judge(10_000);
}

/// Sets few of the bytes, none or most; every other time one near their end.
fn set_some(bytes: &mut [u8], random: &mut Random) {
    let length = bytes.len();
    let count = match random.below(16) {
        0..=3 => random.below(2),
        4..=7 => length / 4096,
        8..=11 => length / 256,
        12..=14 => length / 16,
        _ => 2 * length,
    };
    for _ in 0..count {
        bytes[random.below(length)] = random.choose(&VALUES);
    }
    if random.coin() {
        bytes[near_end(length, random)] = random.choose(&VALUES);
    }
}

/// A place in the last words, below the length.
fn near_end(length: usize, random: &mut Random) -> usize {
    length.saturating_sub(1 + random.below(3 * WORD))
}

/// Starts past the end, some of which would not seem so if a number lost its upper bits or came round to 0.
fn starts_past(length: usize, random: &mut Random) -> [usize; 5] {
    [
        length + 1,
        length + 1 + random.below(100),
        (1 << 32) + random.below(length + 1),
        usize::MAX - random.below(2 * WORD),
        usize::MAX,
    ]
}

#[test]
fn seeded_long_slices() {
    let mut random = Random::new(51);
    let mut seen = Seen::default();
    for _ in 0..LONG_SLICES {
        let length = 1 + random.below(LONG);
        let mut buffer = vec![0; OFFSETS + length + 2 * MARGIN];
        let (offset, next) = (random.below(OFFSETS), random.choose(&NEXT));
        let bytes = lay(&mut buffer, length, offset, next);
        set_some(bytes, &mut random);
        for _ in 0..LONG_STARTS {
            compare(bytes, random.below(length), &mut seen);
            compare(bytes, near_end(length, &mut random), &mut seen);
        }
        compare(bytes, length, &mut seen);
        for start in starts_past(length, &mut random) {
            compare(bytes, start, &mut seen);
        }
        // From set byte to set byte.
        let mut place = next_set(bytes, 0);
        for expected in set_places(bytes) {
            assert_eq!(place, expected);
            place = next_set(bytes, place + 1);
        }
        assert_eq!(place, length);
    }
    seen.judge(100);
}

#[test]
fn examples() {
    let mut bytes = [0; 24];
    assert_eq!(next_set(&bytes, 0), 24);
    (bytes[7], bytes[8], bytes[23]) = (128, 1, 255);
    let starts = [0, 7, 8, 9, 23, 24, 25, usize::MAX];
    let answers = starts.map(|start| next_set(&bytes, start));
    assert_eq!(answers, [7, 7, 8, 23, 23, 24, 24, 24]);
    assert_eq!(next_set(&bytes[..23], 9), 23);
    assert_eq!([0, 1].map(|start| next_set(&[], start)), [0, 0]);
}
