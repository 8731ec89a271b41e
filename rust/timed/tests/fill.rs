//! The fill test, in both of its forms, and the fill, by the rule itself: byte i of a
//! filled run is byte i mod 4 of the word, the highest first.

use differential::Sequence;
use timed::{difference_by_bytes, fill, first_difference};

const SEED: u64 = 0x51a7_0e4d;

/// The patterns of the rules, and words of equal bytes, of equal halves and of others.
const WORDS: [u32; 8] = [
    0xdead_beef,
    0xbadd_cafe,
    0xfeed_face,
    0x0000_0000,
    0xffff_ffff,
    0x0102_0304,
    0xabcd_abcd,
    0x8000_0001,
];

/// The lengths above the short ones.
const LONG: [usize; 4] = [112, 256, 1024, 4096];

/// Above this not every place is tried.
const EVERY_PLACE: usize = 300;

/// How many places are tried at each end of a longer run.
const AT_ENDS: usize = 40;

/// The most bytes that a run is moved from the start of what it lies in.
const MOST_SHIFT: usize = 7;

/// What stands around a run. It is in no fill with the words above.
const GUARD: u8 = 0x5c;

type Test = fn(&[u8], u32) -> Option<usize>;

/// Both forms of the fill test.
const TESTS: [(&str, Test); 2] = [
    ("first_difference", first_difference),
    ("difference_by_bytes", difference_by_bytes),
];

fn lengths() -> impl Iterator<Item = usize> {
    (0..=80).chain(LONG)
}

/// The run of a length that is filled with a word, by the rule.
fn filled(length: usize, word: u32) -> Vec<u8> {
    (0..length).map(|i| word.to_be_bytes()[i % 4]).collect()
}

/// Where a byte is changed: everywhere, or at both ends of a long run and between.
fn places(length: usize) -> Vec<usize> {
    if length <= EVERY_PLACE {
        return (0..length).collect();
    }
    let between = (AT_ENDS + 1..length - AT_ENDS).step_by(37);
    let ends = (0..=AT_ENDS).chain(length - AT_ENDS..length);
    ends.chain(between).collect()
}

/// A run in a longer one, so many bytes from its start, with guards around it.
fn shifted(run: &[u8], shift: usize) -> Vec<u8> {
    let mut all = vec![GUARD; shift];
    all.extend_from_slice(run);
    all.resize(all.len() + 8, GUARD);
    all
}

/// Both forms answer this place, for the run at every shift.
fn assert_place(run: &[u8], word: u32, expected: Option<usize>, count: &mut usize) {
    for shift in 0..=MOST_SHIFT {
        let all = shifted(run, shift);
        let lent = &all[shift..shift + run.len()];
        for (name, test) in TESTS {
            let length = run.len();
            let story = format!("{name}, {length} bytes from {shift} on, {word:#010x}");
            assert_eq!(test(lent, word), expected, "{story}");
            *count += 1;
        }
    }
}

#[test]
fn no_difference() {
    let mut count = 0;
    for length in lengths() {
        for word in WORDS {
            assert_place(&filled(length, word), word, None, &mut count);
        }
    }
    println!("fill test, no difference: {count} calls");
    assert_ne!(count, 0);
}

/// One byte is changed, to one that differs in a single bit or in all.
#[test]
fn one_difference() {
    let mut sequence = Sequence::new(SEED);
    let mut count = 0;
    for length in lengths() {
        for word in WORDS {
            let mut run = filled(length, word);
            for place in places(length) {
                let stood = run[place];
                run[place] ^= sequence.pick(&[0x01, 0x10, 0x80, 0xff]);
                assert_place(&run, word, Some(place), &mut count);
                run[place] = stood;
            }
        }
    }
    println!("fill test, one difference, seed {SEED:#x}: {count} calls");
    assert_ne!(count, 0);
}

/// Two bytes are changed: each pair in the shortest runs, some in the longer ones. The
/// lower place counts, whichever byte differs by more.
#[test]
fn two_differences() {
    let mut sequence = Sequence::new(SEED);
    let mut count = 0;
    for length in lengths() {
        for word in WORDS {
            let run = filled(length, word);
            for (first, second) in some_pairs(length, &mut sequence) {
                let mut run = run.clone();
                run[first] ^= sequence.pick(&[0x01, 0x80, 0xff]);
                run[second] ^= sequence.pick(&[0x01, 0x80, 0xff]);
                assert_place(&run, word, Some(first.min(second)), &mut count);
            }
        }
    }
    println!("fill test, two differences, seed {SEED:#x}: {count} calls");
    assert_ne!(count, 0);
}

/// Pairs of different places.
fn some_pairs(length: usize, sequence: &mut Sequence) -> Vec<(usize, usize)> {
    if length <= 16 {
        let pairs = (0..length).flat_map(|one| (0..length).map(move |other| (one, other)));
        return pairs.filter(|(one, other)| one < other).collect();
    }
    let mut pairs: Vec<_> = (0..32)
        .map(|_| (sequence.below(length), sequence.below(length)))
        .collect();
    pairs.retain(|(one, other)| one != other);
    pairs
}

/// The bytes before and after a run do not count, even where they go on with its fill or
/// break it.
#[test]
fn bytes_around_a_run() {
    let mut count = 0;
    for length in 0..=80 {
        for word in WORDS {
            let all = filled(length + 2 * 8, word);
            for start in [4, 8] {
                for (name, test) in TESTS {
                    let mut all = all.clone();
                    assert_eq!(test(&all[start..start + length], word), None, "{name}");
                    all[start - 1] ^= 0xff;
                    all[start + length] ^= 0xff;
                    assert_eq!(test(&all[start..start + length], word), None, "{name}");
                    count += 2;
                }
            }
        }
    }
    println!("fill test, bytes around a run: {count} calls");
    assert_ne!(count, 0);
}

/// Lengths that are multiples of 8 are filled; others are refused and change nothing. The
/// bytes around stay.
#[test]
fn fills() {
    let mut sequence = Sequence::new(SEED);
    let (mut written, mut refused) = (0, 0);
    let longer = LONG.into_iter().flat_map(|length| [length - 1, length + 4]);
    for length in lengths().chain(longer) {
        for word in WORDS {
            for shift in 0..=MOST_SHIFT {
                let before = shifted(&sequence.bytes(length), shift);
                let is_lawful = length % 8 == 0;
                let mut expected = before.clone();
                if is_lawful {
                    expected[shift..shift + length].copy_from_slice(&filled(length, word));
                }
                let mut all = before.clone();
                let answer = fill(&mut all[shift..shift + length], word);
                let story = format!("{length} bytes from {shift} on, {word:#010x}");
                assert_eq!(answer, is_lawful, "{story}");
                assert!(all == expected, "{story}: other bytes");
                written += usize::from(is_lawful);
                refused += usize::from(!is_lawful);
            }
        }
    }
    println!("fill, seed {SEED:#x}: {written} calls wrote, {refused} were refused");
    assert!(written > 0 && refused > 0);
}
