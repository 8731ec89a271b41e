//! Every list for three buffers that stand in every way.

use differential::chain::{lead_through, put_next};
use differential::{Form, Image, FORMS};

use super::Run;
use crate::corner::fresh_of;
use crate::counts::Met;

const FREE_TAG: u32 = 0xf4ee_f4ee;
const ALLOCATED_TAG: u32 = 0xa110_c8ed;

/// Where a record names its buffer.
const ADDRESS: usize = 4;

/// The tag of a buffer: either pattern, or neither.
#[derive(Clone, Copy, PartialEq, Eq, Debug)]
enum Tag {
    Free,
    Allocated,
    Neither,
}

const TAGS: [Tag; 3] = [Tag::Free, Tag::Allocated, Tag::Neither];

/// How a buffer stands, but for the list.
#[derive(Clone, Copy, Debug)]
struct Standing {
    tag: Tag,
    is_met: bool,
}

/// The ways that one buffer can stand.
const STANDINGS: usize = 6;

fn standing(choice: usize) -> Standing {
    Standing {
        tag: TAGS[choice % 3],
        is_met: choice % STANDINGS >= 3,
    }
}

/// The rules from 21 to 24, and what is found of buffers whose bytes are sound.
fn expected_verdict(Standing { tag, is_met }: Standing, is_again: bool, times: usize) -> u32 {
    match (tag, is_met, times) {
        (Tag::Neither, _, _) => 21,
        _ if is_again => 22,
        (_, _, 2..) | (_, true, 1) => 22,
        (Tag::Free, true, _) => 0,
        (Tag::Free, false, 1) => 3,
        (Tag::Free, false, _) => 23,
        (Tag::Allocated, false, 0) => 1,
        (Tag::Allocated, _, _) => 24,
    }
}

/// Three buffers that stand so. Record 0 names buffer 2 and record 2 names buffer 0, and the
/// chain meets records in order; then it ends, or is again at its first.
fn standing_image(form: Form, standings: [Standing; 3], is_again: bool) -> Image {
    let mut image = fresh_of(form, 8, 3);
    for (buffer, standing) in standings.iter().enumerate() {
        let (record, t0, t1) = (2 - buffer, image.t0(buffer), image.t1(buffer));
        let named = image.record(record) + ADDRESS;
        image.put_record_word(named, image.shape.buffer_address(buffer));
        let address = image.record_address(record);
        image.put_heap_word(t0, address);
        let tag = match standing.tag {
            Tag::Free => FREE_TAG,
            Tag::Allocated => ALLOCATED_TAG,
            Tag::Neither => FREE_TAG ^ 1,
        };
        image.put_heap_word(t1, address ^ tag);
    }
    let chain = chain_of(standings);
    lead_through(&mut image, &chain);
    if let (true, Some(&last)) = (is_again, chain.last()) {
        let first = image.record_address(chain[0]);
        put_next(&mut image, last, first);
    }
    image
}

/// The records that the chain meets.
fn chain_of(standings: [Standing; 3]) -> Vec<usize> {
    let records = (0..3).filter(|record| standings[2 - record].is_met);
    records.collect()
}

/// Every list of up to three words, each one of three.
fn every_list(words: [u32; 3]) -> Vec<Vec<u32>> {
    let mut lists = vec![vec![]];
    for length in 1..=3 {
        for choice in 0..3usize.pow(length) {
            let word = |place: u32| words[choice / 3usize.pow(place) % 3];
            lists.push((0..length).map(word).collect());
        }
    }
    lists
}

/// Each of three buffers with either pattern or neither, on and off the chain, which ends or is
/// again at its first record; with every list of up to three of them.
#[test]
fn every_list_for_three_buffers() {
    let mut run = Run::new();
    for form in FORMS {
        for choice in 0..STANDINGS.pow(3) {
            let standings = [1, STANDINGS, STANDINGS * STANDINGS];
            let standings = standings.map(|step| standing(choice / step));
            for is_again in [false, true] {
                compare_lists(form, standings, is_again, &mut run);
            }
        }
    }
    let verdicts = [0, 1, 3, 21, 22, 23, 24].map(Met::Verdict);
    let listed = [3, 21, 22, 24].map(|number| Met::Listed(1, number));
    let twice = [21, 22].map(|number| Met::Listed(2, number));
    let wanted = [&verdicts[..], &listed, &twice].concat();
    run.finish("magazines, every list for three buffers", &wanted);
}

fn compare_lists(form: Form, standings: [Standing; 3], is_again: bool, run: &mut Run) {
    let mut image = standing_image(form, standings, is_again);
    let words = [0, 1, 2].map(|buffer| image.shape.buffer_address(buffer));
    let first = chain_of(standings).first().map(|record| 2 - record);
    for list in every_list(words) {
        let times = words.map(|word| list.iter().filter(|other| **other == word).count());
        image.magazines = list;
        let expected = [0, 1, 2].map(|buffer| {
            let is_first = is_again && first == Some(buffer);
            expected_verdict(standings[buffer], is_first, times[buffer])
        });
        let found = run.verdicts(&image, &image);
        assert_eq!(
            found.as_deref(),
            Ok(&expected[..]),
            "{standings:?}: {image}"
        );
    }
}
