//! The report's first lines, and whole maps.

use differential::chain::put_next;
use differential::samples::corrupt;
use differential::{Form, Image, Sequence};
use reference::Profile;

use super::{question, LAST, SEED};
use crate::expected::{map_text, open, report_text};
use crate::question::{ask, Question};

fn assert_start(question: &Question, name: &str, start: &str) {
    let mut sequence = Sequence::new(SEED);
    let text = report_text(&open(question).expect("the dump is not refused"));
    assert!(text.starts_with(start), "{text}\ndoes not start\n{start}");
    let text = ask(question, &["report"], name, &mut sequence).stdout_text();
    assert!(text.starts_with(start), "{text}\ndoes not start\n{start}");
}

/// The chain leads to no record behind its first, and the buffer that it should meet then is
/// in a magazine.
#[test]
fn broken_chain() {
    let change = |image: &mut Image| {
        put_next(image, 2, 0x1234);
        image.magazines = vec![LAST];
    };
    let start = "heap report 1
0 free          0x70a9add8  free
1 allocated 20  0x70a9ae00  allocated, size 20
2 cached        0x70a9ae28  free in a magazine
chain 1 broken              the chain of free buffers leads to no record
faults 0
";
    let question = question(Form::Low, change, None);
    assert_start(&question, "broken_chain", start);
}

#[test]
fn chain_that_comes_back() {
    let change = |image: &mut Image| put_next(image, 0, image.record_address(0));
    let start = "heap report 1
0 free           0x70a9add8  free
1 allocated 12   0x70a9ae00  allocated, size 12
2 fault 22       0x70a9ae28  freed twice: the chain comes back to it, or it is in magazines twice \
                 or more, or in one and on the chain
chain 2 again 0              the chain of free buffers comes back to record 0
faults 1

buffer 2 at ";
    let question = question(Form::UserShort, change, None);
    assert_start(&question, "chain_that_comes_back", start);
}

fn assert_map(question: &Question, name: &str, map: &str) {
    let mut sequence = Sequence::new(SEED);
    let text = map_text(&open(question).expect("the dump is not refused"));
    assert_eq!(text, map);
    let ran = ask(question, &["map"], name, &mut sequence);
    assert_eq!(ran.stdout_text(), map);
}

#[test]
fn map_of_a_sound_image() {
    let change = |image: &mut Image| {
        put_next(image, 2, 0);
        image.magazines = vec![LAST];
    };
    let map = "3 buffers of 24 bytes from 0x70a9add8 on, 40 bytes apart
0x70a9add8  f@1     a       c

f      1  free
a      1  allocated
c      1  free in a magazine
@K        the chain's K-th record is the buffer's
chain 1 end
";
    let question = question(Form::Low, change, None);
    assert_map(&question, "map_of_a_sound_image", map);
}

#[test]
fn map_of_a_hurt_image() {
    let change = |image: &mut Image| {
        put_next(image, 0, image.record_address(0));
        image.heap[7] = 0;
        image.put_heap_word(image.r1(1), 0xfeed_face);
    };
    let map = "3 buffers of 24 bytes from 0x70a9add8 on, 40 bytes apart
0x70a9add8  !25@1   w       !22@2

w      1  allocated whole
!22    1  freed twice: the chain comes back to it, or it is in magazines twice or more, or in one \
               and on the chain
!25    1  written to after it was freed
@K        the chain's K-th record is the buffer's
chain 2 again 0
";
    let question = question(Form::High, change, None);
    assert_map(&question, "map_of_a_hurt_image", map);
}

#[test]
fn map_of_one_buffer() {
    let mut image = corrupt(Form::Short);
    image.put_head(0);
    let map = "1 buffer of 24 bytes from 0x702babc0 on, 40 bytes apart
0x702babc0  !23

!23    1  free, but neither on the chain nor in a magazine
chain 0 end
";
    let question = Question::plain(Profile::Kernel, image.input());
    assert_map(&question, "map_of_one_buffer", map);
}
