//! Records, tags, the chain and magazines.

use differential::chain::put_next;
use differential::{Form, Image};

use super::{assert_part, put_record, question, FIRST, MIDDLE};

/// Where the buffer's address stands in a record.
const ADDRESS: usize = 4;

#[test]
fn not_one_record() {
    let change = |image: &mut Image| put_record(image, 0, ADDRESS, MIDDLE);
    let question = question(Form::High, change, None);
    let two = "buffer 1 at 0x70a9ae00: fault 20, not_one_record
  words      no record names the buffer, or more than one does
  look       what wrote over the records: the buffer may be sound
  records    0, 1 name it
  latest     refused 7, damage: not_one_record
  left       buffer 0 at 0x70a9add8: free; latest thread 0x0 (nobody), uptime 0 ms, record 2";
    assert_part(&question, "not_one_record", two);
    let none = "buffer 2 at 0x70a9ae28: fault 20, not_one_record
  words      no record names the buffer, or more than one does
  look       what wrote over the records: the buffer may be sound
  records    none names it
  latest     refused 7, damage: not_one_record
  left       buffer 1 at 0x70a9ae00: fault 20, not_one_record; latest refused 7, damage: not_one_record

no --now: latest is right if the uptime has not wrapped (it does every 49.7 days)";
    assert_part(&question, "not_one_record", none);
}

#[test]
fn bad_tag() {
    let change = |image: &mut Image| image.put_heap_word(image.t1(0), 0x8440_c68f);
    let part = "buffer 0 at 0x70a9add8: fault 21, bad_tag
  words      the tag does not name the buffer's record, or says neither free nor allocated
  look       the task that held it: the tag stands 8 bytes behind the buffer
  tag        T0 0x70ae3260, T1 0x8440c68f, T0 xor T1 0xf4eef4ef
  own        record 2 at 0x70ae3260
  latest     thread 0x0 (nobody), uptime 0 ms, record 2
  left       none, it is the first buffer";
    assert_part(&question(Form::Low, change, None), "bad_tag", part);
}

#[test]
fn chain_again() {
    let change = |image: &mut Image| put_next(image, 0, image.record_address(2));
    let part = "buffer 0 at 0x70a9add8: fault 22, freed_twice
  words      freed twice: the chain comes back to it, or it is in magazines twice or more, or in \
               one and on the chain
  look       the task that freed it last
  chain      place 1 of 2
  magazines  listed 0 times
  latest     thread 0x0 (nobody), uptime 0 ms, record 2
  left       none, it is the first buffer";
    assert_part(&question(Form::High, change, None), "chain_again", part);
}

#[test]
fn off_chain() {
    let change = |image: &mut Image| put_next(image, 2, 0);
    let part = "buffer 2 at 0x70a9ae28: fault 23, off_chain
  words      free, but neither on the chain nor in a magazine
  look       the chain, if it is broken or comes back; the magazine list, if none was given
  chain      not met
  magazines  listed 0 times
  latest     thread 0x0 (nobody), uptime 0 ms, record 0
  left       buffer 1 at 0x70a9ae00: allocated, size 20; latest thread 0x0 (nobody), uptime 0 ms, \
               record 1";
    assert_part(&question(Form::High, change, None), "off_chain", part);
}

#[test]
fn listed_while_allocated() {
    let change = |image: &mut Image| image.magazines = vec![MIDDLE];
    let part = "buffer 1 at 0x70a9ae00: fault 24, on_chain
  words      allocated, but on the chain or in a magazine
  look       the task that freed it and the task that holds it
  chain      not met
  magazines  listed 1 time
  latest     thread 0x0 (nobody), uptime 0 ms, record 1
  left       buffer 0 at 0x70a9add8: free; latest thread 0x0 (nobody), uptime 0 ms, record 2";
    let question = question(Form::High, change, None);
    assert_part(&question, "listed_while_allocated", part);
}

/// The chain leads from record 2 to record 1, and buffer 0 is listed twice.
#[test]
fn listed_twice() {
    let change = |image: &mut Image| {
        put_next(image, 2, image.record_address(1));
        image.magazines = vec![FIRST, FIRST];
    };
    let question = question(Form::High, change, Some(5));
    let listed = "buffer 0 at 0x70a9add8: fault 22, freed_twice
  words      freed twice: the chain comes back to it, or it is in magazines twice or more, or in \
                  one and on the chain
  look       the task that freed it last
  chain      place 1 of 2
  magazines  listed 2 times
  latest     thread 0x0 (nobody), uptime 0 ms, 5 ms ago, record 2
  left       none, it is the first buffer";
    assert_part(&question, "listed_twice", listed);
    let met = "buffer 1 at 0x70a9ae00: fault 24, on_chain
  words      allocated, but on the chain or in a magazine
  look       the task that freed it and the task that holds it
  chain      place 2 of 2
  magazines  listed 0 times
  latest     thread 0x0 (nobody), uptime 0 ms, 5 ms ago, record 1
  left       buffer 0 at 0x70a9add8: fault 22, freed_twice; latest thread 0x0 (nobody), uptime 0 ms, \
               5 ms ago, record 2";
    assert_part(&question, "listed_twice", met);
}
