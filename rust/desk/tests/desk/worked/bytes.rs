//! Bytes that are found and expected. Those of a fill and of a guard stand in the samples too.

use differential::{Form, Image};

use super::{assert_part, question};

#[test]
fn redzone() {
    let change = |image: &mut Image| image.heap[29] = 0;
    let part = "buffer 0 at 0x70a9add8: fault 26, bad_redzone at offset 29
  words      free, and the 8 bytes behind it were written to
  look       the task that held it before
  found      0x70a9adf0  fe ed fa ce fe 00 fa ce 70 ae 32 60 84 40 c6 8e
  expected               fe ed fa ce fe ed fa ce 70 ae 32 60 84 40 c6 8e
                                        ^^
  latest     thread 0x0 (nobody), uptime 0 ms, 0 ms ago, record 2
  left       none, it is the first buffer";
    assert_part(&question(Form::Short, change, Some(0)), "redzone", part);
}

/// R1 says that the grant is whole, and R0's first byte is hurt.
#[test]
fn whole_grant() {
    let change = |image: &mut Image| {
        image.put_heap_word(image.r1(1), 0xfeed_face);
        image.heap[64] = 0;
    };
    let part = "buffer 1 at 0x70a9ae00: fault 28, overrun at offset 24
  words      written to past the end of what was granted
  look       the task that holds it
  found      0x70a9ae14  bb dd ca fe 00 ed fa ce fe ed fa ce 70 ae 32 00
  expected               .. .. .. .. fe ed fa ce fe ed fa ce 70 ae 32 00
                                     ^^
  size code  R1 0xfeedface, the whole buffer
  latest     thread 0x0 (nobody), uptime 0 ms, 0 ms ago, record 1
  left       buffer 0 at 0x70a9add8: free; latest thread 0x0 (nobody), uptime 0 ms, 0 ms ago, \
               record 2";
    assert_part(&question(Form::High, change, Some(0)), "whole_grant", part);
}

/// The last byte of R0 of a grant of the full size, with the low byte first: its first byte is
/// the guard.
#[test]
fn full_grant() {
    let change = |image: &mut Image| {
        image.put_heap_word(image.r0(1), 0xfeed_fabb);
        image.put_heap_word(image.r1(1), 251 * 24 + 1);
        image.heap[67] = 0;
    };
    let part = "buffer 1 at 0x70a9ae00: fault 28, overrun at offset 27
  words      written to past the end of what was granted
  look       the task that holds it
  found      0x70a9ae14  bb ca dd ba bb fa ed 00 89 17 00 00 00 32 ae 70
  expected               .. .. .. .. bb fa ed fe 89 17 00 00 00 32 ae 70
                                              ^^
  size code  R1 0x00001789, which is 251 * 24 + 1
  latest     thread 0x0 (nobody), uptime 0 ms, 0 ms ago, record 1
  left       buffer 0 at 0x70a9add8: free; latest thread 0x0 (nobody), uptime 0 ms, 0 ms ago, \
               record 2";
    assert_part(&question(Form::Low, change, Some(0)), "full_grant", part);
}

#[test]
fn header() {
    let change = |image: &mut Image| image.put_heap_word(image.buffer(1), 0x15);
    let part = "buffer 1 at 0x70a9ae00: fault 30, bad_header
  words      the 8 bytes before the client's, which hold the grant's size, were written over
  look       the task that holds it; its left neighbour
  found      0x70a9ae00  15 00 00 00 ec bf 10 3a
  expected               14 00 00 00 ec bf 10 3a
  size code  R1 0x0000139d, which is 251 * 20 + 1
  latest     thread 0x0 (nobody), uptime 0 ms, 0 ms ago, record 1
  left       buffer 0 at 0x70a9add8: free; latest thread 0x0 (nobody), uptime 0 ms, 0 ms ago, \
               record 2";
    assert_part(&question(Form::UserLow, change, Some(0)), "header", part);
}

/// R1 says 5, so that the guard should stand in the header, which it goes before.
#[test]
fn guard_in_header() {
    let change = |image: &mut Image| {
        image.put_heap_word(image.r1(1), 251 * 5 + 1);
        image.put_header(1, 5);
    };
    let part = "buffer 1 at 0x70a9ae00: fault 28, overrun at offset 5
  words      written to past the end of what was granted
  look       the task that holds it
  found      0x70a9ae00  00 00 00 05 3a 10 bf fb 00 00 00 05 00 04 ef 83
  expected               00 00 00 05 3a bb bf fb .. .. .. .. .. .. .. ..
                                        ^^
  size code  R1 0x000004e8, which is 251 * 5 + 1
  latest     thread 0x0 (nobody), uptime 0 ms, 0 ms ago, record 1
  left       buffer 0 at 0x70a9add8: free; latest thread 0x0 (nobody), uptime 0 ms, 0 ms ago, \
               record 2";
    let question = question(Form::UserHigh, change, Some(0));
    assert_part(&question, "guard_in_header", part);
}
