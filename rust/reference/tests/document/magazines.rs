//! "Magazines hold free buffers too": what a magazine list makes of each verdict, the
//! refusals of a list, and the report, in both orders and under both profiles.

use crate::image::*;
use crate::made::*;
use reference::*;

/// T1 of buffer 0 with the allocated pattern, by its own record 2: 0x70ae3260 xor
/// 0xa110c8ed = 0xd1befa8d; 0x70ae3268 xor 0xa110c8ed = 0xd1befa85.
fn allocated_t1(form: Form) -> u32 {
    form.of(0xd1befa8d, 0xd1befa85)
}

/// Chains that do not meet record 2, each by its head and the next word of record 2: one
/// that ends at once, one that is broken, and one that meets record 0 alone.
fn off_chain(form: Form) -> [[u32; 2]; 3] {
    [[0, 0], [5, 0], [form.record(0), 0]]
}

/// Chains that meet record 2 once: they end or are broken there, or go on to record 0.
fn on_chain(form: Form) -> [[u32; 2]; 3] {
    let record = form.record(2);
    [[record, 0], [record, 5], [record, form.record(0)]]
}

/// The chain that is "again" at record 2.
fn again(form: Form) -> [[u32; 2]; 1] {
    [[form.record(2), form.record(2)]]
}

/// All of these chains.
fn every_chain(form: Form) -> Vec<[u32; 2]> {
    [&off_chain(form)[..], &on_chain(form), &again(form)].concat()
}

/// Expects these verdicts on buffer 0, without size or offset, where it is listed 0, 1, 2
/// and 3 times, under each of these chains.
fn expect(image: &Image, chains: &[[u32; 2]], expected: [u32; 4]) {
    for &[head, next] in chains {
        let mut image = image.clone();
        put_sheet(&mut image.sheet, HEAD, head);
        image.put_record(image.form.place(2) + NEXT, next);
        for (times, number) in expected.into_iter().enumerate() {
            let found = verdicts_with(&image, &vec![BUFFER_0; times])[0];
            assert_eq!(found, (number, 0), "{head:x} {next:x} {times}");
        }
    }
}

/// The dump with buffers 0 and 2 off the chain.
fn dump_off_chain(form: Form) -> Image {
    dump_with_head(form, 0)
}

/// The dump with buffer 0 off the chain and buffer 2 on it.
fn dump_half_off_chain(form: Form) -> Image {
    dump_with_head(form, form.record(0))
}

/// Every list of the three buffers, each once, in some order.
const ORDERS: [[u32; 3]; 6] = [
    [BUFFER_0, BUFFER_1, BUFFER_2],
    [BUFFER_0, BUFFER_2, BUFFER_1],
    [BUFFER_1, BUFFER_0, BUFFER_2],
    [BUFFER_1, BUFFER_2, BUFFER_0],
    [BUFFER_2, BUFFER_0, BUFFER_1],
    [BUFFER_2, BUFFER_1, BUFFER_0],
];

/// Words that are no buffer's start in the dump: before, inside and past the heap, in the
/// records, a start the other way round, and the ends of the number range.
const NO_STARTS: [u32; 12] = [
    0,
    1,
    0xffff_ffff,
    BUFFER_0 - 40,
    BUFFER_0 - 1,
    BUFFER_0 + 1,
    BUFFER_0 + 24,
    BUFFER_1 + 8,
    BUFFER_2 + 40,
    0x70ae_31a0,
    0xd8ad_a970,
    BUFFER_0 & 0xffff,
];

/// What stands in a row that no call may touch.
const KEPT: Finding = Finding {
    index: 77,
    verdict: Verdict::BadHeader,
};

/// Expects a refusal of inspect and report, with room enough and with none, and every row
/// and output byte as before.
fn both_refuse(image: &Image, magazines: &[u32], number: u8) {
    for room in [0, 512] {
        let mut rows = vec![KEPT; room];
        let answer = inspected(image, magazines, &mut rows);
        assert_eq!(answer, refused(number), "{magazines:x?}");
        assert!(rows.iter().all(|row| *row == KEPT));

        let mut output = vec![b'x'; 16 * room];
        let answer = reported(image, magazines, &[], &mut output);
        assert_eq!(answer, refused(number), "{magazines:x?}");
        assert!(output.iter().all(|byte| *byte == b'x'));
    }
}

#[test]
fn number_and_value_of_verdict_3() {
    assert_eq!(Verdict::Cached.number(), 3);
    assert_eq!(Verdict::Cached.value(), 0);
    for form in FORMS {
        let rows = findings_with(&dump_off_chain(form), &[BUFFER_2]);
        assert_eq!(rows[2].verdict, Verdict::Cached);
    }
}

/// "Off the chain and listed once is the new verdict 3." "Listed twice or more, or listed
/// and on the chain, it is 22." "Off both, 23 stays."
#[test]
fn free_pattern_by_chain_and_listings() {
    for form in FORMS {
        let image = dump(form);
        expect(&image, &off_chain(form), [23, 3, 22, 22]);
        expect(&image, &on_chain(form), [0, 22, 22, 22]);
        expect(&image, &again(form), [22; 4]);
    }
}

/// "Of any pattern", 22; "otherwise, listed with the allocated pattern, 24". Unlisted and
/// off the chain, buffer 0 is whole.
#[test]
fn allocated_pattern_by_chain_and_listings() {
    for form in FORMS {
        let mut image = dump(form);
        image.put_heap(CHUNK[0] + T1, allocated_t1(form));
        expect(&image, &off_chain(form), [1, 24, 22, 22]);
        expect(&image, &on_chain(form), [24, 22, 22, 22]);
        expect(&image, &again(form), [22; 4]);
    }
}

/// Rule 21 comes before the rules on the list: "first rule that holds".
#[test]
fn verdict_21_comes_before_the_list() {
    for form in FORMS {
        let mut image = dump(form);
        image.put_heap(CHUNK[0] + T1, 0);
        expect(&image, &every_chain(form), [21; 4]);

        // The free and the allocated pattern on record 0: 0x70ae31a0 xor 0xf4eef4ee =
        // 0x8440c54e, xor 0xa110c8ed = 0xd1bef94d.
        for t1 in [0x8440c54e, 0xd1bef94d] {
            image.put_heap(CHUNK[0] + T0, form.record(0));
            image.put_heap(CHUNK[0] + T1, t1);
            expect(&image, &every_chain(form), [21; 4]);
        }
    }
}

/// Rule 20 comes before the rules on the list, whatever the pattern.
#[test]
fn verdict_20_comes_before_the_list() {
    for form in FORMS {
        for t1 in [form.of(0x8440c68e, 0x8440c686), allocated_t1(form), 0] {
            let mut image = dump(form);
            image.put_heap(CHUNK[0] + T1, t1);
            image.put_record(form.place(1) + ADDRESS, BUFFER_0);
            expect(&image, &every_chain(form), [20; 4]);
            image.put_record(form.place(1) + ADDRESS, 0);
            image.put_record(form.place(2) + ADDRESS, 0);
            expect(&image, &every_chain(form), [20; 4]);
        }
    }
}

/// The chain is "again" at record 0. Record 2 is met once, or not at all.
#[test]
fn chain_that_is_again_at_another_record() {
    for form in FORMS {
        let mut image = dump(form);
        image.put_record(form.place(0) + NEXT, form.record(0));
        expect(&image, &on_chain(form)[2..], [0, 22, 22, 22]);
        expect(&image, &off_chain(form)[2..], [23, 3, 22, 22]);
        assert_eq!(verdicts_with(&image, &[BUFFER_2])[2], (22, 0));
    }
}

/// "After its fill and redzone pass rules 25 and 26", each with the first offset.
#[test]
fn verdicts_25_and_26_of_a_listed_buffer() {
    for form in FORMS {
        for offset in 0..32 {
            let mut image = dump_half_off_chain(form);
            let expected = (if offset < 24 { 25 } else { 26 }, offset as u32);
            image.heap[offset] ^= 0x40;
            assert_eq!(verdicts_with(&image, &[BUFFER_0])[0], expected);
            image.heap[31] ^= 1;
            assert_eq!(verdicts_with(&image, &[BUFFER_0])[0], expected);
            // The others are as they were.
            let others = [(2, dump_size(form)), (0, 0)];
            assert_eq!(verdicts_with(&image, &[BUFFER_0])[1..], others);
        }
    }
}

/// 22 and 23 come before 25 and 26.
#[test]
fn bad_fill_or_redzone_by_chain_and_listings() {
    for form in FORMS {
        for offset in [0, 23, 24, 31] {
            let mut image = dump_half_off_chain(form);
            image.heap[offset] ^= 0x40;
            for times in 2..=3 {
                let found = verdicts_with(&image, &vec![BUFFER_0; times])[0];
                assert_eq!(found, (22, 0));
            }
            assert_eq!(verdicts_with(&image, &[])[0], (23, 0));
            put_sheet(&mut image.sheet, HEAD, form.record(2));
            assert_eq!(verdicts_with(&image, &[BUFFER_0])[0], (22, 0));
        }
    }
}

/// The fill of a grant and that of the other order are no free fill.
#[test]
fn other_fills_of_a_listed_buffer() {
    for form in FORMS {
        for fill in [0xbaddcafe, 0xefbeadde] {
            let mut image = dump_off_chain(form);
            image.heap[..24].copy_from_slice(&form.words(&[fill; 6]));
            assert_eq!(verdicts_with(&image, &[BUFFER_0])[0], (25, 0));
        }
    }
}

/// The dump with buffer 1 of the allocated pattern and off the chain, sound and with each
/// hurt, and its verdict with an empty list: 0x139e, 1 and 0x1884 are the codes of P5, P6
/// and P8.
fn allocated_images(form: Form) -> Vec<(Image, u32)> {
    let mut guard = dump(form);
    guard.heap[CHUNK[1] + 20] = 0;
    let mut images = vec![
        (dump(form), 2),
        (dump_full(form), 2),
        (dump_whole(form), 1),
        (dump_with_redzone(form, 0xfeedface, 0x139e), 27),
        (dump_with_redzone(form, 0xfeedface, 1), 31),
        (dump_with_redzone(form, 0xfeedface, 0x1884), 32),
        (dump_with_redzone(form, 0, 0xfeedface), 28),
        (guard, 28),
    ];
    if USER_FORMS.contains(&form) {
        let mut header = dump(form);
        header.heap[CHUNK[1] + 7] ^= 1;
        images.push((header, 30));
    }
    images
}

/// 24 and 22 come before the rules on the redzone, the guard and the header.
#[test]
fn listed_buffer_with_the_allocated_pattern() {
    for form in FORMS {
        for (image, alone) in allocated_images(form) {
            assert_eq!(verdicts(&image)[1].0, alone);
            let others = verdicts_with(&image, &[BUFFER_1]);
            assert_eq!(others, [(0, 0), (24, 0), (0, 0)]);
            for times in 2..=3 {
                let found = verdicts_with(&image, &vec![BUFFER_1; times])[1];
                assert_eq!(found, (22, 0));
            }
        }
    }
}

/// A client that stored the free fill does not make its buffer cached.
#[test]
fn client_that_stores_the_free_fill_is_not_cached() {
    for form in FORMS {
        let mut image = dump_whole(form);
        image.heap[40..64].copy_from_slice(&form.words(&[0xdeadbeef; 6]));
        assert_eq!(verdicts_with(&image, &[BUFFER_1])[1], (24, 0));
    }
}

/// Buffers 0 and 2 are off the chain, buffer 1 is allocated. Each prefix of each order
/// lists none, some or all of them.
#[test]
fn each_buffer_is_judged_by_its_own_listing() {
    for form in FORMS {
        let image = dump_off_chain(form);
        let unlisted = [(23, 0), (2, dump_size(form)), (23, 0)];
        let listed = [(3, 0), (24, 0), (3, 0)];
        for order in ORDERS {
            for length in 0..=3 {
                let mut expected = unlisted;
                for address in &order[..length] {
                    let index = (address - BUFFER_0) as usize / 40;
                    expected[index] = listed[index];
                }
                assert_eq!(verdicts_with(&image, &order[..length]), expected);
            }
        }
    }
}

#[test]
fn places_in_the_list_do_not_matter() {
    for form in FORMS {
        let image = dump_off_chain(form);
        let expected = [(22, 0), (2, dump_size(form)), (3, 0)];
        for list in [
            [BUFFER_0, BUFFER_0, BUFFER_2],
            [BUFFER_0, BUFFER_2, BUFFER_0],
            [BUFFER_2, BUFFER_0, BUFFER_0],
        ] {
            assert_eq!(verdicts_with(&image, &list), expected);
        }
    }
}

/// On the chain or not is read for each buffer by itself: buffer 0 is off it, buffer 2 on.
#[test]
fn list_of_buffers_on_and_off_the_chain() {
    for form in FORMS {
        let image = dump_half_off_chain(form);
        for order in ORDERS {
            let expected = [(3, 0), (24, 0), (22, 0)];
            assert_eq!(verdicts_with(&image, &order), expected);
        }
        let expected = [(3, 0), (2, dump_size(form)), (22, 0)];
        assert_eq!(verdicts_with(&image, &[BUFFER_2, BUFFER_0]), expected);
    }
}

/// "At most n": n words are taken, and "a list over n words is refusal 3", whatever the
/// words are.
#[test]
fn refusal_3_list_over_n_words() {
    for form in FORMS {
        let image = dump_off_chain(form);
        assert_eq!(verdicts_with(&image, &[BUFFER_0; 3])[0], (22, 0));
        both_refuse(&image, &[BUFFER_0; 4], 3);
        both_refuse(&image, &[BUFFER_0, BUFFER_1, BUFFER_2, 1], 3);
        both_refuse(&image, &[1, BUFFER_0, BUFFER_1, BUFFER_2], 3);
        for length in [4, 5, 512, 70_000] {
            both_refuse(&image, &vec![1; length], 3);
        }
    }
}

#[test]
fn list_for_one_buffer() {
    for form in LONG_FORMS {
        let mut image = fresh(form, 0x1000, 0x8000, 8, 1);
        let mut rows = [KEPT; 2];
        for (head, verdict) in [(0x8000, Verdict::FreedTwice), (0, Verdict::Cached)] {
            put_sheet(&mut image.sheet, HEAD, head);
            assert_eq!(inspected(&image, &[0x1000], &mut rows), Ok(1));
            assert_eq!(rows, [Finding { index: 0, verdict }, KEPT]);
        }
        both_refuse(&image, &[0x1000, 0x1000], 3);
        both_refuse(&image, &[0x1018], 4);
        both_refuse(&image, &[0x8000], 4);
    }
}

/// "A word that is no buffer's start is refusal 4", at every place in the list.
#[test]
fn refusal_4_word_that_is_no_start() {
    for form in FORMS {
        let image = dump_off_chain(form);
        for word in NO_STARTS {
            both_refuse(&image, &[word], 4);
            both_refuse(&image, &[word; 3], 4);
            for place in 0..3 {
                let mut list = ORDERS[0];
                list[place] = word;
                both_refuse(&image, &list, 4);
            }
        }
    }
}

/// A heap that ends at 2^32: 0xffffffd8 + 40.
#[test]
fn last_address_there_is() {
    for form in LONG_FORMS {
        let mut image = fresh(form, 0xffff_ffd8, 0x8000, 24, 1);
        put_sheet(&mut image.sheet, HEAD, 0);
        let expected = "heap report 1\n0 cached\nchain 0 end\nfaults 0\n";
        assert_eq!(text_with(&image, &[0xffff_ffd8]), expected);
        for word in [0, 0xffff_ffff, 0xffff_ffb0, 0xffff_fff0] {
            both_refuse(&image, &[word], 4);
        }
    }
}

/// "Order: 1, 2, 3 always", then 4.
#[test]
fn refusals_1_2_and_3_come_before_4() {
    for form in FORMS {
        for list in [&[][..], &[1], &[BUFFER_0; 4], &[1; 4]] {
            let mut image = dump(form);
            image.heap.clear();
            both_refuse(&image, list, 3);
            put_sheet(&mut image.sheet, 10, 0);
            both_refuse(&image, list, 2);
            image.sheet[0] = 9;
            both_refuse(&image, list, 1);

            let mut image = dump(form);
            image.records.pop();
            both_refuse(&image, list, 3);
        }
    }
}

/// The log is a part of refusal 3, and 4 comes "right after 3": before 11.
#[test]
fn refusal_3_by_the_log_comes_before_4() {
    for form in FORMS {
        let image = dump(form);
        for list in [&[][..], &[1], &[1; 4]] {
            for log in [&[0; 1][..], &[0; 24], &[0; 16_400]] {
                let mut output = [b'x'; 100];
                assert_eq!(reported(&image, list, log, &mut output), refused(3));
                assert_eq!(output, [b'x'; 100]);
            }
        }
        let mut output = [b'x'; 100];
        let answer = reported(&image, &[1], &[0; 16], &mut output);
        assert_eq!(answer, refused(4));
        assert_eq!(output, [b'x'; 100]);
    }
}

/// With a lawful list the rows and the output can still be too short.
#[test]
fn refusal_11_comes_after_a_lawful_list() {
    for form in FORMS {
        let image = dump_off_chain(form);
        let mut rows = [KEPT; 2];
        let answer = inspected(&image, &ORDERS[0], &mut rows);
        assert_eq!(answer, refused(11));
        assert_eq!(rows, [KEPT; 2]);

        let mut rows = [KEPT; 4];
        assert_eq!(inspected(&image, &ORDERS[0], &mut rows), Ok(3));
        assert_eq!(rows[..3], findings_with(&image, &ORDERS[0]));
        assert_eq!(rows[3], KEPT);
    }
}

/// "The report line is `I cached`." The lines have 14 + 9 + 15 + 7 + 12 + 9 = 66 bytes.
#[test]
fn report_of_a_cached_buffer() {
    for form in FORMS {
        let expected = form.of(
            "heap report 1\n0 cached\n1 allocated 20\n2 free\nchain 1 end\nfaults 0\n",
            "heap report 1\n0 cached\n1 allocated 12\n2 free\nchain 1 end\nfaults 0\n",
        );
        let image = dump_half_off_chain(form);
        assert_eq!(text_with(&image, &[BUFFER_0]), expected);

        let mut output = [b'x'; 67];
        let answer = reported(&image, &[BUFFER_0], &[], &mut output[..65]);
        assert_eq!(answer, refused(11));
        assert_eq!(output, [b'x'; 67]);
        let answer = reported(&image, &[BUFFER_0], &[], &mut output[..66]);
        assert_eq!(answer, Ok(66));
        assert_eq!(output, *format!("{expected}x").as_bytes());
    }
}

/// "`faults` counts fault lines only", and the chain line tells of the chain alone.
#[test]
fn report_of_faults_by_the_list() {
    for form in FORMS {
        let image = dump_half_off_chain(form);
        assert_eq!(
            text_with(&image, &ORDERS[0]),
            "heap report 1\n0 cached\n1 fault 24\n2 fault 22\nchain 1 end\nfaults 2\n"
        );
        let mut image = dump_off_chain(form);
        image.heap[9] = 0;
        assert_eq!(
            text_with(&image, &ORDERS[0]),
            "heap report 1\n0 fault 25 9\n1 fault 24\n2 cached\nchain 0 end\nfaults 2\n"
        );
        let mut image = dump_with_head(form, 5);
        image.heap[CHUNK[2] + 29] = 0;
        assert_eq!(
            text_with(&image, &[BUFFER_2, BUFFER_1, BUFFER_1]),
            "heap report 1\n0 fault 23\n1 fault 22\n2 fault 26 29\nchain 0 broken\nfaults 3\n"
        );
    }
}

/// The most buffers and the longest list there are: 512 chunks of 128 bytes.
#[test]
fn list_of_512_words() {
    for form in LONG_FORMS {
        let mut image = fresh(form, 0x10_0000, 0x20_0000, 112, 512);
        put_sheet(&mut image.sheet, HEAD, 0);
        let every: Vec<u32> = (0..512).rev().map(|i| 0x10_0000 + 128 * i).collect();
        let lines = |first: &str, rest: &str, faults: u32| {
            let mut text = format!("heap report 1\n0 {first}\n");
            for index in 1..512 {
                text += &format!("{index} {rest}\n");
            }
            text + &format!("chain 0 end\nfaults {faults}\n")
        };
        assert_eq!(text_with(&image, &every), lines("cached", "cached", 0));
        let same = [0x10_0000; 512];
        assert_eq!(text_with(&image, &same), lines("fault 22", "fault 23", 512));
        both_refuse(&image, &[0x10_0000; 513], 3);
        both_refuse(&image, &[&every[1..], &[0x11_0000]].concat(), 4);
    }
}

/// "Allocate and free don't use magazines": a cached buffer stays so under both calls, as
/// the list does, and is itself refused as a buffer with the free pattern.
#[test]
fn allocate_and_free_beside_a_cached_buffer() {
    for form in FORMS {
        let mut image = dump_half_off_chain(form);
        let list = [BUFFER_0];
        let sized = (2, dump_size(form));
        assert_eq!(verdicts_with(&image, &list), [(3, 0), sized, (0, 0)]);
        assert_eq!(allocated(&mut image, Grant::Whole), Ok(BUFFER_2));
        assert_eq!(verdicts_with(&image, &list), [(3, 0), sized, (1, 0)]);
        assert_eq!(allocated(&mut image, Grant::Whole), refused(5));
        assert_eq!(freed(&mut image, BUFFER_0, Grant::Whole), refused(8));
        assert_eq!(freed(&mut image, BUFFER_2, Grant::Whole), Ok(()));
        assert_eq!(verdicts_with(&image, &list), [(3, 0), sized, (0, 0)]);
    }
}

/// A listed buffer on the chain is granted all the same, and is then 24; freed, it is on
/// the chain again, and 22 by the same list.
#[test]
fn allocate_and_free_of_a_listed_buffer() {
    for form in FORMS {
        let mut image = dump(form);
        let list = [BUFFER_0];
        let others = [(2, dump_size(form)), (0, 0)];
        for _ in 0..2 {
            assert_eq!(verdicts_with(&image, &list)[0], (22, 0));
            assert_eq!(allocated(&mut image, Grant::Sized(1)), Ok(BUFFER_0));
            assert_eq!(verdicts_with(&image, &list)[0], (24, 0));
            assert_eq!(verdicts_with(&image, &list)[1..], others);
            assert_eq!(freed(&mut image, BUFFER_0, Grant::Sized(1)), Ok(()));
        }
    }
}
