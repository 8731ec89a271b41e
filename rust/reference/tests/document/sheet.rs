//! Refusals 1 and 2: the sheet's two forms and its limits, on both sides of each, under
//! both profiles.

use crate::image::{dump, put_sheet, refused, Form, FORMS, KERNEL_FORMS, LONG_FORMS, USER_FORMS};
use reference::{
    area_lengths, chain, sheet_order, Chain, Ending, Order, Profile, SHEET_LENGTH,
    SHORT_SHEET_LENGTH,
};

/// The numbers of a sheet, of which each case changes a few.
#[derive(Clone, Copy)]
struct Numbers {
    cache: u32,
    heap_base: u32,
    record_base: u32,
    size: u16,
    chunk_size: u16,
    count: u16,
    head: u32,
    flags: u16,
}

/// Heap 0x1000 to 0x1078 (120 bytes), records 0x2000 to 0x2120 (288 bytes), or to 0x212c
/// (300 bytes) under the userland profile.
const PLAIN: Numbers = Numbers {
    cache: 0x100,
    heap_base: 0x1000,
    record_base: 0x2000,
    size: 24,
    chunk_size: 40,
    count: 3,
    head: 0,
    flags: 0x020f,
};

fn sheet(form: Form, numbers: Numbers) -> Vec<u8> {
    let mut bytes = Vec::new();
    bytes.extend([1, 0, 4]);
    bytes.extend(numbers.cache.to_be_bytes());
    bytes.extend([2, 0, 4]);
    bytes.extend(numbers.heap_base.to_be_bytes());
    bytes.extend([3, 0, 4]);
    bytes.extend(numbers.record_base.to_be_bytes());
    bytes.extend([4, 0, 2]);
    bytes.extend(numbers.size.to_be_bytes());
    bytes.extend([5, 0, 2]);
    bytes.extend(numbers.chunk_size.to_be_bytes());
    bytes.extend([6, 0, 2]);
    bytes.extend(numbers.count.to_be_bytes());
    bytes.extend([7, 0, 4]);
    bytes.extend(numbers.head.to_be_bytes());
    bytes.extend([8, 0, 2]);
    bytes.extend(numbers.flags.to_be_bytes());
    bytes.extend(form.last_field());
    bytes
}

/// Accepted in these forms, and its order found.
fn accepted_in(forms: &[Form], numbers: Numbers, heap_length: usize, record_length: usize) {
    for form in forms {
        let sheet = sheet(*form, numbers);
        let lengths = area_lengths(form.profile(), &sheet);
        assert_eq!(lengths, Ok((heap_length, record_length)));
        assert_eq!(sheet_order(&sheet), Ok(form.order()));
        let heap = vec![0; heap_length];
        let records = vec![0; record_length];
        assert!(chain(form.profile(), &sheet, &heap, &records).is_ok());
    }
}

/// Accepted in every form: n records are 96 bytes each, or 100.
fn accepts(numbers: Numbers, heap_length: usize, record_length: usize) {
    let user_length = usize::from(numbers.count) * 100;
    accepted_in(&KERNEL_FORMS, numbers, heap_length, record_length);
    accepted_in(&USER_FORMS, numbers, heap_length, user_length);
}

/// Refusal 2 in every form, by the order's reading too.
fn refuses(numbers: Numbers) {
    refused_in(&FORMS, numbers);
    for form in FORMS {
        assert_eq!(sheet_order(&sheet(form, numbers)), refused(2));
    }
}

/// Refusal 2 in these forms.
fn refused_in(forms: &[Form], numbers: Numbers) {
    for form in forms {
        let sheet = sheet(*form, numbers);
        assert_eq!(area_lengths(form.profile(), &sheet), refused(2));
        assert_eq!(chain(form.profile(), &sheet, &[], &[]), refused(2));
    }
}

/// Refusal 1 of a sheet, by every way to read it.
fn has_neither_form(sheet: &[u8]) {
    assert_eq!(sheet_order(sheet), refused(1));
    for (profile, length) in [(Profile::Kernel, 288), (Profile::Userland, 300)] {
        assert_eq!(area_lengths(profile, sheet), refused(1), "{sheet:?}");
        let answer = chain(profile, sheet, &[0; 120], &vec![0; length]);
        assert_eq!(answer, refused(1));
    }
}

#[test]
fn the_two_lengths() {
    assert_eq!((SHEET_LENGTH, SHORT_SHEET_LENGTH), (52, 48));
    let lengths = FORMS.map(|form| dump(form).sheet.len());
    assert_eq!(lengths, [48, 52, 52, 48, 52, 52]);
}

#[test]
fn order_of_each_form() {
    assert_eq!(sheet_order(&dump(Form::Short).sheet), Ok(Order::HighFirst));
    assert_eq!(sheet_order(&dump(Form::High).sheet), Ok(Order::HighFirst));
    assert_eq!(sheet_order(&dump(Form::Low).sheet), Ok(Order::LowFirst));
}

#[test]
fn tag_9_is_0_or_1() {
    for value in 0..=255 {
        let mut sheet = dump(Form::Short).sheet;
        sheet.extend([9, 0, 1, value]);
        let expected = match value {
            0 => Ok(Order::HighFirst),
            1 => Ok(Order::LowFirst),
            _ => refused(2),
        };
        assert_eq!(sheet_order(&sheet), expected, "{value}");
        let kernel = area_lengths(Profile::Kernel, &sheet);
        assert_eq!(kernel, expected.map(|_| (120, 288)));
        let userland = area_lengths(Profile::Userland, &sheet);
        assert_eq!(userland, expected.map(|_| (120, 300)));
    }
}

#[test]
fn another_tag_or_length_in_the_place_of_tag_9() {
    let fields = [
        [0, 0, 0, 0],
        [0, 0, 1, 0],
        [8, 0, 1, 0],
        [10, 0, 1, 1],
        [0xff, 0, 1, 0],
        [9, 0, 0, 0],
        [9, 0, 2, 0],
        [9, 1, 1, 0],
        [9, 1, 0, 1],
        [1, 0, 9, 0],
        [0xde, 0xad, 0xbe, 0xef],
        [0xef, 0xbe, 0xad, 0xde],
    ];
    for field in fields {
        has_neither_form(&[&dump(Form::Short).sheet[..], &field[..]].concat());
    }
}

#[test]
fn tag_9_before_tag_8() {
    for form in LONG_FORMS {
        let sheet = dump(form).sheet;
        has_neither_form(&[&sheet[..43], &sheet[48..], &sheet[43..48]].concat());
    }
}

#[test]
fn tag_9_without_tag_8() {
    for form in LONG_FORMS {
        let sheet = dump(form).sheet;
        has_neither_form(&[&sheet[..43], &sheet[48..]].concat());
    }
}

#[test]
fn refusal_1_comes_before_the_value_of_tag_9() {
    let mut sheet = dump(Form::Low).sheet;
    sheet[51] = 2;
    sheet[0] = 2;
    has_neither_form(&sheet);
}

#[test]
fn bad_value_of_tag_9_with_another_number_out_of_its_limit() {
    let mut sheet = dump(Form::Low).sheet;
    sheet[51] = 2;
    put_sheet(&mut sheet, 10, 0);
    assert_eq!(sheet_order(&sheet), refused(2));
}

#[test]
fn sheet_of_another_length() {
    for form in FORMS {
        let long = [dump(form).sheet, vec![0; 260]].concat();
        for length in (0..=300).filter(|length| ![48, 52].contains(length)) {
            has_neither_form(&long[..length]);
        }
    }
    // A whole 52-byte sheet with bytes after it, and one without its last byte.
    for length in [0, 47, 49, 51, 53] {
        let long = [dump(Form::Low).sheet, vec![0]].concat();
        has_neither_form(&long[..length]);
    }
    // The first 48 bytes of a 52-byte sheet are the short form.
    let first = &dump(Form::Low).sheet[..48];
    assert_eq!(sheet_order(first), Ok(Order::HighFirst));
}

#[test]
fn every_tag_and_length_byte_is_tested() {
    let tag_and_length_bytes = [
        0, 1, 2, 7, 8, 9, 14, 15, 16, 21, 22, 23, 26, 27, 28, 31, 32, 33, 36, 37, 38, 43, 44, 45,
        48, 49, 50,
    ];
    for form in FORMS {
        let sheet = dump(form).sheet;
        for at in tag_and_length_bytes {
            if at < sheet.len() {
                let mut changed = sheet.clone();
                changed[at] ^= 0x10;
                has_neither_form(&changed);
            }
        }
    }
}

#[test]
fn tags_out_of_order_are_refused() {
    for form in FORMS {
        let image = dump(form);
        let mut sheet = image.sheet[7..14].to_vec();
        sheet.extend(&image.sheet[..7]);
        sheet.extend(&image.sheet[14..]);
        let answer = chain(form.profile(), &sheet, &image.heap, &image.records);
        assert_eq!(answer, refused(1));
    }
}

#[test]
fn buffer_size_is_a_multiple_of_8_from_8_to_4096() {
    let with = |size, chunk_size, count| Numbers {
        size,
        chunk_size,
        count,
        ..PLAIN
    };
    accepts(with(8, 24, 3), 72, 288);
    accepts(
        Numbers {
            heap_base: 0x1_0000,
            ..with(4096, 4112, 1)
        },
        4112,
        96,
    );
    refuses(with(0, 16, 3));
    refuses(with(12, 28, 3));
    refuses(Numbers {
        heap_base: 0x1_0000,
        ..with(4104, 4120, 1)
    });
}

#[test]
fn chunk_size_is_buffer_size_plus_16() {
    accepts(PLAIN, 120, 288);
    for chunk_size in [0, 24, 32, 39, 41, 48] {
        refuses(Numbers {
            chunk_size,
            ..PLAIN
        });
    }
}

#[test]
fn count_is_1_to_512() {
    let with = |count| Numbers {
        heap_base: 0x10_0000,
        record_base: 0x20_0000,
        size: 8,
        chunk_size: 24,
        count,
        ..PLAIN
    };
    accepts(with(1), 24, 96);
    accepts(with(512), 12_288, 49_152);
    refuses(with(0));
    refuses(with(513));
}

#[test]
fn heap_is_at_most_65536_bytes() {
    let with = |size, chunk_size, count| Numbers {
        heap_base: 0x10_0000,
        record_base: 0x20_0000,
        size,
        chunk_size,
        count,
        ..PLAIN
    };
    // 512 * 128 = 65,536; 481 * 136 = 65,416; 482 * 136 = 65,552.
    accepts(with(112, 128, 512), 65_536, 49_152);
    accepts(with(120, 136, 481), 65_416, 46_176);
    refuses(with(120, 136, 482));
}

#[test]
fn flags_are_020f() {
    for flags in [0, 0x020e, 0x030f, 0xffff] {
        refuses(Numbers { flags, ..PLAIN });
    }
}

#[test]
fn bases_are_non_zero_multiples_of_8() {
    let heap = |heap_base| Numbers { heap_base, ..PLAIN };
    let records = |record_base| Numbers {
        record_base,
        ..PLAIN
    };
    accepts(heap(8), 120, 288);
    refuses(heap(0));
    refuses(heap(0x1004));
    accepts(records(8), 120, 288);
    refuses(records(0));
    refuses(records(0x2004));
}

#[test]
fn base_plus_length_is_at_most_2_to_the_32() {
    let heap = |heap_base| Numbers { heap_base, ..PLAIN };
    let records = |record_base| Numbers {
        record_base,
        ..PLAIN
    };
    // 2^32 - 120 and 2^32 - 288; 2^32 - 300 is no multiple of 8, and 2^32 - 304 is.
    accepts(heap(0xffff_ff88), 120, 288);
    refuses(heap(0xffff_ff90));
    refuses(heap(0xffff_fff8));
    accepted_in(&KERNEL_FORMS, records(0xffff_fee0), 120, 288);
    accepted_in(&USER_FORMS, records(0xffff_fed0), 120, 300);
    refused_in(&USER_FORMS, records(0xffff_fed8));
    refused_in(&USER_FORMS, records(0xffff_fee0));
    refuses(records(0xffff_fee8));
    refuses(records(0xffff_fff8));
}

#[test]
fn ranges_share_no_address() {
    let at = |heap_base, record_base| Numbers {
        heap_base,
        record_base,
        ..PLAIN
    };
    accepts(at(0x1000, 0x1078), 120, 288);
    refuses(at(0x1000, 0x1070));
    // 0x1000 + 288 = 0x1120 and 0x1000 + 300 = 0x112c.
    accepted_in(&KERNEL_FORMS, at(0x1120, 0x1000), 120, 288);
    accepts(at(0x1130, 0x1000), 120, 288);
    refused_in(&USER_FORMS, at(0x1128, 0x1000));
    refused_in(&USER_FORMS, at(0x1120, 0x1000));
    refuses(at(0x1118, 0x1000));
    refuses(at(0x1000, 0x1000));
    refuses(at(0x1080, 0x1000));
}

#[test]
fn cache_and_head_may_be_any_number() {
    for number in [0, 1, 0x1004, 0x2000, u32::MAX] {
        accepts(
            Numbers {
                cache: number,
                head: number,
                ..PLAIN
            },
            120,
            288,
        );
    }
}

/// Three records of 96 bytes, or two of 100, which are the multiple of 8.
#[test]
fn last_record_may_end_at_2_to_the_32() {
    let kernel = Numbers {
        record_base: 0xffff_fee0,
        head: 0xffff_ffa0,
        ..PLAIN
    };
    for form in KERNEL_FORMS {
        let mut records = vec![0; 288];
        form.put(&mut records, 192, 0xffff_fee0);
        let expected = Chain {
            met: vec![2, 0],
            ending: Ending::End,
        };
        let answer = chain(form.profile(), &sheet(form, kernel), &[0; 120], &records);
        assert_eq!(answer, Ok(expected));
    }

    let userland = Numbers {
        record_base: 0xffff_ff38,
        head: 0xffff_ff9c,
        count: 2,
        ..PLAIN
    };
    for form in USER_FORMS {
        let mut records = vec![0; 200];
        form.put(&mut records, 100, 0xffff_ff38);
        let expected = Chain {
            met: vec![1, 0],
            ending: Ending::End,
        };
        let answer = chain(form.profile(), &sheet(form, userland), &[0; 80], &records);
        assert_eq!(answer, Ok(expected));
    }
}

/// Where only the kernel profile takes a sheet, the order is found all the same.
#[test]
fn order_of_a_sheet_for_shorter_records_only() {
    let numbers = Numbers {
        record_base: 0xffff_fee0,
        ..PLAIN
    };
    for form in FORMS {
        assert_eq!(sheet_order(&sheet(form, numbers)), Ok(form.order()));
    }
}
