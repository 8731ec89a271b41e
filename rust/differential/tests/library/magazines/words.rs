//! Every word about a heap, and lists of every length.

use differential::magazines::cache;
use differential::{Image, Shape, FORMS};

use super::{refused, Run};
use crate::corner::fresh_of;
use crate::counts::Met;

/// Where a heap of three buffers of 8 bytes may begin: somewhere, at the lowest address and so
/// that it ends with the highest.
const BASES: [u32; 3] = [0x1000, 8, 0u32.wrapping_sub(72)];

/// Every address about a heap, and others that are no buffer's start though parts of them are
/// those of one.
fn words_about(image: &Image) -> Vec<u32> {
    let Shape { heap_base, .. } = image.shape;
    let near = (0..=72 + 48).map(|step| heap_base.wrapping_sub(24).wrapping_add(step));
    let records = (0..3).flat_map(|record| [image.record_address(record), record as u32]);
    let mut words: Vec<u32> = near.chain(records).collect();
    for buffer in 0..3 {
        let start = image.shape.buffer_address(buffer);
        words.extend((0..32).map(|bit| start ^ 1 << bit));
        words.extend([
            start.swap_bytes(),
            start.rotate_left(16),
            start - heap_base,
            !start,
        ]);
    }
    words.extend([0, u32::MAX, heap_base.wrapping_neg()]);
    words
}

/// A word is refused exactly when it is none of the three starts, alone, behind other words and
/// before them. Its bytes have no order: those of a turned address are not turned back.
#[test]
fn every_word_about_a_heap() {
    let mut run = Run::new();
    for form in FORMS {
        for heap_base in BASES {
            let mut image = fresh_of(form, 8, 3);
            image.shape.heap_base = heap_base;
            image = Image::laid_out(form, image.shape, [0; 5]);
            cache(&mut image, &[0, 1, 2]);
            compare_words(image, &mut run);
        }
    }
    let wanted = [Met::Verdict(3), Met::Verdict(22), Met::Refusal(4, 0)];
    run.finish("magazines, every word about a heap", &wanted);
}

fn compare_words(mut image: Image, run: &mut Run) {
    let base = image.shape.heap_base;
    let starts = [base, base + 24, base + 48];
    for word in words_about(&image) {
        let lists = [
            vec![word],
            vec![base, word],
            vec![word, base],
            vec![base + 24, word, base + 48],
            vec![word; 3],
        ];
        for list in lists {
            image.magazines = list;
            let found = run.verdicts(&image, &image).map(|_| ());
            let is_start = starts.contains(&word);
            let expected = if is_start { Ok(()) } else { Err(refused(4)) };
            assert_eq!(found, expected, "{word:#x}: {image}");
        }
    }
}

/// Counts of buffers, and lengths of lists beside them.
const COUNTS: [usize; 4] = [1, 3, 16, 512];

/// Lists of every length about n, of the first buffer and of words that are no buffer's: 3 is
/// given for all that are longer, and 4 only for the others.
#[test]
fn every_length_of_a_list() {
    let mut run = Run::new();
    for form in FORMS {
        for count in COUNTS {
            let image = fresh_of(form, 8, count);
            let about = [
                count - 1,
                count,
                count + 1,
                count + 2,
                2 * count,
                2 * count + 1,
            ];
            let far = [
                3 * count + 3,
                4 * count,
                256 + count,
                65_536,
                65_536 + count,
            ];
            for length in [0, 1].into_iter().chain(about).chain(far) {
                compare_length(image.clone(), length, &mut run);
            }
        }
    }
    let wanted = [Met::Verdict(22), Met::Refusal(3, 0), Met::Refusal(4, 0)];
    run.finish("magazines, every length of a list", &wanted);
}

fn compare_length(mut image: Image, length: usize, run: &mut Run) {
    let count = image.shape.count;
    for word in [image.shape.heap_base, image.shape.heap_base + 1] {
        image.magazines = vec![word; length];
        let is_start = word == image.shape.heap_base;
        let expected = match length {
            _ if length > count => Err(refused(3)),
            1.. if !is_start => Err(refused(4)),
            _ => Ok(()),
        };
        let found = run.verdicts(&image, &image).map(|_| ());
        assert_eq!(
            found, expected,
            "{length} words {word:#x} for {count} buffers"
        );
    }
}
