//! What is reported of cached buffers, of few and of all.

use differential::magazines::cache;
use differential::samples::{dump, dump_request};
use differential::{Image, FORMS};

use super::{refused, Run};
use crate::corner::fresh_of;
use crate::counts::Met;
use crate::report;

/// "The report line is `I cached`", and it is no fault. The dump's free buffers are in magazines,
/// first one of them and then both; then the fill of one is hurt and the other listed twice.
/// With every room.
#[test]
fn lines_of_the_report() {
    let mut run = Run::new();
    for form in FORMS {
        let request = dump_request(form);
        let mut image = dump(form);
        cache(&mut image, &[2]);
        let out = format!("1 allocated {request}");
        let text = format!("heap report 1\n0 cached\n{out}\n2 free\nchain 1 end\nfaults 0\n");
        compare_text(&image, &text, &mut run);

        cache(&mut image, &[0]);
        let text = format!("heap report 1\n0 cached\n{out}\n2 cached\nchain 0 end\nfaults 0\n");
        compare_text(&image, &text, &mut run);

        image.heap[9] ^= 1;
        image.magazines.push(image.shape.buffer_address(2));
        let faults = ["0 fault 25 9", &out, "2 fault 22"].join("\n");
        let text = format!("heap report 1\n{faults}\nchain 0 end\nfaults 2\n");
        compare_text(&image, &text, &mut run);
    }
    let wanted = [Met::Verdict(3), Met::Refusal(11, 0)];
    run.finish("magazines, lines of the report", &wanted);
}

fn compare_text(image: &Image, text: &str, Run { sequence, counts }: &mut Run) {
    for room in 0..text.len() + 3 {
        let found = report::compare(image, room, sequence, image);
        let expected = if room < text.len() {
            Err(&refused(11))
        } else {
            Ok(text)
        };
        assert_eq!(found.as_deref(), expected, "{room}");
        report::note(counts, image, found);
    }
}

/// The largest heaps and the smallest, with every buffer in a magazine: n words, in any order.
#[test]
fn every_buffer_in_a_magazine() {
    let mut run = Run::new();
    for form in FORMS {
        for (size, count) in [(8, 1), (8, 512), (112, 512), (4096, 15)] {
            let mut image = fresh_of(form, size, count);
            let mut records: Vec<usize> = (0..count).collect();
            run.sequence.shuffle(&mut records);
            cache(&mut image, &records);
            let found = run.verdicts(&image, &image);
            assert_eq!(found, Ok(vec![3; count]), "{form:?}, {size} x {count}");

            image.magazines.clear();
            let found = run.verdicts(&image, &image);
            assert_eq!(found, Ok(vec![23; count]), "{form:?}, {size} x {count}");
        }
    }
    let wanted = [Met::Verdict(3), Met::Verdict(23)];
    run.finish("magazines, every buffer in one", &wanted);
}
