//! The report's text, under both profiles.

use crate::image::*;
use crate::made::*;

/// The whole report on the dump.
fn dump_report(form: Form) -> &'static str {
    form.of(DUMP_REPORT, USER_REPORT)
}

#[test]
fn dump_report_is_64_bytes() {
    for form in FORMS {
        assert_eq!(dump_report(form).len(), 64);
        assert_eq!(text(&dump(form)), dump_report(form));
    }
}

#[test]
fn output_of_the_exact_need_is_enough_and_one_less_is_refusal_11() {
    for form in FORMS {
        let image = dump(form);
        let mut exact = [b'x'; 64];
        let answer = reported(&image, &[], &[], &mut exact);
        assert_eq!(answer, Ok(64));
        assert_eq!(&exact, dump_report(form).as_bytes());

        let mut short = [b'x'; 63];
        let answer = reported(&image, &[], &[], &mut short);
        assert_eq!(answer, refused(11));
        assert_eq!(short, [b'x'; 63]);
    }
}

#[test]
fn output_past_the_report_stays() {
    for form in FORMS {
        let image = dump(form);
        let mut output = [b'x'; 100];
        let answer = reported(&image, &[], &[], &mut output);
        assert_eq!(answer, Ok(64));
        assert_eq!(output[64..], [b'x'; 36]);
    }
}

#[test]
fn refusal_3_log_of_wrong_length() {
    for form in FORMS {
        let image = dump(form);
        let lengths = [
            (0, true),
            (16, true),
            (16_384, true),
            (8, false),
            (16_400, false),
        ];
        for (length, is_lawful) in lengths {
            let log = vec![0xff; length];
            let mut output = [b'x'; 64];
            let answer = reported(&image, &[], &log, &mut output);
            if is_lawful {
                assert_eq!(answer, Ok(64));
            } else {
                assert_eq!(answer, refused(3));
                assert_eq!(output, [b'x'; 64]);
            }
        }
    }
}

#[test]
fn refusal_3_comes_before_11() {
    for form in FORMS {
        let image = dump(form);
        let answer = reported(&image, &[], &[0], &mut []);
        assert_eq!(answer, refused(3));
    }
}

#[test]
fn faults_with_and_without_offset() {
    for form in FORMS {
        let mut image = dump(form);
        image.heap[CHUNK[0] + 9] = 0;
        image.put_heap(CHUNK[1] + R1, 1);
        image.heap[CHUNK[2] + 29] = 0;
        assert_eq!(
            text(&image),
            "heap report 1\n0 fault 25 9\n1 fault 31\n2 fault 26 29\nchain 2 end\nfaults 3\n"
        );
    }
}

#[test]
fn whole_and_guard_fault() {
    for form in FORMS {
        let mut image = dump(form);
        image.put_heap(CHUNK[1] + R1, 0xfeedface);
        assert_eq!(
            text(&image),
            "heap report 1\n0 free\n1 whole\n2 free\nchain 2 end\nfaults 0\n"
        );
        image.put_heap(CHUNK[1] + R0, 0x00edface);
        let faulty = form.pick(
            "heap report 1\n0 free\n1 fault 28 24\n2 free\nchain 2 end\nfaults 1\n",
            "heap report 1\n0 free\n1 fault 28 27\n2 free\nchain 2 end\nfaults 1\n",
        );
        assert_eq!(text(&image), faulty);
    }
}

/// "`I fault V` or, for 25, 26 and 28, `I fault V OFFSET`": 30 has no offset.
#[test]
fn header_fault() {
    for form in USER_FORMS {
        let mut image = dump(form);
        image.heap[CHUNK[1] + 7] ^= 1;
        assert_eq!(
            text(&image),
            "heap report 1\n0 free\n1 fault 30\n2 free\nchain 2 end\nfaults 1\n"
        );
    }
}

#[test]
fn broken_chain_is_no_fault_line_of_its_own() {
    for form in FORMS {
        let mut image = dump(form);
        image.put_record(form.place(0) + NEXT, 5);
        assert_eq!(
            text(&image),
            form.of(
                "heap report 1\n0 free\n1 allocated 20\n2 free\nchain 2 broken\nfaults 0\n",
                "heap report 1\n0 free\n1 allocated 12\n2 free\nchain 2 broken\nfaults 0\n",
            )
        );
    }
}

#[test]
fn again_names_the_record_and_not_the_buffer() {
    for form in FORMS {
        let mut image = dump(form);
        image.put_record(form.place(0) + NEXT, form.record(2));
        assert_eq!(
            text(&image),
            form.of(
                "heap report 1\n0 fault 22\n1 allocated 20\n2 free\nchain 2 again 2\nfaults 1\n",
                "heap report 1\n0 fault 22\n1 allocated 12\n2 free\nchain 2 again 2\nfaults 1\n",
            )
        );
    }
}

#[test]
fn chain_of_none() {
    for form in FORMS {
        assert_eq!(
            text(&dump_with_head(form, 0)),
            form.of(
                "heap report 1\n0 fault 23\n1 allocated 20\n2 fault 23\nchain 0 end\nfaults 2\n",
                "heap report 1\n0 fault 23\n1 allocated 12\n2 fault 23\nchain 0 end\nfaults 2\n",
            )
        );
    }
}

#[test]
fn decimals_of_two_and_three_figures() {
    for form in LONG_FORMS {
        let image = fresh(form, 0x1000, 0x8000, 8, 101);
        let mut expected = String::from("heap report 1\n");
        for index in 0..=100 {
            expected += &index.to_string();
            expected += " free\n";
        }
        expected += "chain 101 end\nfaults 0\n";
        assert_eq!(text(&image), expected);
    }
}
