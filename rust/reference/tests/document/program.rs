//! The report program, on whole, cut and endless input, in every form of the old profile.

use std::fs::File;
use std::io::Write;
use std::process::{Command, Stdio};
use std::thread;

use crate::image::{
    dump, dump_with_head, fresh, put_sheet, refused, Form, Image, BUFFER_0, DUMP_REPORT,
    KERNEL_FORMS, USER_FORMS,
};
use reference::{area_lengths, program, Profile};

/// The forms that lay out writes.
const LONG_FORMS: [Form; 2] = [Form::High, Form::Low];

/// Far more than a pipe holds and the program may read.
const MUCH: usize = 1 << 22;

fn command() -> Command {
    Command::new(env!("CARGO_BIN_EXE_reference"))
}

/// What the program writes for an input, and how much of the input could be written
/// to it before it ended.
fn run(input: Vec<u8>) -> (String, usize) {
    let mut child = command()
        .stdin(Stdio::piped())
        .stdout(Stdio::piped())
        .spawn()
        .unwrap();
    let mut pipe = child.stdin.take().unwrap();
    let writer = thread::spawn(move || {
        let written = input
            .chunks(4096)
            .take_while(|part| pipe.write_all(part).is_ok());
        written.map(<[u8]>::len).sum()
    });
    let output = child.wait_with_output().unwrap();
    assert!(output.status.success());
    let text = String::from_utf8(output.stdout).unwrap();
    (text, writer.join().unwrap())
}

/// The length byte, sheet, heap and records of an image. For the dump these are
/// 1 + 48 + 120 + 288 = 457 bytes, or 461 in the longer form.
fn input_of(image: &Image) -> Vec<u8> {
    let length = [image.sheet.len() as u8];
    [&length[..], &image.sheet, &image.heap, &image.records].concat()
}

/// What the program writes for an input, found without starting it.
fn written(input: &[u8]) -> String {
    String::from_utf8(program(input)).unwrap()
}

/// The dump's sheet with its heap base 0.
fn unlawful_sheet(form: Form) -> Vec<u8> {
    let mut sheet = dump(form).sheet;
    put_sheet(&mut sheet, 10, 0);
    assert_eq!(area_lengths(Profile::Kernel, &sheet), refused(2));
    sheet
}

#[test]
fn dump_without_and_with_a_log() {
    for form in KERNEL_FORMS {
        let input = input_of(&dump(form));
        assert_eq!(run(input.clone()).0, DUMP_REPORT);
        for length in [16, 16_384] {
            let longer = [input.clone(), vec![0; length]].concat();
            assert_eq!(run(longer).0, DUMP_REPORT);
        }
    }
}

#[test]
fn input_cut_anywhere() {
    for form in KERNEL_FORMS {
        let whole = [input_of(&dump(form)), vec![0; 32]].concat();
        let sheet_end = 1 + dump(form).sheet.len();
        let records_end = sheet_end + 120 + 288;
        for length in 0..=whole.len() {
            let expected = if length < sheet_end {
                "refused 1\n"
            } else if [0, 16, 32].map(|log| records_end + log).contains(&length) {
                DUMP_REPORT
            } else {
                "refused 3\n"
            };
            assert_eq!(written(&whole[..length]), expected, "{form:?} {length}");
        }
    }
}

#[test]
fn started_program_on_cut_input() {
    let whole = input_of(&dump(Form::Low));
    for length in [0, 1, 2, 48, 49, 50, 52, 53, 54, 172, 173, 174, 460, 461] {
        let expected = match length {
            0..=52 => "refused 1\n",
            53..=460 => "refused 3\n",
            _ => DUMP_REPORT,
        };
        assert_eq!(run(whole[..length].to_vec()).0, expected, "{length}");
    }
}

/// The length byte says 52, and only 48 bytes, a sheet of the other form, follow.
#[test]
fn short_sheet_behind_the_longer_length_byte() {
    let short = dump(Form::Short).sheet;
    assert_eq!(written(&[&[52], &short[..]].concat()), "refused 1\n");
    assert_eq!(run([&[52], &short[..]].concat()).0, "refused 1\n");
    for more in 0..4 {
        let sheet = &dump(Form::Low).sheet[..48 + more];
        assert_eq!(written(&[&[52], sheet].concat()), "refused 1\n");
    }
    // With a heap behind it, its first bytes are no field with tag 9.
    let mut input = input_of(&dump(Form::Short));
    input[0] = 52;
    assert_eq!(written(&input), "refused 1\n");
}

/// The length byte says 48, and the field with tag 9 counts as heap: what is left for
/// the log is 4 bytes, no row.
#[test]
fn longer_sheet_behind_the_short_length_byte() {
    for form in LONG_FORMS {
        let mut input = input_of(&dump(form));
        input[0] = 48;
        assert_eq!(written(&input), "refused 3\n");
        assert_eq!(written(&input[..53]), "refused 3\n");
    }
    // With 12 bytes more the log is one row. Each record starts one word early: its
    // address word is its next word, and record 2's next word is record 1's last, 0.
    let mut input = [input_of(&dump(Form::High)), vec![0; 12]].concat();
    input[0] = 48;
    assert_eq!(
        written(&input),
        "heap report 1\n0 fault 20\n1 fault 20\n2 fault 20\nchain 1 end\nfaults 3\n"
    );
}

#[test]
fn length_byte_of_neither_form() {
    for length in (0..=255).filter(|length| ![48, 52].contains(length)) {
        assert_eq!(written(&[length]), "refused 1\n", "{length}");
        for form in KERNEL_FORMS {
            let mut input = [input_of(&dump(form)), vec![0; 256]].concat();
            input[0] = length;
            assert_eq!(written(&input), "refused 1\n", "{form:?} {length}");
        }
    }
}

#[test]
fn input_without_a_length_byte() {
    assert_eq!(written(&[]), "refused 1\n");
    assert_eq!(run(Vec::new()).0, "refused 1\n");
    // The input of the program before: its first byte, tag 1, is taken for the length.
    for form in KERNEL_FORMS {
        let input = input_of(&dump(form));
        assert_eq!(written(&input[1..]), "refused 1\n");
    }
}

#[test]
fn unlawful_sheet_with_nothing_after_it() {
    for form in KERNEL_FORMS {
        let sheet = unlawful_sheet(form);
        let input = [&[sheet.len() as u8], &sheet[..]].concat();
        assert_eq!(run(input).0, "refused 2\n");
    }
}

#[test]
fn values_of_tag_9() {
    for (value, expected) in [(1, DUMP_REPORT), (2, "refused 2\n"), (255, "refused 2\n")] {
        let mut image = dump(Form::Low);
        image.sheet[51] = value;
        assert_eq!(written(&input_of(&image)), expected, "{value}");
    }
    // The low-first dump read with the high byte first: no record names a buffer, and
    // the head's next word is no record's address.
    let mut image = dump(Form::Low);
    image.sheet[51] = 0;
    assert_eq!(
        written(&input_of(&image)),
        "heap report 1\n0 fault 20\n1 fault 20\n2 fault 20\nchain 1 broken\nfaults 3\n"
    );
}

#[test]
fn long_input_is_not_read_to_its_end() {
    for form in KERNEL_FORMS {
        let unlawful = unlawful_sheet(form);
        let cases = [
            (vec![0; 53], "refused 1\n"),
            (vec![unlawful.len() as u8; 53], "refused 1\n"),
            (
                [vec![unlawful.len() as u8], unlawful].concat(),
                "refused 2\n",
            ),
            (input_of(&dump(form)), "refused 3\n"),
        ];
        for (start, expected) in cases {
            let (text, written) = run([start, vec![0; MUCH]].concat());
            assert_eq!(text, expected);
            assert!(written < MUCH, "{written}");
        }
    }
}

/// A heap of 512 chunks of 128 bytes, the largest area of each kind, with the longest
/// log, and with one byte more.
#[test]
fn longest_input() {
    for form in LONG_FORMS {
        let image = fresh(form, 0x10_0000, 0x20_0000, 112, 512);
        let input = [input_of(&image), vec![0; 16_384]].concat();
        let (text, _) = run(input.clone());
        assert!(text.starts_with("heap report 1\n0 free\n"));
        assert!(text.ends_with("\n511 free\nchain 512 end\nfaults 0\n"));
        for more in [1, 16] {
            let longer = [input.clone(), vec![0; more]].concat();
            assert_eq!(run(longer).0, "refused 3\n");
        }
    }
}

#[test]
fn log_too_long() {
    for form in KERNEL_FORMS {
        for length in [16_385, 16_400] {
            let longer = [input_of(&dump(form)), vec![0; length]].concat();
            assert_eq!(run(longer).0, "refused 3\n");
        }
    }
}

/// "The program keeps the old one." The userland dump has 300 record bytes, so 12 bytes
/// are left for the log, no row; with 4 more it is one row. Record 1 starts one word
/// early: its address word is the next word there, 0x70ae31a0; and record 2 two words
/// early: its address word is the last stack word of record 1, 0x202. The head
/// 0x70ae3268 is no record's address, and buffer 2's own record, 0, isn't met.
#[test]
fn userland_image() {
    for form in USER_FORMS {
        let input = input_of(&dump(form));
        assert_eq!(written(&input), "refused 3\n");
        let longer = [input, vec![0; 4]].concat();
        let text = "heap report 1\n0 fault 20\n1 fault 20\n2 fault 23\nchain 0 broken\nfaults 3\n";
        assert_eq!(written(&longer), text);
        assert_eq!(run(longer).0, text);
    }
}

/// "The program's input stays, with an empty list": a free buffer off the chain is 23,
/// whatever follows the records, and that is the log.
#[test]
fn no_magazine_list_in_the_input() {
    for form in KERNEL_FORMS {
        let input = input_of(&dump_with_head(form, form.record(0)));
        let text = "heap report 1\n0 fault 23\n1 allocated 20\n2 free\nchain 1 end\nfaults 1\n";
        for (words, expected) in [(0, text), (1, "refused 3\n"), (4, text)] {
            let longer = [input.clone(), form.words(&vec![BUFFER_0; words])].concat();
            assert_eq!(written(&longer), expected, "{words}");
            assert_eq!(run(longer).0, expected, "{words}");
        }
    }
}

#[test]
fn endless_input() {
    let zeros = File::open("/dev/zero").unwrap();
    let output = command().stdin(zeros).output().unwrap();
    assert_eq!(output.stdout, b"refused 1\n");
}
