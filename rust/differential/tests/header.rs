//! The C header says what the library is: a C program that includes it compiles
//! without a warning, links, and gets the answers worked out by hand from the rules.

use std::fs::File;
use std::path::{Path, PathBuf};
use std::process::Command;

/// The lengths of the dump's areas, 3 x (24 + 16) and 3 x 96, and a number past them
/// that stays 7; under the userland profile 3 x 100 for the records; room for one only; a
/// sheet one byte too short. Its survey, with a number past the
/// rows and one past the chain; room for too few rows, for too little of the chain, and
/// for either, but first a log of 15 bytes. The chain meets record 2 and then record 0,
/// whose next word leads to no record, and then back to record 2, which names buffer 0.
/// Wrong flags, and then a wrong tag as well.
const DUMP: &str = "\
area lengths 0 0 0\nlengths 120 288 7
area lengths 0 0 0\nlengths 120 300 7
area lengths 11 0 0\nlengths 7 7 7
area lengths 1 0 0\nlengths 7 7 7
survey 0 0 3\nrows 0 0 0 1 2 20 2 0 0 7\nchain 2 0 0 7
survey 11 0 0\nrows 7 7 7 7 7 7 7 7 7 7\nchain 7 7 7 7
survey 11 0 0\nrows 7 7 7 7 7 7 7 7 7 7\nchain 7 7 7 7
survey 3 0 0\nrows 7 7 7 7 7 7 7 7 7 7\nchain 7 7 7 7
survey 0 0 3\nrows 0 0 0 1 2 20 2 0 0 7\nchain 2 1 0 7
survey 0 0 3\nrows 0 22 0 1 2 20 2 0 0 7\nchain 2 2 2 7
area lengths 2 0 0\nlengths 7 7 7
survey 2 0 0\nrows 7 7 7 7 7 7 7 7 7 7\nchain 7 7 7 7
survey 1 0 0\nrows 7 7 7 7 7 7 7 7 7 7\nchain 7 7 7 7
";

/// The dump's findings; room for too few; records of a wrong length under the userland
/// profile; the latest transactions of its buffers, of
/// which the log has one row for the record of buffer 1, and of a buffer too many; room
/// for too little; the report. All this is the same in every form.
const FOUND: &str = "\
inspect 0 0 3\nrows 0 0 0 1 2 20 2 0 0 0
inspect 11 0 0
inspect 3 0 0
latest 0 0 2147483650
latest 0 0 0
latest 0 0 2147483648
latest 4 0 0
report 11 0 0
report 0 0 64
heap report 1
0 free
1 allocated 20
2 free
chain 2 end
faults 0
";

/// The dump with a magazine list, after its buffer 0 was taken off the chain, so that record 0
/// of buffer 2 is all that it meets. No list: 23. Buffer 0 listed: 3. Buffer 2 as well, which
/// is on the chain: 22. Buffer 0 twice: 22. Buffer 1 alone, which is allocated: 24, and 23 for
/// buffer 0. Four words for three buffers, with too little room: 3. One of the four no buffer's
/// start: still 3; two words, one of them no start, with too little room: 4; with a log of 15
/// bytes: 4 by inspect, which has no log, and 3 by the others. Sound with too little room: 11.
/// 2^32 + 1 words: 3.
const MAGAZINES: &str = "\
inspect 0 0 3\nrows 0 23 0 1 2 20 2 0 0 7
survey 0 0 3\nrows 0 23 0 1 2 20 2 0 0 7\nchain 1 0 0 7
report 0 0 68
heap report 1
0 fault 23
1 allocated 20
2 free
chain 1 end
faults 1
inspect 0 0 3\nrows 0 3 0 1 2 20 2 0 0 7
survey 0 0 3\nrows 0 3 0 1 2 20 2 0 0 7\nchain 1 0 0 7
report 0 0 66
heap report 1
0 cached
1 allocated 20
2 free
chain 1 end
faults 0
inspect 0 0 3\nrows 0 3 0 1 2 20 2 22 0 7
survey 0 0 3\nrows 0 3 0 1 2 20 2 22 0 7\nchain 1 0 0 7
report 0 0 70
heap report 1
0 cached
1 allocated 20
2 fault 22
chain 1 end
faults 1
inspect 0 0 3\nrows 0 22 0 1 2 20 2 22 0 7
survey 0 0 3\nrows 0 22 0 1 2 20 2 22 0 7\nchain 1 0 0 7
report 0 0 72
heap report 1
0 fault 22
1 allocated 20
2 fault 22
chain 1 end
faults 2
inspect 0 0 3\nrows 0 23 0 1 24 0 2 0 0 7
survey 0 0 3\nrows 0 23 0 1 24 0 2 0 0 7\nchain 1 0 0 7
report 0 0 64
heap report 1
0 fault 23
1 fault 24
2 free
chain 1 end
faults 2
inspect 3 0 0\nrows 7 7 7 7 7 7 7 7 7 7
survey 3 0 0\nrows 7 7 7 7 7 7 7 7 7 7\nchain 7 7 7 7\nreport 3 0 0
inspect 3 0 0\nrows 7 7 7 7 7 7 7 7 7 7
survey 3 0 0\nrows 7 7 7 7 7 7 7 7 7 7\nchain 7 7 7 7\nreport 3 0 0
inspect 4 0 0\nrows 7 7 7 7 7 7 7 7 7 7
survey 4 0 0\nrows 7 7 7 7 7 7 7 7 7 7\nchain 7 7 7 7\nreport 4 0 0
inspect 4 0 0\nrows 7 7 7 7 7 7 7 7 7 7
survey 3 0 0\nrows 7 7 7 7 7 7 7 7 7 7\nchain 7 7 7 7\nreport 3 0 0
inspect 11 0 0\nrows 7 7 7 7 7 7 7 7 7 7
survey 11 0 0\nrows 7 7 7 7 7 7 7 7 7 7\nchain 7 7 7 7\nreport 11 0 0
inspect 3 0 0\nrows 7 7 7 7 7 7 7 7 7 7
survey 3 0 0\nrows 7 7 7 7 7 7 7 7 7 7\nchain 7 7 7 7\nreport 3 0 0
";

/// The dump's buffer 1 by its size code: that of its size 20 and one more, whose remainder is
/// wrong; that of size 0; that of 25, one above the buffer size; and its own, so that it is
/// shown, stored to and freed.
const CODES: &str = "\
inspect 0 0 3\nrows 0 0 0 1 27 0 2 0 0 7\nwrong remainder
show 7 27 0
store 7 27 0
free 7 27 0
inspect 0 0 3\nrows 0 0 0 1 31 0 2 0 0 7\nsize zero
show 7 31 0
store 7 31 0
free 7 31 0
inspect 0 0 3\nrows 0 0 0 1 32 0 2 0 0 7\nabove the buffer size
show 7 32 0
store 7 32 0
free 7 32 0
inspect 0 0 3\nrows 0 0 0 1 2 20 2 0 0 7\nnone of these
show 0 0 20
store 0 0 0
free 0 0 0
";

/// The calls on a fresh image that is high-first: four refused lay outs, two of them by
/// the sheet's length, and one accepted, with the field of its order; the buffers at
/// 4096, 4120 and 4144 granted with 5 bytes and whole, after a size too large and both
/// calls of thread 0 and before one too many; of the first, stamp 0x11 and thread 0x22;
/// what was stored in the first and stands in the second; two wrong grants, and the first
/// two given back, the second by a size that is not read and then again; the second granted
/// anew, with its redzone words, 0xbb before the rest of 0xfeedface and 251 x 8 + 1; the
/// third hurt.
const HIGH: &str = "\
lay out 1 0 0
lay out 1 0 0
lay out 2 0 0
lay out 3 0 0
lay out 0 0 0\n 09 00 01 00
allocate 6 0 0
allocate 13 0 0
free 13 0 0
allocate 0 0 4096\n 00 00 00 00 00 00 00 11 00 00 00 22
allocate 0 0 4120
allocate 0 0 4144
allocate 5 0 0
store 0 0 0
store 10 0 0
show 0 0 5\n ba 61 62 63 64
show 0 0 8\n ba dd ca fe ba dd ca fe
show 4 0 0\n
free 9 0 0
free 9 0 0
free 0 0 0
free 0 0 0
free 8 0 0
store 8 0 0
allocate 0 0 4120\n bb ed fa ce 00 00 07 d9
show 7 28 0\n
";

/// The same, low-first: the stamp is one number of eight bytes, and the words of the fill
/// and of the redzone are turned.
const LOW: &str = "\
lay out 1 0 0
lay out 1 0 0
lay out 2 0 0
lay out 3 0 0
lay out 0 0 0\n 09 00 01 01
allocate 6 0 0
allocate 13 0 0
free 13 0 0
allocate 0 0 4096\n 11 00 00 00 00 00 00 00 22 00 00 00
allocate 0 0 4120
allocate 0 0 4144
allocate 5 0 0
store 0 0 0
store 10 0 0
show 0 0 5\n fe 61 62 63 64
show 0 0 8\n fe ca dd ba fe ca dd ba
show 4 0 0\n
free 9 0 0
free 9 0 0
free 0 0 0
free 0 0 0
free 8 0 0
store 8 0 0
allocate 0 0 4120\n bb fa ed fe d9 07 00 00
show 7 28 0\n
";

/// The calls on a fresh userland image that is high-first: a lay out with records of 96
/// bytes, and one with records of 100; the buffers at 4096, 4136 and 4176 granted with 10
/// bytes, whole, and with 16, the most there is, after sizes of 0 and one too large and both
/// calls of thread 0; of the first, header, fill and the guard at 18; of the third, the
/// redzone words, 0xbb before the rest of 0xfeedface and 251 x 24 + 1; four bytes stored at
/// the client's first, and four that pass its last; where both clients' bytes start, and the
/// bytes; the first given back by its coded size. Then its header is hurt, which every reader
/// and call finds, and mended.
const USERLAND_HIGH: &str = "\
lay out 3 0 0
lay out 0 0 0
allocate 6 0 0
allocate 6 0 0
allocate 13 0 0
free 13 0 0
allocate 0 0 4096\n 00 00 00 12 3a 10 bf ee ba dd ca fe ba dd ca fe ba dd bb fe
allocate 0 0 4136
allocate 0 0 4176\n bb ed fa ce 00 00 17 89
store 0 0 0
store 10 0 0
show 0 0 10\nstart 8\n 61 62 63 64 ba dd ca fe ba dd
show 0 0 24\nstart 0\n ba dd ca fe ba dd ca fe ba dd ca fe ba dd ca fe ba dd ca fe ba dd ca fe
free 9 0 0
";

/// The same, low-first.
const USERLAND_LOW: &str = "\
lay out 3 0 0
lay out 0 0 0
allocate 6 0 0
allocate 6 0 0
allocate 13 0 0
free 13 0 0
allocate 0 0 4096\n 12 00 00 00 ee bf 10 3a fe ca dd ba fe ca dd ba fe ca bb ba
allocate 0 0 4136
allocate 0 0 4176\n bb fa ed fe 89 17 00 00
store 0 0 0
store 10 0 0
show 0 0 10\nstart 8\n 61 62 63 64 fe ca dd ba fe ca
show 0 0 24\nstart 0\n fe ca dd ba fe ca dd ba fe ca dd ba fe ca dd ba fe ca dd ba fe ca dd ba
free 9 0 0
";

/// What is found once the header is hurt, and once it is mended and the buffer given back,
/// in either order. The latest is that of the third buffer, by its record.
const USERLAND_FOUND: &str = "\
inspect 0 0 3\nrows 0 30 0 1 1 0 2 2 16 7
survey 0 0 3\nchain 0 0 0 7
latest 0 0 2147483650
report 0 0 69
heap report 1
0 fault 30
1 whole
2 allocated 16
chain 0 end
faults 1
show 7 30 0\nstart 0\n
store 7 30 0
free 7 30 0
free 0 0 0
inspect 0 0 3\nrows 0 0 0 1 1 0 2 2 16 7
survey 0 0 3\nchain 1 0 0 7
latest 0 0 2147483650
report 0 0 65
heap report 1
0 free
1 whole
2 allocated 16
chain 1 end
faults 0
";

/// The program, compiled with every warning an error.
fn compiled() -> PathBuf {
    let package = Path::new(env!("CARGO_MANIFEST_DIR"));
    let repository = package.join("../..");
    let program = Path::new(env!("CARGO_TARGET_TMPDIR")).join("header");
    let compiled = Command::new("cc")
        .args([
            "-std=c99",
            "-Wall",
            "-Wextra",
            "-Wpedantic",
            "-Werror",
            "-I",
        ])
        .arg(repository.join("include"))
        .arg(package.join("tests/header.c"))
        .arg(repository.join("target/staticlib/libcapi.a"))
        .arg("-o")
        .arg(&program)
        .status()
        .expect("a C compiler named cc");
    assert!(compiled.success());
    program
}

/// All that it writes.
const EXPECTED: [&str; 10] = [
    DUMP,
    FOUND,
    MAGAZINES,
    CODES,
    HIGH,
    LOW,
    USERLAND_HIGH,
    USERLAND_FOUND,
    USERLAND_LOW,
    USERLAND_FOUND,
];

/// The dump's words say the same in the short form and low-first.
#[test]
fn program_in_c() {
    let program = compiled();
    let samples = Path::new(env!("CARGO_MANIFEST_DIR")).join("../../samples");
    for name in ["dump.image", "dump_low.image"] {
        let image = File::open(samples.join(name)).expect("the stored dump");
        let output = Command::new(&program)
            .stdin(image)
            .output()
            .expect("the program starts");
        assert!(output.status.success(), "{name}");
        assert_eq!(
            String::from_utf8_lossy(&output.stdout),
            EXPECTED.concat(),
            "{name}"
        );
    }
}
