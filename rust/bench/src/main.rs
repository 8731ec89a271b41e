//! Times the verified library beside the second program and plain C, on the same inputs
//! in the same run, prints the tables, and fails where a requirement does not hold.

mod calls;
mod fill;
mod growth;
mod limits;
mod lists;
mod orders;
mod placed;
mod plain;
mod reader;
mod requirement;
mod sides;
mod table;
mod timing;

use std::process::ExitCode;

use requirement::Requirement;
use timing::{LEAST_SAMPLE, SAMPLES};

const SIDES: &str = "\
Nothing is cleared before a call: rows, outputs and areas hold what the call before it
left there.

The second program is timed as it stands. Its inspect fills lent rows, as the library's
does, but makes `Vec`s on the way: of how often each buffer is listed, of the records that
name each buffer, of the records met, and of the verdicts. Latest makes the second of
these. Its report makes a `String` for each line and for the text, which it copies to the
output.";

const READER: &str = "
### Inspect and report

Beside each pair stands what reading the bytes takes: `memcmp` of heap and records with
an equal copy; a plain read of them, the sum of their 8-byte words; and a byte scan, a
loop that compares one byte after the other with the free fill and stops at the first
that differs. The scan reads a run as long as the heap which is that fill throughout;
the heap's own redzones and tags would stop it.
";

const ORDERS: &str = "
### Both orders

Inspect of an image whose words have their low byte first, beside the same image with the
high byte first: the same words and the same findings. In the other tables the high byte
stands first, but in the rows that say otherwise.
";

const PROFILES: &str = "
### Both profiles

Inspect of a userland image, whose records are longer and whose sized grants have a header,
beside an image of the kernel profile with the same buffers out: the same verdicts. Both have
the high byte first. In the other tables all images are of the kernel profile. For this there
is no requirement:
";

const LISTS: &str = "
### Magazine lists

Inspect with a list of n words, one for each buffer: every buffer is free, in a magazine and off
the chain. First beside as many free buffers that are on the chain, with no list: the fill of
each is compared on both sides. Then beside the same image without its list, where no buffer is
on the chain or in a magazine, so that no fill is compared. In the other tables the list is
empty, but where they say otherwise. For this there is no requirement:
";

const PLAIN: &str = "
### Beside plain C

The same calls as a C programmer would write them in place of the library's
(`rust/timed/plain`, compiled by gcc with -O3). A free buffer is compared with a page of the
free fill by `memcmp`, and a buffer is filled from such a page by `memcpy`. Answers, rows
and areas are the same. Plain C has a loop for each order, compiled apart; the limits are
for the high byte first.
";

const LISTED: &str = "
With a magazine list of n words, where every buffer is in a magazine. For this there is no
requirement:
";

const FILL: &str = "
### The fill test alone

The library compares a buffer with its fill, and fills it, eight bytes at a time. Here
both are called by themselves, the test beside the form that compares one byte after the
other. Many calls are made at a time: to reach a single one takes about as long as the
shortest do.

Nothing differs; `memcmp` is with an equal copy:
";

const PAGED: &str = "
The areas of inspect begin 16 bytes behind a page there, as malloc puts large ones. Where
they begin a page, `memcmp` of long buffers, 32 bytes at a time, takes a fifth less; the
library, 16 bytes at a time, takes the same. For this there is no requirement:
";

const EARLY: &str = "
One of the first eight bytes differs; by eights to byte by byte for each place, and the
times for the place where that is highest:
";

const LATE: &str = "
A later byte differs. The blocks of 32 bytes are read to the last one before it is looked
for: soon behind the first eight bytes of a long run it costs what the whole run costs
where nothing differs, which is more than byte by byte. For this there is no requirement:
";

const FILLING: &str = "
The fill, beside `memset` of as many bytes:
";

const GROWTH: &str = "
### Growth of inspect
";

const LATEST: &str = "
### Latest transaction
";

const CALLS: &str = "
### Calls
";

const REQUIREMENTS: &str = "
### Requirements

Each is the median of the turns' ratios in this run. \"No slower\" is 1.00, and 0.05 for
noise.

| requirement | at most | worst | where | cases that keep it | |
|---|--:|--:|---|--:|---|";

/// Prints every table, and answers what the times have to keep to.
fn time_all() -> Vec<Requirement> {
    println!("{READER}");
    let mut requirements = Vec::from(reader::time_reader());
    println!("{ORDERS}");
    requirements.push(orders::time_orders());
    println!("{PROFILES}");
    orders::time_profiles();
    println!("{LISTS}");
    lists::time_lists();
    println!("{PLAIN}");
    requirements.extend(plain::time_plain());
    println!("{PAGED}");
    plain::time_paged();
    println!("{LISTED}");
    plain::time_listed();
    println!("{FILL}");
    requirements.extend(fill::time_equal());
    println!("{EARLY}");
    requirements.push(fill::time_early());
    println!("{LATE}");
    fill::time_late();
    println!("{FILLING}");
    fill::time_fill();
    println!("{GROWTH}");
    requirements.push(growth::time_growth());
    println!("{LATEST}");
    reader::time_latest();
    println!("{CALLS}");
    requirements.push(calls::time_calls());
    requirements
}

fn main() -> ExitCode {
    let least = LEAST_SAMPLE / 1000.0;
    println!(
        "Times are nanoseconds of one call, the median of {SAMPLES} samples. A sample is as many"
    );
    println!("calls as take {least} µs or more. The calls of one row are sampled in turns, and a");
    println!("ratio is the median of the turns' ratios.");
    println!("{SIDES}");

    let requirements = time_all();
    println!("{REQUIREMENTS}");
    for requirement in &requirements {
        println!("{requirement}");
    }
    if requirements.iter().all(Requirement::holds) {
        ExitCode::SUCCESS
    } else {
        ExitCode::FAILURE
    }
}
