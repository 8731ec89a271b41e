//! What the numbers mean, in words. Every text that is shown of a verdict or a refusal is of
//! these tables, and the README's tables are these.

/// A row of a table.
#[derive(Clone, Copy, PartialEq, Eq, Debug)]
pub struct Meaning {
    pub number: u8,
    /// The header's constant, in small letters and without `CG_`.
    pub name: &'static str,
    /// What is found, or why a call is refused.
    pub words: &'static str,
    /// What a verdict has with it, empty where it has nothing.
    pub with: &'static str,
    /// Where to look first, empty where nothing is hurt.
    pub look: &'static str,
}

const OFFSET: &str = "the offset of the first hurt byte";
const SIZE_CODE: &str = "the task that holds it: the word stands 4 bytes behind the buffer";

/// The verdicts, in the order of their numbers.
pub const VERDICTS: [Meaning; 16] = [
    state(0, "free", "free"),
    state(1, "whole", "allocated whole"),
    state(2, "allocated", "allocated").with("the size that was asked for"),
    state(3, "cached", "free in a magazine"),
    state(
        20,
        "not_one_record",
        "no record names the buffer, or more than one does",
    )
    .look("what wrote over the records: the buffer may be sound"),
    state(
        21,
        "bad_tag",
        "the tag does not name the buffer's record, or says neither free nor allocated",
    )
    .look("the task that held it: the tag stands 8 bytes behind the buffer"),
    state(
        22,
        "freed_twice",
        "freed twice: the chain comes back to it, or it is in magazines twice or more, or in one \
         and on the chain",
    )
    .look("the task that freed it last"),
    state(
        23,
        "off_chain",
        "free, but neither on the chain nor in a magazine",
    )
    .look("the chain, if it is broken or comes back; the magazine list, if none was given"),
    state(
        24,
        "on_chain",
        "allocated, but on the chain or in a magazine",
    )
    .look("the task that freed it and the task that holds it"),
    state(25, "bad_fill", "written to after it was freed")
        .with(OFFSET)
        .look("the task that held it before; its left neighbour"),
    state(
        26,
        "bad_redzone",
        "free, and the 8 bytes behind it were written to",
    )
    .with(OFFSET)
    .look("the task that held it before"),
    state(
        27,
        "size_code_remainder",
        "allocated, and the word that holds its size was written over: it is the code of no size",
    )
    .look(SIZE_CODE),
    state(28, "overrun", "written to past the end of what was granted")
        .with(OFFSET)
        .look("the task that holds it"),
    state(
        30,
        "bad_header",
        "the 8 bytes before the client's, which hold the grant's size, were written over",
    )
    .look("the task that holds it; its left neighbour"),
    state(
        31,
        "size_code_zero",
        "allocated, and the word that holds its size was written over: it is the code of size \
         zero",
    )
    .look(SIZE_CODE),
    state(
        32,
        "size_code_above",
        "allocated, and the word that holds its size was written over: it is the code of a size \
         above the buffer's",
    )
    .look(SIZE_CODE),
];

/// The refusals, in the order of their numbers.
pub const REFUSALS: [Meaning; 13] = [
    state(
        1,
        "bad_sheet",
        "the sheet is neither 48 nor 52 bytes of the stated tags and lengths; for lay out, not 52 \
         bytes long",
    ),
    state(
        2,
        "bad_number",
        "a number of the sheet breaks a limit, or its order is neither 0 nor 1",
    ),
    state(
        3,
        "bad_length",
        "an area or the log has a wrong length, or the magazine list more words than there are \
         buffers",
    ),
    state(
        4,
        "no_such_buffer",
        "no buffer starts at the address or at a word of the magazine list, or has the index",
    ),
    state(5, "no_room", "no buffer is left on the chain"),
    state(
        6,
        "bad_size",
        "the size asked for is 0 or above the largest, which is the buffer's, in userland 8 less",
    ),
    state(
        7,
        "damage",
        "damage was met; the detail is the verdict's number, or 29",
    ),
    state(8, "not_allocated", "the buffer is free"),
    state(9, "other_grant", "the buffer was granted with another size"),
    state(
        10,
        "past_client",
        "the bytes pass the end of what was granted",
    ),
    state(11, "short_output", "the output is too short"),
    state(12, "wide_stamp", "the record's stamp is wider than 32 bits"),
    state(13, "no_thread", "the thread is 0, which is nobody"),
];

/// The detail of refusal 7 that is no verdict.
pub const BROKEN_HEAD: Meaning = state(
    29,
    "broken_head",
    "damage was met: the chain starts at no record",
);

const fn state(number: u8, name: &'static str, words: &'static str) -> Meaning {
    Meaning {
        number,
        name,
        words,
        with: "",
        look: "",
    }
}

impl Meaning {
    const fn with(self, with: &'static str) -> Meaning {
        Meaning { with, ..self }
    }

    const fn look(self, look: &'static str) -> Meaning {
        Meaning { look, ..self }
    }

    /// The row of a number, none where the table has no such number.
    pub fn find(table: &'static [Meaning], number: u8) -> Option<&'static Meaning> {
        table.iter().find(|meaning| meaning.number == number)
    }

    /// The row of a number that is known to have one.
    pub(crate) fn of(table: &'static [Meaning], number: u8) -> &'static Meaning {
        match Meaning::find(table, number) {
            Some(meaning) => meaning,
            None => panic!("the table has no row {number}"),
        }
    }
}
