//! What should stand in a chunk: the buffer, the redzone words R0 and R1, and the tag words T0
//! and T1. Rules C4, C6, C7 and U6.

use combgallop::{Image, Order, Profile};

const FREE_FILL: u32 = 0xdead_beef;
/// A redzone word that nobody has written to; as R1 it is the mark of a whole grant.
pub const REDZONE: u32 = 0xfeed_face;
const GUARD: u8 = 0xbb;
const HEADER_LENGTH: usize = 8;
const HEADER_MAGIC: u32 = 0x3a10_c000;

/// The bytes of a chunk, and how long its buffer is.
#[derive(Clone, Copy)]
pub struct Chunk<'a> {
    profile: Profile,
    order: Order,
    bytes: &'a [u8],
    size: usize,
}

/// The bytes that should stand in a chunk, none where any may stand.
pub type Expected = Vec<Option<u8>>;

impl<'a> Chunk<'a> {
    pub fn new(image: Image<'a>, index: u32) -> Option<Chunk<'a>> {
        Some(Chunk {
            profile: image.profile(),
            order: image.order(),
            bytes: image.chunk(index)?,
            size: image.sheet().buffer_size as usize,
        })
    }

    pub fn bytes(&self) -> &'a [u8] {
        self.bytes
    }

    fn word(&self, at: usize) -> u32 {
        let mut bytes = [0; 4];
        bytes.copy_from_slice(&self.bytes[at..at + 4]);
        self.order.word(bytes)
    }

    /// The word that holds the size.
    pub fn r1(&self) -> u32 {
        self.word(self.size + 4)
    }

    pub fn t0(&self) -> u32 {
        self.word(self.size + 8)
    }

    pub fn t1(&self) -> u32 {
        self.word(self.size + 12)
    }

    /// Of a free chunk: the fill, the redzone, and the tag as it is.
    pub fn expected_free(&self) -> Expected {
        let fill = self.order.bytes(FREE_FILL).into_iter().cycle();
        let redzone = self.order.bytes(REDZONE).repeat(2);
        let tag = &self.bytes[self.size + 8..];
        let bytes = fill.take(self.size).chain(redzone);
        bytes.chain(tag.iter().copied()).map(Some).collect()
    }

    /// Of an allocated chunk whose R1 tells the grant: header, R0 and guard; R1 and the tag as
    /// they are. The client's bytes may be any.
    pub fn expected_allocated(&self) -> Expected {
        let mut expected = vec![None; self.size];
        let r0 = self.order.bytes(REDZONE);
        let rest = &self.bytes[self.size + 4..];
        expected.extend(r0.iter().chain(rest).map(|byte| Some(*byte)));
        if let Some(size) = self.coded_size() {
            let header = self.expected_header(size).into_iter().map(Some);
            expected.splice(..header.len(), header);
            expected[size] = Some(GUARD);
        }
        expected
    }

    /// The header of a coded size: no byte but in userland.
    pub fn expected_header(&self, size: usize) -> Vec<u8> {
        let size = size as u32;
        match self.profile {
            Profile::Kernel => Vec::new(),
            Profile::Userland => {
                let words = [size, HEADER_MAGIC.wrapping_sub(size)];
                words.map(|word| self.order.bytes(word)).concat()
            }
        }
    }

    /// The size whose code R1 is, none after a whole grant.
    pub fn coded_size(&self) -> Option<usize> {
        let mut sizes = 1..=self.size;
        sizes.find(|size| 251 * *size as u32 + 1 == self.r1())
    }

    /// The header as it is.
    pub fn header(&self) -> &'a [u8] {
        &self.bytes[..HEADER_LENGTH]
    }
}
