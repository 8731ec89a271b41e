//! Areas at a given place in a page. Where an area begins may count for as much as what
//! is timed.

use differential::Image;

const PAGE: usize = 4096;

/// An area that begins so many bytes behind a page's start.
pub struct Placed {
    all: Vec<u8>,
    start: usize,
    length: usize,
}

impl Placed {
    pub fn new(bytes: &[u8], behind: usize) -> Placed {
        let length = bytes.len();
        let mut all = vec![0; length + PAGE + behind];
        let start = all.as_ptr().align_offset(PAGE) + behind;
        all[start..start + length].copy_from_slice(bytes);
        Placed { all, start, length }
    }

    pub fn part(&self) -> &[u8] {
        &self.all[self.start..self.start + self.length]
    }
}

/// What inspect is lent of an image, each area at the same place in a page, and the magazine
/// list with it.
pub struct Lent {
    pub sheet: Placed,
    pub heap: Placed,
    pub records: Placed,
    pub magazines: Vec<u32>,
}

impl Lent {
    pub fn new(image: &Image, behind: usize) -> Lent {
        Lent {
            sheet: Placed::new(&image.sheet, behind),
            heap: Placed::new(&image.heap, behind),
            records: Placed::new(&image.records, behind),
            magazines: image.magazines.clone(),
        }
    }
}
