//! How long the areas of a sheet are.

use crate::{ffi, Answer, Profile, Refusal};

/// How many bytes the heap and the records have to be.
#[derive(Clone, Copy, PartialEq, Eq, Debug)]
pub struct AreaLengths {
    pub heap: usize,
    pub records: usize,
}

/// The lengths that a sheet's areas have to have under a profile.
pub fn area_lengths(profile: Profile, sheet: &[u8]) -> Result<AreaLengths, Refusal> {
    let mut lengths = [0; 2];
    area_lengths_answer(profile, sheet, &mut lengths).done()?;
    let [heap, records] = lengths.map(|length| length as usize);
    Ok(AreaLengths { heap, records })
}

/// Fills two numbers, the length of the heap and that of the records; the answer is as
/// the library gives it. Numbers past those stay. A refusal changes nothing.
pub fn area_lengths_answer(profile: Profile, sheet: &[u8], lengths: &mut [u32]) -> Answer {
    // SAFETY: each pointer comes with the length of its own slice, and nothing else
    // can reach `lengths` before the call returns.
    let answer = unsafe {
        ffi::cg_area_lengths(
            profile.is_userland(),
            sheet.as_ptr(),
            sheet.len(),
            lengths.as_mut_ptr(),
            lengths.len(),
        )
    };
    Answer(answer)
}
