//! The magazines: "a lent list of magazine words (32-bit numbers, not image bytes), each
//! a buffer address, at most n".

use crate::areas::Areas;
use crate::refusal::Refusal;

/// How often the list names each buffer, in the order of their indexes. "A list over n
/// words is refusal 3; a word that is no buffer's start is refusal 4, right after 3."
pub fn listings(areas: &Areas, magazines: &[u32]) -> Result<Vec<usize>, Refusal> {
    if magazines.len() > areas.count() {
        return Err(Refusal::plain(3));
    }
    let mut listed = vec![0; areas.count()];
    for &address in magazines {
        let buffer = areas.buffer_at(address).ok_or(Refusal::plain(4))?;
        listed[buffer] += 1;
    }
    Ok(listed)
}
