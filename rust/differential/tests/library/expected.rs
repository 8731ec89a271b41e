//! What the library must say where the reference says this, in the library's types.

use combgallop::{Answer, BadCode, Fault, Finding, Order, Profile, Refusal, Verdict};

/// Refusal 11, "output shorter than the exact need".
pub const SHORT_OUTPUT: reference::Refusal = reference::Refusal {
    number: 11,
    detail: 0,
};

/// An order, as the library's type names it.
pub fn expected_order(order: reference::Order) -> Order {
    match order {
        reference::Order::HighFirst => Order::HighFirst,
        reference::Order::LowFirst => Order::LowFirst,
    }
}

/// A profile, as the library's type names it.
pub fn expected_profile(profile: reference::Profile) -> Profile {
    match profile {
        reference::Profile::Kernel => Profile::Kernel,
        reference::Profile::Userland => Profile::Userland,
    }
}

/// All 64 bits of an answer, but for that of an accepted show.
pub fn expected_answer(value: Result<u32, reference::Refusal>) -> Answer {
    Answer(match value {
        Ok(value) => u64::from(value) << 32,
        Err(refusal) => u64::from(refusal.number) | u64::from(refusal.detail) << 8,
    })
}

/// The rules' refusals, as the library's type names them.
pub fn expected_refusal(refusal: reference::Refusal) -> Refusal {
    match (refusal.number, refusal.detail) {
        (1, 0) => Refusal::BadSheet,
        (2, 0) => Refusal::BadNumber,
        (3, 0) => Refusal::BadLength,
        (4, 0) => Refusal::NoSuchBuffer,
        (5, 0) => Refusal::NoRoom,
        (6, 0) => Refusal::BadSize,
        (7, 20) => Refusal::Damage(Fault::NotOneRecord),
        (7, 21) => Refusal::Damage(Fault::BadTag),
        (7, 24) => Refusal::Damage(Fault::OnChain),
        (7, 25) => Refusal::Damage(Fault::BadFill),
        (7, 26) => Refusal::Damage(Fault::BadRedzone),
        (7, 27) => Refusal::Damage(Fault::BadSizeCode(BadCode::Remainder)),
        (7, 28) => Refusal::Damage(Fault::Overrun),
        (7, 29) => Refusal::BrokenHead,
        (7, 30) => Refusal::Damage(Fault::BadHeader),
        (7, 31) => Refusal::Damage(Fault::BadSizeCode(BadCode::Zero)),
        (7, 32) => Refusal::Damage(Fault::BadSizeCode(BadCode::Above)),
        (8, 0) => Refusal::NotAllocated,
        (9, 0) => Refusal::OtherGrant,
        (10, 0) => Refusal::PastClient,
        (11, 0) => Refusal::ShortOutput,
        (12, 0) => Refusal::WideStamp,
        (13, 0) => Refusal::NoThread,
        _ => panic!("no call is refused so by the rules: {refusal:?}"),
    }
}

/// How a size code is bad, as the library's type names it.
fn expected_hurt(hurt: reference::CodeHurt) -> BadCode {
    match hurt {
        reference::CodeHurt::WrongRemainder => BadCode::Remainder,
        reference::CodeHurt::SizeZero => BadCode::Zero,
        reference::CodeHurt::AboveBufferSize => BadCode::Above,
    }
}

/// The finding of one buffer.
pub fn expected_finding(finding: &reference::Finding) -> Finding {
    use reference::Verdict as Second;
    let verdict = match finding.verdict {
        Second::Free => Verdict::Free,
        Second::Whole => Verdict::Whole,
        Second::Allocated(size) => Verdict::Allocated(size),
        Second::Cached => Verdict::Cached,
        Second::NotNamedOnce => Verdict::NotOneRecord,
        Second::BadTag => Verdict::BadTag,
        Second::FreedTwice => Verdict::FreedTwice,
        Second::FreeNotMet => Verdict::OffChain,
        Second::AllocatedMet => Verdict::OnChain,
        Second::FillDiffers(offset) => Verdict::BadFill(offset),
        Second::RedzoneDiffers(offset) => Verdict::BadRedzone(offset),
        Second::BadSizeCode(hurt) => Verdict::BadSizeCode(expected_hurt(hurt)),
        Second::GuardDiffers(offset) => Verdict::Overrun(offset),
        Second::BadHeader => Verdict::BadHeader,
    };
    Finding {
        index: finding.index,
        verdict,
    }
}

/// Writes three numbers for each finding over the start of the rows.
pub fn put_rows(rows: &mut [u32], findings: &[reference::Finding]) {
    for (row, finding) in rows.chunks_exact_mut(3).zip(findings) {
        let reference::Finding { index, verdict } = *finding;
        row.copy_from_slice(&[index, verdict.number(), verdict.value()]);
    }
}
