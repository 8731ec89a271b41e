//! Images of one profile, read under the other: as they are, and with the record area cut or
//! extended to the other's length. Nothing says that they are not the other's, so both
//! programs have to find the same wrong things in them.

use differential::{other_profile, Case, Sequence, FORMS, KERNEL_FORMS, PROFILES};
use reference::Profile;

use crate::calls::{some_call, Twin};
use crate::counts::{Counts, Met, ENDINGS, HEADER_VERDICT};
use crate::survey::Room;
use crate::{area_lengths, inspect, latest, report, survey};

const CASES: u64 = 20_000;
const SEED: u64 = 0x58b4_09ec;

/// What is met under both profiles. Where there is one buffer its record stands at the same
/// place; of more, most are found to be no pairs.
const WANTED: [Met; 11] = [
    Met::Verdict(0),
    Met::Verdict(1),
    Met::Verdict(3),
    Met::Verdict(20),
    Met::Verdict(21),
    Met::Verdict(25),
    Met::Verdict(28),
    Met::Refusal(1, 0),
    Met::Refusal(2, 0),
    Met::Refusal(3, 0),
    Met::Refusal(4, 0),
];

/// The image of a case, to be read under the other profile; now and then with its own
/// records, which have a wrong length there.
fn crossed(profile: Profile, number: u64) -> (Case, Sequence) {
    let (mut case, mut sequence) = Case::listed(profile, SEED, number);
    let image = &mut case.image;
    image.form = image.form.under(other_profile(profile));
    if !sequence.once_in(8) {
        image.records.resize(image.record_length(), 0);
    }
    (case, sequence)
}

fn compare_all(case: &Case, counts: &mut Counts, sequence: &mut Sequence) {
    let image = &case.image;
    let rows = 3 * image.shape.count;
    let found = inspect::compare(image, rows, sequence, case);
    inspect::note(counts, image, found);
    let room = Room { rows, chain: 3 };
    let surveyed = survey::compare(image, room, sequence, case);
    survey::note(counts, image, room, surveyed);
    let found = latest::compare(image, 0, image.times[0], sequence, case);
    latest::note(counts, image, found);
    let text = report::compare(image, 16_384, sequence, case);
    report::note(counts, image, text);
    let lengths = area_lengths::compare(image.profile(), &image.sheet, 2, sequence, case);
    area_lengths::note(counts, image, lengths);
    let mut twin = Twin::new(image.clone(), case, sequence);
    for _ in 0..4 {
        let call = some_call(&twin.image, 8, sequence);
        // Any answer will do that both give.
        let _ = twin.run(&call, counts, sequence);
    }
}

#[test]
fn images_of_the_other_profile() {
    let mut counts = Counts::default();
    for profile in PROFILES {
        for number in 0..CASES {
            let (case, mut sequence) = crossed(profile, number);
            compare_all(&case, &mut counts, &mut sequence);
        }
    }
    let title = "images of the other profile";
    let wanted = [&WANTED[..], &ENDINGS].concat();
    let header = [HEADER_VERDICT, Met::Refused("show", 7, 30)];
    counts.finish_with(title, SEED, &wanted, &header);
    let sized = [
        Met::Verdict(2),
        Met::Accepted("show"),
        Met::Accepted("store"),
    ];
    counts.want(&KERNEL_FORMS, title, &sized);
    counts.want(&FORMS, title, &[Met::Refused("store", 3, 0)]);
}
