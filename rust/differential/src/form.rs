//! The forms of an image: the form of its sheet, under either profile.

use reference::{area_lengths, sheet_order, Order, Profile, SHEET_LENGTH, SHORT_SHEET_LENGTH};

/// A sheet of the short form, which has no tag 9 and means high byte first, and of the long
/// one with each order (S10); under the userland profile the same three. The image does not
/// say its profile.
#[derive(Clone, Copy, PartialEq, Eq, PartialOrd, Ord, Debug)]
pub enum Form {
    Short,
    High,
    Low,
    UserShort,
    UserHigh,
    UserLow,
}

pub const FORMS: [Form; 6] = [
    Form::Short,
    Form::High,
    Form::Low,
    Form::UserShort,
    Form::UserHigh,
    Form::UserLow,
];

/// The forms of each profile.
pub const KERNEL_FORMS: [Form; 3] = [Form::Short, Form::High, Form::Low];
pub const USER_FORMS: [Form; 3] = [Form::UserShort, Form::UserHigh, Form::UserLow];

/// The forms that lay out writes, one for each profile and order.
pub const LONG_FORMS: [Form; 4] = [Form::High, Form::Low, Form::UserHigh, Form::UserLow];

/// Those of the kernel profile, one for each order.
pub const KERNEL_LONG_FORMS: [Form; 2] = [Form::High, Form::Low];

impl Form {
    /// The form that lay out writes for a profile and an order.
    pub fn laid_out(profile: Profile, order: Order) -> Form {
        match (profile, order) {
            (Profile::Kernel, Order::HighFirst) => Form::High,
            (Profile::Kernel, Order::LowFirst) => Form::Low,
            (Profile::Userland, Order::HighFirst) => Form::UserHigh,
            (Profile::Userland, Order::LowFirst) => Form::UserLow,
        }
    }

    /// The form with the short sheet.
    pub fn short(profile: Profile) -> Form {
        match profile {
            Profile::Kernel => Form::Short,
            Profile::Userland => Form::UserShort,
        }
    }

    /// The form of a sheet as it is, none for one that is refused under the profile.
    pub fn of_sheet(profile: Profile, sheet: &[u8]) -> Option<Form> {
        area_lengths(profile, sheet).ok()?;
        let order = sheet_order(sheet).ok()?;
        Some(match sheet.len() {
            SHORT_SHEET_LENGTH => Form::short(profile),
            _ => Form::laid_out(profile, order),
        })
    }

    /// The same form of the sheet, under a profile.
    pub fn under(self, profile: Profile) -> Form {
        if self.is_short() {
            Form::short(profile)
        } else {
            Form::laid_out(profile, self.order())
        }
    }

    /// The profile to be named in a call.
    pub fn profile(self) -> Profile {
        match self {
            Form::Short | Form::High | Form::Low => Profile::Kernel,
            Form::UserShort | Form::UserHigh | Form::UserLow => Profile::Userland,
        }
    }

    /// The order of the words in an image of this form.
    pub fn order(self) -> Order {
        match self {
            Form::Short | Form::High | Form::UserShort | Form::UserHigh => Order::HighFirst,
            Form::Low | Form::UserLow => Order::LowFirst,
        }
    }

    pub fn is_short(self) -> bool {
        matches!(self, Form::Short | Form::UserShort)
    }

    pub fn sheet_length(self) -> usize {
        if self.is_short() {
            SHORT_SHEET_LENGTH
        } else {
            SHEET_LENGTH
        }
    }
}
