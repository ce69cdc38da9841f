mod gone;
mod twice;
mod there;
mod broken;

mod globs {
    use super::gone::*;

    pub struct Perhaps(Thing);
}

use there::There;

pub struct Known {
    pub there: There,
    pub byte: u8,
}

pub struct Unknown(gone::Thing);
pub struct Twice(twice::Thing);
