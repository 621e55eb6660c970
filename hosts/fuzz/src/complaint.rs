//! What a check says when it fails.

pub struct Complaint {
    /// The check's name, by which a failure is known again while it is made smaller.
    pub check: &'static str,
    pub detail: String,
}

pub type Checked<T = ()> = Result<T, Complaint>;

macro_rules! ensure {
    ($holds:expr, $check:literal, $($detail:tt)*) => {
        if !$holds {
            return Err($crate::complaint::Complaint { check: $check, detail: format!($($detail)*) });
        }
    };
}
pub(crate) use ensure;
