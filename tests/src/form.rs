//! The two forms in which claims are checked: a resource is marked in a byte of the scratch,
//! or in a bit of it.

use crate::c::{feedback_claims, feedback_claims_bits};
use crate::model::Model;
use crate::plain::{plain_claims, plain_claims_bits};
use crate::{claims, claims_bits, ClaimsAnswer, Settings};
use std::fmt;

/// What of the scratch a resource has.
#[derive(Clone, Copy, Debug, PartialEq, Eq)]
pub enum Form {
    Bytes,
    Bits,
}

/// Both forms.
pub const FORMS: [Form; 2] = [Form::Bytes, Form::Bits];

/// The C call of either form.
pub type OnClaims =
    unsafe extern "C" fn(Settings, u16, *const u16, usize, *mut u8, usize) -> ClaimsAnswer;

impl Form {
    /// The bytes of scratch for as many resources; with fewer 15 is due.
    pub fn need(self, resources: usize) -> usize {
        match self {
            Self::Bytes => resources,
            Self::Bits => (resources + 7) / 8,
        }
    }

    /// The engine's C call.
    pub fn call(self) -> OnClaims {
        match self {
            Self::Bytes => feedback_claims,
            Self::Bits => feedback_claims_bits,
        }
    }

    /// The plain implementation's.
    pub fn plain_call(self) -> OnClaims {
        match self {
            Self::Bytes => plain_claims,
            Self::Bits => plain_claims_bits,
        }
    }

    /// The engine's answer, with the marks it leaves.
    pub fn claims(
        self,
        settings: Settings,
        n: u16,
        list: &[u16],
        scratch: &mut [u8],
    ) -> ClaimsAnswer {
        match self {
            Self::Bytes => claims(settings, n, list, scratch),
            Self::Bits => claims_bits(settings, n, list, scratch),
        }
    }

    /// The model's answer, and every byte of the scratch afterwards.
    pub fn model(
        self,
        model: &Model,
        settings: Settings,
        n: u16,
        list: &[u16],
        scratch: &[u8],
    ) -> (ClaimsAnswer, Vec<u8>) {
        match self {
            Self::Bytes => model.claims(settings, n, list, scratch),
            Self::Bits => model.claims_bits(settings, n, list, scratch),
        }
    }

    /// The plain implementation's answer, with the marks it leaves.
    pub fn plain(
        self,
        settings: Settings,
        n: u16,
        list: &[u16],
        scratch: &mut [u8],
    ) -> ClaimsAnswer {
        let (call, start, count) = (self.plain_call(), list.as_ptr(), list.len());
        // SAFETY: each slice is lent with its own length, and by their types the two
        // do not overlap.
        unsafe { call(settings, n, start, count, scratch.as_mut_ptr(), scratch.len()) }
    }
}

/// The name of the C call.
impl fmt::Display for Form {
    fn fmt(&self, f: &mut fmt::Formatter) -> fmt::Result {
        f.write_str(match self {
            Self::Bytes => "feedback_claims",
            Self::Bits => "feedback_claims_bits",
        })
    }
}
