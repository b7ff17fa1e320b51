//! The cause of a silence. Each of the two is asked for in its own words, and beside a silent
//! answer exactly one of them must hold.

use super::handset::{dai_of, pdcch};
use super::Model;
use crate::{Fed, Handset, Heard, SilenceAnswer};

impl Model {
    /// A feed of nothing, and the cause beside a silent answer. U is the number of PDCCHs that
    /// were heard in the window, and V the DAI of the latest one, which has the smallest k.
    pub fn silence(&self, handset: Handset) -> SilenceAnswer {
        let fed = self.feed(handset, Heard::Nothing);
        if fed.kind != Fed::SILENT {
            return SilenceAnswer::not_silent(fed);
        }
        let members = self.members_of_next(&handset);
        let (pdcchs, blocks): (Vec<_>, Vec<_>) =
            members.into_iter().partition(|member| pdcch(member.heard).is_some());
        let latest = pdcchs.iter().min_by_key(|member| member.k);
        let v = latest.and_then(|member| pdcch(member.heard)).map(|(_, dai)| dai);
        let expected = dai_of(pdcchs.len());
        let nothing_heard = pdcchs.is_empty() && blocks.is_empty();
        let miss_shown = !pdcchs.is_empty() && v != expected;
        match (nothing_heard, miss_shown, v, expected) {
            (true, false, None, None) => SilenceAnswer::nothing_heard(fed),
            (false, true, Some(v), Some(expected)) => SilenceAnswer::miss_shown(fed, v, expected),
            _ => panic!("{handset:?} is silent and has not one cause"),
        }
    }
}
