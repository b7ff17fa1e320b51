//! The station's side: the reading of a reply and the claims of a cell.

use super::{bundles, first_met, is_short, resources_at, Layout, Model, Symbol};
use crate::{ClaimsAnswer, ReadingAnswer, Settings, NONE, NOT_TOLD};
use std::collections::{HashMap, HashSet};
use std::ops::Range;

/// What each bit of a byte counts, the lowest bit first.
const WEIGHTS: [u8; 8] = [1, 2, 4, 8, 16, 32, 64, 128];

impl Model {
    pub fn reading(
        &self,
        settings: Settings,
        n: u16,
        told: u16,
        resource: u16,
        b0: u16,
        b1: u16,
    ) -> ReadingAnswer {
        let layout = match self.layout(settings, n) {
            Err(refusal) => return ReadingAnswer::refused(refusal),
            Ok(layout) => layout,
        };
        let window = self.window(settings.config, n).expect("a window");
        let size = window.size();
        let is_told = told != NOT_TOLD;
        // What is told is looked at whatever the resource is that came in. A position
        // past the last has no subframe.
        let told_k = window.k.get(usize::from(told));
        let wrongly_told = first_met([
            (20, told_k.is_some_and(|k| is_short(settings, (n + 20 - k) % 10))),
            (11, is_told && told_k.is_none()),
            (18, is_told && settings.scheduled == NONE),
        ]);
        if let Some(refusal) = wrongly_told {
            return ReadingAnswer::refused(refusal);
        }
        let is_block = is_told && resource == settings.scheduled;
        let named = if is_block { Some((told, 0)) } else { layout.pair_at(resource, settings.n1) };
        let Some((position, cce)) = named else {
            return ReadingAnswer::refused(13);
        };
        match self.bits_at(settings, size, (position, cce), (b0, b1)) {
            None => ReadingAnswer::refused(14),
            Some(read) if is_block => read.as_block(),
            Some(read) => read,
        }
    }

    /// What two bits say at a position, if they say something.
    fn bits_at(
        &self,
        settings: Settings,
        size: u16,
        (position, cce): (u16, u16),
        (b0, b1): (u16, u16),
    ) -> Option<ReadingAnswer> {
        if b0 > 1 || b1 > 1 {
            return None;
        }
        if bundles(settings, size) {
            let one_bit = settings.blocks == 1;
            let is_reply = b1 == 0 || !one_bit;
            return is_reply.then(|| ReadingAnswer::bundled(position, cce, b0, b1));
        }
        let delivered = self.delivered(size, Symbol { index: position, b0, b1 })?;
        Some(ReadingAnswer::multiplexed(position, cce, delivered))
    }

    /// The answer to a list of claims, and every byte of the scratch afterwards. Each claim
    /// has its resources, and is held against those of every claim before it.
    pub fn claims(
        &self,
        settings: Settings,
        n: u16,
        claims: &[u16],
        scratch: &[u8],
    ) -> (ClaimsAnswer, Vec<u8>) {
        let kept = scratch.to_vec();
        let layout = match self.layout(settings, n) {
            Err(refusal) => return (ClaimsAnswer::refused(refusal, 0), kept),
            Ok(layout) => layout,
        };
        let all = layout.resources(settings);
        if scratch.len() < all.len() {
            return (ClaimsAnswer::refused(15, 0), kept);
        }
        let of_claim = layout.of_claims(settings);
        if let Some(index) = claims.iter().position(|claim| !of_claim.contains_key(claim)) {
            return (ClaimsAnswer::refused(16, index), kept);
        }
        let of_claims: Vec<&Range<u16>> = claims.iter().map(|claim| &of_claim[claim]).collect();
        let share = |one: &Range<u16>, other: &Range<u16>| {
            one.clone().any(|resource| other.contains(&resource))
        };
        // No two claims before the first clash share a resource, so this ends early.
        let clashes = |index: &usize| {
            of_claims[..*index].iter().any(|earlier| share(earlier, of_claims[*index]))
        };
        let clash = (0..claims.len()).find(clashes);
        let before = &of_claims[..clash.unwrap_or(claims.len())];
        let marked: HashSet<u16> = before.iter().copied().cloned().flatten().collect();
        let beyond = &scratch[all.len()..];
        let marks = all.map(|resource| u8::from(marked.contains(&resource)));
        let left = marks.chain(beyond.iter().copied()).collect();
        (clash.map_or(ClaimsAnswer::CLEAN, ClaimsAnswer::clash), left)
    }

    /// The same with a bit of the scratch for each resource. Here the resources of the
    /// claims are taken one after another, until one is taken already; the bytes are made
    /// afterwards, of eight resources each and the last of those that are left over.
    pub fn claims_bits(
        &self,
        settings: Settings,
        n: u16,
        claims: &[u16],
        scratch: &[u8],
    ) -> (ClaimsAnswer, Vec<u8>) {
        let kept = scratch.to_vec();
        let layout = match self.layout(settings, n) {
            Err(refusal) => return (ClaimsAnswer::refused(refusal, 0), kept),
            Ok(layout) => layout,
        };
        let all: Vec<u16> = layout.resources(settings).collect();
        let eights: Vec<&[u16]> = all.chunks(8).collect();
        if scratch.len() < eights.len() {
            return (ClaimsAnswer::refused(15, 0), kept);
        }
        let of_claim = layout.of_claims(settings);
        if let Some(index) = claims.iter().position(|claim| !of_claim.contains_key(claim)) {
            return (ClaimsAnswer::refused(16, index), kept);
        }
        let mut taken: HashSet<u16> = HashSet::new();
        let clash = claims.iter().position(|claim| {
            let mut wanted = of_claim[claim].clone();
            let is_late = wanted.any(|resource| taken.contains(&resource));
            if !is_late {
                taken.extend(of_claim[claim].clone());
            }
            is_late
        });
        let byte = |eight: &[u16]| -> u8 {
            let weighed =
                eight.iter().zip(WEIGHTS).filter(|(resource, _)| taken.contains(*resource));
            weighed.map(|(_, weight)| weight).sum()
        };
        let marks = eights.iter().map(|eight| byte(eight));
        let left = marks.chain(scratch[eights.len()..].iter().copied()).collect();
        (clash.map_or(ClaimsAnswer::CLEAN, ClaimsAnswer::clash), left)
    }
}

impl Layout {
    /// Every resource that a claim of the window can have: from that of the first pair to
    /// the last one of the last pair.
    fn resources(&self, settings: Settings) -> Range<u16> {
        let Self(pairs) = self;
        settings.n1..resources_at(settings, pairs.len() as u16 - 1).end
    }

    /// Every claim that is allowed, with its resources.
    fn of_claims(&self, settings: Settings) -> HashMap<u16, Range<u16>> {
        let Self(pairs) = self;
        let numbered = (0..).zip(pairs);
        let of_pair =
            |(place, (m, cce)): (u16, &(u16, u16))| (m * 256 + cce, resources_at(settings, place));
        numbered.map(of_pair).collect()
    }
}
