//! What a credit is given: sizes by which the blocks of a window are told apart, and windows
//! whose credit is a given number of octets.

use crate::model::{is_special, Blocks, Model, Window};
use crate::{Exchange, Sent, SentWindow, Settings, Sizes};

/// A size by its I_TBS and N_PRB.
type Size = (u16, u16);

/// Every size of the table: I_TBS 0 to 26, N_PRB 1 to 110.
pub fn every_size() -> impl Iterator<Item = Size> {
    (0..27).flat_map(|itbs| (1..=110).map(move |nprb| (itbs, nprb)))
}

/// Sizes for the blocks of a window, each of more octets than all before it together, so that
/// a sum of octets says which blocks are in it. Of the table's sizes so many can be had.
pub struct ToldApart {
    pub sizes: [Sizes; 9],
    octets: Vec<(Blocks, u32)>,
}

impl ToldApart {
    /// For so many blocks at each position.
    pub fn new(model: &Model, window: &Window, blocks: usize) -> Self {
        let mut sizes = [[(0, 0); 2]; 9];
        let (mut octets, mut sum) = (Vec::new(), 0);
        for block in 0..blocks {
            for (m, sizes) in sizes.iter_mut().enumerate().take(window.k.len()) {
                let special = is_special(window.config, window.subframe(m));
                let of = |(itbs, nprb): &Size| model.size(*itbs, *nprb, special) / 8;
                let greater = every_size().filter(|size| of(size) > sum);
                let next = greater.min_by_key(of).expect("a size that is greater than all before");
                sizes[block] = next;
                sum += of(&next);
                octets.push((1 << (2 * m + block), of(&next)));
            }
        }
        Self { sizes, octets }
    }

    /// The blocks whose octets these are together, if there are any such.
    pub fn blocks(&self, octets: u32) -> Option<Blocks> {
        let (mut rest, mut blocks) = (octets, 0);
        for (block, octets) in self.octets.iter().rev() {
            if *octets <= rest {
                rest -= octets;
                blocks |= block;
            }
        }
        (rest == 0).then_some(blocks)
    }

    /// The octets of some blocks together.
    pub fn octets(&self, blocks: Blocks) -> u32 {
        let chosen = self.octets.iter().filter(|(block, _)| block & blocks != 0);
        chosen.map(|(_, octets)| octets).sum()
    }
}

/// The most octets of one credit: two blocks of the greatest size in four grants.
pub const MOST_OCTETS: u32 = 4 * 2 * 9422;

/// Windows whose credit is a given number of octets, as far as there is one.
pub struct Windows {
    /// By octets the fewest blocks that have them together, and the size of one of these.
    fewest: Vec<Option<(usize, Size)>>,
    /// Every number of octets that a block has, with such a size.
    of_one: Vec<(u32, Size)>,
}

impl Windows {
    pub fn new(model: &Model) -> Self {
        let octets = |(itbs, nprb): Size| (model.size(itbs, nprb, false) / 8, (itbs, nprb));
        let mut of_one: Vec<(u32, Size)> = every_size().map(octets).collect();
        of_one.sort();
        of_one.dedup_by_key(|(octets, _)| *octets);
        let mut fewest = vec![Some((0, (0, 0)))];
        for sum in 1..=MOST_OCTETS {
            let last = |(octets, size): &(u32, Size)| {
                let (before, _) = fewest[sum.checked_sub(*octets)? as usize]?;
                (before < 8).then_some((before + 1, *size))
            };
            let best = of_one.iter().filter_map(last).min_by_key(|(blocks, _)| *blocks);
            fewest.push(best);
        }
        Self { fewest, of_one }
    }

    /// A window of configuration 4 in which up to four grants are sent, each of one block or
    /// of two, and a reply for the last of them, all ACK. No octets are those of a NACK.
    pub fn crediting(&self, octets: u32) -> Option<Exchange> {
        let settings = Settings::plain(4, 50, 10, 0, 2);
        // K of 3 is 6, 5, 4, 7: none of its subframes is a special one.
        let in_time = [3, 0, 1, 2];
        let mut sizes = self.sizes_of(octets)?;
        let (b0, b1) = if octets == 0 { (0, 0) } else { (1, 1) };
        if octets == 0 {
            sizes.push((26, 110));
        }
        let mut sent = SentWindow::NOTHING;
        let mut resource = 0;
        for (j, at) in (0..sizes.len().min(4)).zip(in_time) {
            let second = sizes.get(j + 4).copied();
            let of_both = [sizes[j], second.unwrap_or((0, 0))];
            let blocks = 1 + u16::from(second.is_some());
            sent.at[at] = Sent::grant(blocks, 0, j as u16 + 1, of_both);
            // N_1 is 11, and first CCE 0 at position m has resource m × N_1 + N1.
            resource = 11 * at as u16 + 10;
        }
        Some(Exchange { settings, n: 3, sent, resource, b0, b1 })
    }

    /// At most eight sizes that have so many octets together.
    fn sizes_of(&self, octets: u32) -> Option<Vec<Size>> {
        let (mut rest, mut sizes) = (octets, Vec::new());
        while rest > 0 {
            let (_, size) = (*self.fewest.get(rest as usize)?)?;
            let (octets, _) = self.of_one.iter().find(|(_, each)| *each == size)?;
            sizes.push(size);
            rest -= octets;
        }
        Some(sizes)
    }
}
