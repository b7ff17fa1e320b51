//! What is confirmed and what is credited of a window, and the account that it is credited to.
//!
//! The sizes are looked up in Table 7.1.7.2.1-1 as the data file has it. Products and sums are
//! taken in 128 bits, where none is too great.

use super::confirmation::{positions_of, told, Blocks, Rule, Transmission, CONFIRMED, CREDITED};
use super::{edge, first_met, is_short, is_special, Model, Window};
use crate::{
    Account, ConfirmedAnswer, CreditAnswer, Exchange, Opened, Sent, SentWindow, Settings, NONE,
};
use std::collections::HashMap;

/// The table: first a line with the N_PRB of each column, then a line for each I_TBS.
const TABLE: &str = include_str!("../../data/table-7.1.7.2.1-1.csv");

/// The sizes, by I_TBS and N_PRB.
pub(super) struct SizeTable(HashMap<(u16, u16), u32>);

impl SizeTable {
    pub fn new() -> Self {
        let mut lines = TABLE.lines();
        let columns: Vec<&str> = lines.next().expect("a line of N_PRB").split(',').collect();
        assert_eq!(columns[0], "I_TBS");
        let mut sizes = HashMap::new();
        for line in lines {
            let fields: Vec<&str> = line.split(',').collect();
            assert_eq!(fields.len(), columns.len(), "{line}");
            for (column, size) in columns.iter().zip(&fields).skip(1) {
                let place = (super::number(fields[0]), super::number(column));
                let size = size.parse().expect("a size");
                assert_eq!(sizes.insert(place, size), None, "{place:?} stands twice");
            }
        }
        Self(sizes)
    }
}

impl Model {
    pub fn confirmed(&self, exchange: &Exchange) -> ConfirmedAnswer {
        self.confirmed_by(CONFIRMED, exchange)
    }

    /// The same by another rule.
    pub fn confirmed_by(&self, rule: Rule, exchange: &Exchange) -> ConfirmedAnswer {
        match self.blocks_by(rule, exchange, &[]) {
            Err(refusal) => ConfirmedAnswer::refused(refusal),
            Ok(blocks) => {
                let (first, second) = positions_of(blocks);
                ConfirmedAnswer::of(first, second)
            }
        }
    }

    pub fn open_account(&self, price: u32) -> Opened {
        let account = Account::new(price);
        Opened { refusal: first_met(account_causes(account)).unwrap_or(0), account }
    }

    pub fn credit(&self, exchange: &Exchange, account: Account) -> CreditAnswer {
        self.credit_by(CREDITED, exchange, account)
    }

    /// The same by another rule.
    pub fn credit_by(&self, rule: Rule, exchange: &Exchange, account: Account) -> CreditAnswer {
        let causes: Vec<(u16, bool)> =
            self.size_causes(exchange).into_iter().chain(account_causes(account)).collect();
        match self.blocks_by(rule, exchange, &causes) {
            Err(refusal) => CreditAnswer::refused(refusal, account),
            Ok(blocks) => added(account, self.octets_of(exchange, blocks)),
        }
    }

    /// An account to which so many octets are credited: refused, or with that credit.
    pub fn add(&self, account: Account, octets: u32) -> CreditAnswer {
        match first_met(account_causes(account)) {
            Some(refusal) => CreditAnswer::refused(refusal, account),
            None => added(account, octets),
        }
    }

    /// The blocks that a rule confirms, or the first refusal, with further causes that came
    /// with a call.
    fn blocks_by(
        &self,
        rule: Rule,
        exchange: &Exchange,
        further: &[(u16, bool)],
    ) -> Result<Blocks, u16> {
        let Exchange { settings, n, resource, b0, b1, .. } = *exchange;
        self.layout(settings, n)?;
        let window = self.window(settings.config, n).expect("a window");
        let entries = entries(window, &exchange.sent);
        let of_sent = self.sent_causes(settings, window, entries);
        if let Some(refusal) = first_met(of_sent.into_iter().chain(further.iter().copied())) {
            return Err(refusal);
        }
        let sent: Vec<Option<Transmission>> =
            entries.iter().map(|entry| Transmission::of(*entry)).collect();
        let read = self.reading(settings, n, told(&sent), resource, b0, b1);
        match read.refusal {
            0 => Ok(rule.confirms(window, &sent, read)),
            refusal => Err(refusal),
        }
    }

    /// The causes of a refusal at any position of what was sent.
    fn sent_causes(
        &self,
        settings: Settings,
        window: &Window,
        entries: &[Sent],
    ) -> Vec<(u16, bool)> {
        let is_block = |entry: &Sent| entry.signalled == 0 && entry.blocks > 0;
        let blocks = entries.iter().filter(|entry| is_block(entry)).count();
        let mut causes = Vec::new();
        for (m, entry) in entries.iter().enumerate() {
            let (is_pdcch, carries) = (entry.signalled != 0, entry.blocks > 0);
            causes.push((20, carries && is_short(settings, window.subframe(m))));
            causes.push((10, carries && entry.blocks > settings.blocks));
            causes.push((11, is_pdcch && entry.cce >= edge(settings.nrb, 4)));
            causes.push((12, is_pdcch && ![1, 2, 3, 4].contains(&entry.dai)));
            causes.push((18, is_block(entry) && (settings.scheduled == NONE || blocks > 1)));
        }
        causes
    }

    /// A block that is sent in the window and has no size in the table.
    fn size_causes(&self, exchange: &Exchange) -> Vec<(u16, bool)> {
        let SizeTable(sizes) = &self.sizes;
        let carried = self.carried(exchange).into_iter();
        carried.map(|block| (25, !sizes.contains_key(&(block.itbs, block.nprb)))).collect()
    }

    /// The octets of a set of blocks, all of them carried and with a size.
    fn octets_of(&self, exchange: &Exchange, blocks: Blocks) -> u32 {
        let carried = self.carried(exchange).into_iter();
        let chosen = carried.filter(|block| block.bit & blocks != 0);
        chosen.map(|block| self.size(block.itbs, block.nprb, block.special) / 8).sum()
    }

    /// The size of a block by its I_TBS and N_PRB: in a special subframe the column is three
    /// quarters of N_PRB, rounded down, but at least the first.
    pub fn size(&self, itbs: u16, nprb: u16, special: bool) -> u32 {
        let SizeTable(sizes) = &self.sizes;
        let three_quarters = |column: &u16| 4 * column <= 3 * nprb;
        let column = match special {
            true => (2..=110).rfind(three_quarters).unwrap_or(1),
            false => nprb,
        };
        sizes[&(itbs, column)]
    }

    /// Every block that is carried in the window; none where there is no window.
    fn carried(&self, exchange: &Exchange) -> Vec<CarriedBlock> {
        let Exchange { settings, n, ref sent, .. } = *exchange;
        let mut carried = Vec::new();
        let Some(window) = self.window(settings.config, n) else {
            return carried;
        };
        for (m, entry) in entries(window, sent).iter().enumerate() {
            let special = is_special(settings.config, window.subframe(m));
            let firsts = [(1, entry.itbs0, entry.nprb0), (2, entry.itbs1, entry.nprb1)];
            for (bit, itbs, nprb) in firsts.into_iter().take(entry.blocks.into()) {
                carried.push(CarriedBlock { bit: bit << (2 * m), itbs, nprb, special });
            }
        }
        carried
    }
}

/// A block that is sent: its bit in a set of blocks, its size, and whether it goes in a
/// special subframe.
struct CarriedBlock {
    bit: Blocks,
    itbs: u16,
    nprb: u16,
    special: bool,
}

/// The entries of a sent window that the window has positions for.
fn entries<'a>(window: &Window, sent: &'a SentWindow) -> &'a [Sent] {
    &sent.at[..window.k.len()]
}

/// What an account may be refused for by itself.
fn account_causes(account: Account) -> [(u16, bool); 3] {
    let Account { octets, charged, price, carry } = account;
    let [octets, charged] = [octets, charged].map(u128::from);
    let [price, carry] = [price, carry].map(u128::from);
    [
        (25, price > 1_000_000),
        (25, carry >= 1_000_000),
        (25, octets * price != 1_000_000 * charged + carry),
    ]
}

/// A sound account with so many octets more, unless they are too many. By the equation and the
/// bound of the carry the octets say what was charged and what is carried on.
fn added(account: Account, octets: u32) -> CreditAnswer {
    let total = u128::from(account.octets) + u128::from(octets);
    match u64::try_from(total) {
        Ok(total) if total <= 1_000_000_000_000 => {
            CreditAnswer::of(octets, Account::with(account.price, total))
        }
        _ => CreditAnswer::refused(26, account),
    }
}
