//! What is confirmed and what is credited of a window, and the account that it is credited to.
//!
//! What was sent becomes sets of positions in one pass, bit m for position m, and the rules
//! are operations on these.

use super::station::{meaning, SPECIAL_POSITIONS};
use super::{cces, check, is_short, pair, window_size, K};
use crate::{
    Account, ConfirmedAnswer, CreditAnswer, Fed, Opened, ReadingAnswer, Sent, SentWindow, Settings,
    NONE,
};

/// The octets of a block at 110 × I_TBS + N_PRB − 1, in a subframe and in a special one.
static OCTETS: [[u16; 2970]; 2] = octets();

/// The table as the data file has it, but for its first line and the first number of each
/// other line, which count from 0.
const fn octets() -> [[u16; 2970]; 2] {
    let text = include_bytes!("../../data/table-7.1.7.2.1-1.csv");
    let mut octets = [[0; 2970]; 2];
    let (mut at, mut cell) = (0, 0);
    while text[at] != b'\n' {
        at += 1;
    }
    while cell < 2970 {
        if cell % 110 == 0 {
            while text[at] != b',' {
                at += 1;
            }
        }
        let mut bits = 0;
        at += 1;
        while text[at] >= b'0' && text[at] <= b'9' {
            bits = 10 * bits + (text[at] - b'0') as u32;
            at += 1;
        }
        octets[0][cell] = (bits / 8) as u16;
        cell += 1;
    }
    cell = 0;
    while cell < 2970 {
        let three_quarters = 3 * (cell % 110 + 1) / 4;
        let column = if three_quarters == 0 { 1 } else { three_quarters };
        octets[1][cell] = octets[0][cell - cell % 110 + column - 1];
        cell += 1;
    }
    octets
}

/// By configuration, uplink subframe and position m the positions that are not later than m.
static NOT_LATER: [[[u16; 9]; 10]; 7] = not_later();

const fn not_later() -> [[[u16; 9]; 10]; 7] {
    let mut sets = [[[0; 9]; 10]; 7];
    let mut config = 0;
    while config < 7 {
        let mut n = 0;
        while n < 10 {
            let k = K[config][n];
            let mut m = 0;
            while m < k.len() {
                let mut other = 0;
                while other < k.len() {
                    sets[config][n][m] |= ((k[other] >= k[m]) as u16) << other;
                    other += 1;
                }
                m += 1;
            }
            n += 1;
        }
        config += 1;
    }
    sets
}

/// The positions of a window at which things were sent.
struct Positions {
    size: u16,
    pdcchs: u16,
    /// Those with one block or more, and those with two.
    first: u16,
    second: u16,
}

/// A reading for which what it names was sent: the positions that it speaks of, and whether
/// each bit of it is ACK. A multiplexed one speaks of what it delivers.
struct Spoken {
    positions: u16,
    acks: (bool, bool),
}

const NOTHING: Spoken = Spoken { positions: 0, acks: (false, false) };

/// The confirmed blocks, under the signature of the C call.
#[inline(never)]
pub extern "C" fn plain_confirmed(
    settings: Settings,
    n: u16,
    sent: SentWindow,
    resource: u16,
    b0: u16,
    b1: u16,
) -> ConfirmedAnswer {
    let confirmed = positions(&settings, n, &sent).and_then(|all| {
        let read = read(&settings, n, &sent, &all, resource, b0, b1)?;
        let Spoken { positions, acks: (ack0, ack1) } = read;
        let (first, second) = (positions & all.first, positions & all.second);
        let sole = first & !second;
        let of_two = if ack0 { first & second } else { 0 };
        let of_sole = if ack0 | ack1 { sole } else { 0 };
        Ok(ConfirmedAnswer::of(of_two | of_sole, if ack1 { second } else { 0 }))
    });
    confirmed.unwrap_or_else(ConfirmedAnswer::refused)
}

/// A new account, under the signature of the C call.
#[inline(never)]
pub extern "C" fn plain_open_account(price: u32) -> Opened {
    let refusal = if price > Account::DEAREST { 25 } else { 0 };
    Opened { refusal, account: Account::new(price) }
}

/// A credit, under the signature of the C call.
#[inline(never)]
pub extern "C" fn plain_credit(
    settings: Settings,
    n: u16,
    sent: SentWindow,
    resource: u16,
    b0: u16,
    b1: u16,
    account: Account,
) -> CreditAnswer {
    let credited = positions(&settings, n, &sent).and_then(|all| {
        check_sizes(&sent, &all)?;
        check_account(&account)?;
        let Spoken { positions, acks } = read(&settings, n, &sent, &all, resource, b0, b1)?;
        let special = SPECIAL_POSITIONS[usize::from(settings.config)][usize::from(n)];
        let first = if acks.0 { positions & all.first } else { 0 };
        let second = if acks.1 { positions & all.second } else { 0 };
        let octets = of(first, special, |m| (sent.at[m].itbs0, sent.at[m].nprb0))
            + of(second, special, |m| (sent.at[m].itbs1, sent.at[m].nprb1));
        Ok(CreditAnswer::of(octets, add(account, octets)?))
    });
    credited.unwrap_or_else(|refusal| CreditAnswer::refused(refusal, account))
}

/// An account alone: checked, and with so many octets more.
pub fn plain_add(account: Account, octets: u32) -> CreditAnswer {
    match check_account(&account).and_then(|()| add(account, octets)) {
        Ok(after) => CreditAnswer::of(octets, after),
        Err(refusal) => CreditAnswer::refused(refusal, account),
    }
}

/// What was sent, if settings and subframe are allowed and all of it is.
fn positions(settings: &Settings, n: u16, sent: &SentWindow) -> Result<Positions, u16> {
    check(settings)?;
    let size = window_size(settings.config, n)?;
    let cces = cces(settings.nrb);
    let (mut pdcchs, mut first, mut second) = (0, 0, 0);
    let (mut too_many, mut bad_cce, mut bad_dai) = (false, false, false);
    for (m, entry) in sent.at.iter().enumerate().take(size.into()) {
        let Sent { signalled, blocks, cce, dai, .. } = *entry;
        let is_pdcch = signalled != 0;
        pdcchs |= u16::from(is_pdcch) << m;
        first |= u16::from(blocks > 0) << m;
        second |= u16::from(blocks > 1) << m;
        too_many |= blocks > settings.blocks;
        bad_cce |= is_pdcch & (cce >= cces);
        bad_dai |= is_pdcch & (dai.wrapping_sub(1) > 3);
    }
    let special = SPECIAL_POSITIONS[usize::from(settings.config)][usize::from(n)];
    let scheduled = first & !pdcchs;
    if is_short(settings) && first & special != 0 {
        Err(20)
    } else if too_many {
        Err(10)
    } else if bad_cce {
        Err(11)
    } else if bad_dai {
        Err(12)
    } else if scheduled != 0 && (settings.scheduled == NONE || !scheduled.is_power_of_two()) {
        Err(18)
    } else {
        Ok(Positions { size, pdcchs, first, second })
    }
}

fn check_sizes(sent: &SentWindow, all: &Positions) -> Result<(), u16> {
    let is_bad = |itbs: u16, nprb: u16| (itbs > 26) | (nprb.wrapping_sub(1) > 109);
    let mut bad = false;
    for (m, entry) in sent.at.iter().enumerate().take(all.size.into()) {
        bad |= (all.first >> m & 1 == 1) & is_bad(entry.itbs0, entry.nprb0);
        bad |= (all.second >> m & 1 == 1) & is_bad(entry.itbs1, entry.nprb1);
    }
    if bad {
        Err(25)
    } else {
        Ok(())
    }
}

/// The equation is taken apart by whole millions of octets, so that all fits in 64 bits.
fn check_account(account: &Account) -> Result<(), u16> {
    const MILLION: u64 = 1_000_000;
    let Account { octets, charged, price, carry } = *account;
    if price > Account::DEAREST {
        return Err(25);
    }
    let (millions, rest) = (octets / MILLION, octets % MILLION * u64::from(price));
    let due = millions * u64::from(price) + rest / MILLION;
    if (charged, u64::from(carry)) != (due, rest % MILLION) {
        return Err(25);
    }
    Ok(())
}

/// An account that has been checked, with so many octets more. The carry goes on by what they
/// cost, and every whole million of it is charged.
fn add(account: Account, octets: u32) -> Result<Account, u16> {
    let Account { octets: before, charged, price, carry } = account;
    if before > Account::MOST - u64::from(octets) {
        return Err(26);
    }
    let due = u64::from(carry) + u64::from(octets) * u64::from(price);
    let whole = u64::from(Account::WHOLE);
    Ok(Account {
        octets: before + u64::from(octets),
        charged: charged + due / whole,
        price,
        carry: (due % whole) as u32,
    })
}

/// The octets of one block at each of these positions.
fn of(positions: u16, special: u16, size: impl Fn(usize) -> (u16, u16)) -> u32 {
    let (mut left, mut sum) = (positions, 0);
    while left != 0 {
        let m = left.trailing_zeros() as usize;
        let (itbs, nprb) = size(m);
        let table = &OCTETS[usize::from(special >> m & 1)];
        sum += u32::from(table[110 * usize::from(itbs) + usize::from(nprb) - 1]);
        left &= left - 1;
    }
    sum
}

/// What a reply speaks of.
fn read(
    settings: &Settings,
    n: u16,
    sent: &SentWindow,
    all: &Positions,
    resource: u16,
    b0: u16,
    b1: u16,
) -> Result<Spoken, u16> {
    let scheduled = all.first & !all.pdcchs;
    let is_block = scheduled != 0 && resource == settings.scheduled;
    let (position, cce) = match is_block {
        true => (scheduled.trailing_zeros() as u16, 0),
        false => pair(settings, all.size, resource)?,
    };
    let read = meaning(settings, all.size, (position, cce), b0, b1)?;
    let at = usize::from(position);
    if !is_block && (all.pdcchs >> at & 1 == 0 || sent.at[at].cce != cce) {
        return Ok(NOTHING);
    }
    let ReadingAnswer { kind, delivered, b0, b1, .. } = read;
    if kind == Fed::MULTIPLEXED {
        return Ok(Spoken { positions: delivered, acks: (true, true) });
    }
    let acks = (b0 == 1, b1 == 1);
    let alone = 1 << at;
    if is_block {
        return Ok(Spoken { positions: alone, acks });
    }
    let up_to = all.pdcchs & NOT_LATER[usize::from(settings.config)][usize::from(n)][at];
    let positions = if up_to.count_ones() > 4 { alone } else { up_to };
    Ok(Spoken { positions, acks })
}
