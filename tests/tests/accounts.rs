//! Accounts: new ones of every price, lent ones at their bounds and off them, and lists of
//! credits with refused ones among them. What is due is worked out here in 128 bits.

use feedback_tests::charging::{Windows, MOST_OCTETS};
use feedback_tests::compare::Comparison;
use feedback_tests::model::Model;
use feedback_tests::random::Random;
use feedback_tests::{credit, open_account, Account, CreditAnswer, Exchange, Opened};

/// Whether an account is on the equation, with a price and a carry in their range.
fn is_sound(account: Account) -> bool {
    let Account { octets, charged, price, carry } = account;
    let whole = u128::from(octets) * u128::from(price);
    price <= 1_000_000
        && carry < 1_000_000
        && whole == 1_000_000 * u128::from(charged) + u128::from(carry)
}

/// What a credit of so many octets does to an account.
fn due(account: Account, octets: u32) -> CreditAnswer {
    let total = u128::from(account.octets) + u128::from(octets);
    if !is_sound(account) {
        CreditAnswer::refused(25, account)
    } else if total > 1_000_000_000_000 {
        CreditAnswer::refused(26, account)
    } else {
        let product = total * u128::from(account.price);
        let (charged, carry) = (product / 1_000_000, product % 1_000_000);
        let octets_after = total as u64;
        let after = Account {
            octets: octets_after,
            charged: charged as u64,
            price: account.price,
            carry: carry as u32,
        };
        assert!(is_sound(after), "{after:?}");
        CreditAnswer::of(octets, after)
    }
}

/// Windows that credit nothing, the least, some and the most octets.
fn exchanges(model: &Model) -> Vec<(u32, Exchange)> {
    let windows = Windows::new(model);
    let with = |octets| (octets, windows.crediting(octets).expect("a window with this credit"));
    [0, 2, 9421, MOST_OCTETS].map(with).into()
}

/// Credits each window to an account, by all three, and holds it to what is due.
fn hold(comparison: &mut Comparison, exchanges: &[(u32, Exchange)], account: Account) {
    for (octets, exchange) in exchanges {
        let given = comparison.credit(*exchange, account);
        let due = due(account, *octets);
        assert_eq!(given, due, "{octets} octets on {account:?}: the engine gives the first");
    }
}

/// Every price that is allowed, and others: one past it, far away, and such as would be allowed
/// if only their low 16 or 20 bits were read. Beside a refusal stands an account that a credit
/// refuses too.
#[test]
fn every_price() {
    let model = Model::new();
    let mut comparison = Comparison::with(&model);
    for price in 0..=1_000_000 {
        let account = Account { octets: 0, charged: 0, price, carry: 0 };
        assert_eq!(comparison.open_account(price), Opened { refusal: 0, account });
    }
    let (_, exchange) = exchanges(&model)[0];
    let too_dear =
        [1_000_001, 1_048_576, 1_048_577, 16_777_216, 0x8000_0000, 0xffff_0000, u32::MAX];
    for price in too_dear {
        let account = Account { octets: 0, charged: 0, price, carry: 0 };
        assert_eq!(comparison.open_account(price), Opened { refusal: 25, account });
        let given = comparison.credit(exchange, account);
        assert_eq!(given, CreditAnswer::refused(25, account), "{account:?}");
    }
    let others = too_dear.len() as u64;
    comparison.finish(1_000_001 + 2 * others, 1_000_001);
}

/// Octets at their bounds and around them: none, a million, those at which 32 and 64 bits end,
/// the most of an account, and the most of the type.
fn octets_at_bounds() -> Vec<u64> {
    let bounds = [
        0,
        1_000_000,
        1 << 32,
        Account::MOST - u64::from(MOST_OCTETS),
        Account::MOST - 9421,
        Account::MOST - 2,
        Account::MOST,
        2 * Account::MOST,
        1 << 44,
        1 << 63,
        u64::MAX / 1_000_000,
        u64::MAX / 1_000_000 * 1_000_000,
        u64::MAX,
    ];
    let mut all: Vec<u64> = bounds
        .iter()
        .flat_map(|bound| [bound.saturating_sub(1), *bound, bound.saturating_add(1)])
        .collect();
    all.sort();
    all.dedup();
    all
}

const PRICES: [u32; 12] =
    [0, 1, 2, 3, 7, 64, 15_625, 333_333, 500_000, 999_983, 999_999, 1_000_000];

/// Accounts on the equation, and with each number changed a little or much: 25 exactly if the
/// equation fails or a bound is passed, else 26 exactly if the total is too great.
#[test]
fn accounts_at_their_bounds() {
    let model = Model::new();
    let mut comparison = Comparison::with(&model);
    let exchanges = exchanges(&model);
    let steps = [1, 2, 999_999, 1_000_000, 1 << 32, 1 << 58, 1 << 63, u64::MAX];
    let (mut sound, mut unsound) = (0, 0);
    for octets in octets_at_bounds() {
        for price in PRICES {
            let account = Account::with(price, octets);
            let mut lent = vec![account];
            for step in steps {
                lent.push(Account { octets: octets.wrapping_add(step), ..account });
                let charged = account.charged.wrapping_add(step);
                lent.push(Account { charged, ..account });
                let small = step as u32;
                lent.push(Account { carry: account.carry.wrapping_add(small), ..account });
                lent.push(Account { price: price.wrapping_add(small), ..account });
                // The same sum with some coins in the carry.
                let charged = account.charged.wrapping_sub(step);
                let carry = account.carry.wrapping_add(1_000_000u32.wrapping_mul(small));
                lent.push(Account { charged, carry, ..account });
            }
            for account in lent {
                match is_sound(account) {
                    true => sound += 1,
                    false => unsound += 1,
                }
                hold(&mut comparison, &exchanges, account);
            }
        }
    }
    println!("{sound} sound, {unsound} not");
    assert!(sound > 1000 && unsound > 5000);
    comparison.finish_with(4 * (sound + unsound), &[0, 25, 26], &[]);
}

/// Accounts on which the equation holds in 64 bits that wrap around, and not in truth.
#[test]
fn the_equation_does_not_wrap() {
    let model = Model::new();
    let mut comparison = Comparison::with(&model);
    let exchanges = exchanges(&model);
    let mut random = Random::new(64);
    let mut found = 0;
    for _ in 0..4000 {
        let price = 1 + random.below(1_000_000) as u32;
        let octets = random.number() >> random.below(45);
        let wrapped = octets.wrapping_mul(price.into());
        let carry = (wrapped % 1_000_000) as u32;
        // A million times 2^58 is a multiple of 2^64.
        let charged = (wrapped / 1_000_000).wrapping_add((random.below(64) as u64) << 58);
        let account = Account { octets, charged, price, carry };
        let holds = charged.wrapping_mul(1_000_000).wrapping_add(carry.into()) == wrapped;
        assert!(holds, "{account:?}");
        found += u64::from(!is_sound(account));
        hold(&mut comparison, &exchanges, account);
    }
    assert!(found > 3000, "{found}");
    comparison.finish_with(4 * 4000, &[25], &[]);
}

/// A list of credits from an account: the octets of those not refused add up, and the account
/// is on the equation after each. A refused one leaves the account.
struct List {
    account: Account,
    before: u64,
    sum: u64,
    price: u32,
    refused: [u64; 27],
}

impl List {
    fn new(account: Account) -> Self {
        let Account { octets: before, price, .. } = account;
        Self { account, before, sum: 0, price, refused: [0; 27] }
    }

    fn credit(&mut self, exchange: Exchange) -> CreditAnswer {
        let given = credit(exchange, self.account);
        let context = || format!("{exchange:?} on {:?}: {given:?}", self.account);
        if given.refusal == 0 {
            self.sum += u64::from(given.octets);
        } else {
            assert_eq!(given, CreditAnswer::refused(given.refusal, self.account), "{}", context());
        }
        let Account { octets, price, .. } = given.account;
        assert!(is_sound(given.account), "{}", context());
        assert_eq!((octets, price), (self.before + self.sum, self.price), "{}", context());
        assert!(octets <= Account::MOST, "{}", context());
        self.refused[usize::from(given.refusal)] += 1;
        self.account = given.account;
        given
    }
}

/// Lists of credits from new accounts, with windows and replies of all kinds, refused ones
/// among them. In another order the same list leaves the same account.
#[test]
fn lists_of_credits() {
    let model = Model::new();
    let mut random = Random::new(12);
    let mut refused = [0; 27];
    for price in PRICES {
        for _ in 0..40 {
            let opened = open_account(price);
            assert_eq!(opened, Opened { refusal: 0, account: Account::new(price) });
            let mut list = List::new(opened.account);
            let mut exchanges: Vec<Exchange> =
                (0..50).map(|_| random.exchange(&model, 60)).collect();
            for exchange in &exchanges {
                list.credit(*exchange);
            }
            for (sum, number) in refused.iter_mut().zip(list.refused) {
                *sum += number;
            }
            random.shuffle(&mut exchanges);
            let mut other = List::new(opened.account);
            for exchange in &exchanges {
                other.credit(*exchange);
            }
            assert_eq!(other.account, list.account, "{exchanges:?}");
        }
    }
    println!("by refusal: {refused:?}");
    let given = [0, 1, 2, 3, 4, 6, 7, 10, 11, 12, 13, 14, 17, 18, 19, 20, 24, 25];
    assert!(given.iter().all(|number| refused[*number] > 0) && refused[0] > 10_000);
}

/// Lists that come to the end of an account: a credit that would pass it is refused, and a
/// smaller one that follows is not. At the end every credit of something is refused.
#[test]
fn lists_to_the_end_of_an_account() {
    let model = Model::new();
    let windows = Windows::new(&model);
    let mut random = Random::new(13);
    let mut after_a_refusal = 0;
    for price in PRICES {
        for _ in 0..20 {
            let left = 100_000 + random.below(400_000) as u64;
            let mut list = List::new(Account::with(price, Account::MOST - left));
            let mut has_refused = false;
            while list.account.octets < Account::MOST {
                let left = Account::MOST - list.account.octets;
                let most = MOST_OCTETS.min(2 * left as u32 + 10);
                let octets = match left {
                    // What is too little for any block is left: it could not be credited.
                    1 => break,
                    _ if random.once_in(4) => left.min(u64::from(MOST_OCTETS)) as u32,
                    _ => random.below(most as usize + 1) as u32,
                };
                let Some(exchange) = windows.crediting(octets) else { continue };
                let before = list.account;
                let given = list.credit(exchange);
                assert_eq!(given, due(before, octets), "{octets} on {before:?}");
                after_a_refusal += u64::from(has_refused && given.octets > 0);
                has_refused |= given.refusal == 26;
            }
            let full = list.account;
            let (two, none) = (windows.crediting(2), windows.crediting(0));
            let given = list.credit(two.expect("the smallest block"));
            assert_eq!(given, CreditAnswer::refused(26, full), "{full:?}");
            let given = list.credit(none.expect("a NACK"));
            assert_eq!(given, CreditAnswer::of(0, full), "{full:?}");
        }
    }
    println!("{after_a_refusal} credits after a refused one");
    assert!(after_a_refusal > 100);
}

/// A price of 1,000,000 charges a coin an octet, and one of 0 nothing, and the carry is 0; at
/// one coin for a million octets it is the octets' last six digits.
#[test]
fn plain_prices() {
    let model = Model::new();
    let windows = Windows::new(&model);
    let mut lists = [0, 1, 1_000_000].map(|price| List::new(open_account(price).account));
    let mut octets_in_all = 0u64;
    for octets in (0..MOST_OCTETS).step_by(97) {
        let Some(exchange) = windows.crediting(octets) else { continue };
        octets_in_all += u64::from(octets);
        let [free, cheap, dear] = lists.each_mut().map(|list| list.credit(exchange).account);
        assert_eq!((free.charged, free.carry), (0, 0), "{octets}");
        let (coins, rest) = (octets_in_all / 1_000_000, octets_in_all % 1_000_000);
        assert_eq!((cheap.charged, u64::from(cheap.carry)), (coins, rest), "{octets}");
        assert_eq!((dear.charged, dear.carry), (octets_in_all, 0), "{octets}");
    }
    assert!(octets_in_all > 10_000_000, "{octets_in_all}");
}
