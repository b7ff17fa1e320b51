//! The refusals of the calls for confirmed blocks and for credits, and their order: every
//! cause alone, in pairs and together, at every position of every window, and each number at
//! its limits, one past them and far away. What a call does not look at may have any value.

use feedback_tests::charging::Windows;
use feedback_tests::compare::{Comparison, POSITIONS, WINDOWS};
use feedback_tests::model::{bundles, edge, is_special, Model, Window};
use feedback_tests::random::Random;
use feedback_tests::{
    confirmed, credit, Account, ConfirmedAnswer, CreditAnswer, Exchange, Sent, SentWindow,
    Settings, NONE,
};

/// The order in which a credit is refused, by the papers. 26 is met only where the reading
/// answers.
const ORDER: [u16; 19] = [1, 2, 3, 4, 5, 6, 17, 19, 24, 7, 20, 10, 11, 12, 18, 25, 13, 14, 26];

/// The refusals that the call for confirmed blocks does not give: it looks at no size and has
/// no account.
const OF_CREDITS: [u16; 2] = [25, 26];

/// A credit: what went both ways, and the account.
#[derive(Clone, Copy, Debug)]
struct Call {
    exchange: Exchange,
    account: Account,
}

/// A change that makes a call meet a cause, and the cause.
type Cause = (u16, fn(&mut Call));

/// The last position in time at which a PDCCH is sent.
fn named(model: &Model, exchange: &Exchange) -> usize {
    let window = model.window(exchange.settings.config, exchange.n).expect("a window");
    let is_pdcch = |m: &u16| exchange.sent.at[usize::from(*m)].signalled != 0;
    window.in_time().into_iter().rfind(is_pdcch).expect("a PDCCH").into()
}

/// A call that is not refused and credits something: a grant at every position, of as many
/// blocks as may be, and where the window has room a scheduled block at its first position in
/// time; the reply is for the last, all ACK.
fn good(model: &Model, window: &Window, mode: u16, blocks: u16) -> Call {
    let settings = Settings::plain(window.config, 50, 10, mode, blocks).with_scheduled(9);
    let size = window.k.len();
    let mut sent = SentWindow::NOTHING;
    for (j, m) in (0..).zip(window.in_time()) {
        let sizes = [(m, 10 + m), (26 - m, 110 - m)];
        let is_block = size > 1 && j == 0;
        let dai = (j + u16::from(size == 1) + 3) % 4 + 1;
        sent.at[usize::from(m)] = match is_block {
            true => Sent::block(blocks, sizes),
            false => Sent::grant(blocks, 3 * m, dai, sizes),
        };
    }
    let exchange = Exchange { settings, n: window.n, sent, resource: 0, b0: 1, b1: blocks - 1 };
    let m = named(model, &exchange) as u16;
    let resource = model.resource(settings, window.n, m, 3 * m).resource;
    let (b0, b1) = match bundles(settings, window.size()) {
        true => (1, blocks - 1),
        false => delivering(model, window.size(), m),
    };
    let exchange = Exchange { resource, b0, b1, ..exchange };
    let account = Account::with(654_321, 123_456_789);
    let call = Call { exchange, account };
    let answer = model.credit(&exchange, account);
    assert!(answer.refusal == 0 && answer.octets > 0, "{call:?}: {answer:?}");
    call
}

/// Bits that are a symbol at an index and deliver something.
fn delivering(model: &Model, size: u16, index: u16) -> (u16, u16) {
    let symbols = model.symbols(size).iter().filter_map(|(_, symbol)| *symbol);
    let mut at = symbols.filter(|symbol| symbol.index == index);
    let symbol = at.find(|symbol| model.delivered(size, *symbol) != Some(0));
    symbol.map(|symbol| (symbol.b0, symbol.b1)).expect("a symbol that delivers")
}

/// Holds both calls to the refusal that is due, to the model and to the plain implementation.
/// Beside a refusal nothing is confirmed and nothing credited, and the account is as it was.
fn refused(comparison: &mut Comparison, call: Call, due: u16, of_confirmed: u16) {
    let Call { exchange, account } = call;
    let given = comparison.credit(exchange, account);
    assert_eq!(given, CreditAnswer::refused(due, account), "{call:?}: the engine's first");
    let blocks = comparison.confirmed(exchange);
    assert_eq!(blocks.refusal, of_confirmed, "{call:?}: {blocks:?}");
    if of_confirmed != 0 {
        assert_eq!(blocks, ConfirmedAnswer::refused(of_confirmed), "{call:?}");
    }
}

/// Every cause, in the order of the refusals, some of them in several ways. They are for calls
/// on the window of configuration 5, in which position 0 is the first in time, and has the
/// scheduled block, and position 7 is in a special subframe.
const CAUSES: [Cause; 37] = [
    (1, |call| call.exchange.settings.config = 7),
    (2, |call| call.exchange.settings.nrb = 111),
    (2, |call| call.exchange.settings.nrb = 5),
    (3, |call| call.exchange.settings.n1 = 2048),
    (4, |call| call.exchange.settings.mode = 2),
    (5, |call| call.exchange.settings.mode = 1),
    (6, |call| call.exchange.settings.blocks = 0),
    (6, |call| call.exchange.settings.blocks = 3),
    (17, |call| call.exchange.settings.scheduled = call.exchange.settings.n1),
    (19, |call| call.exchange.settings.special = 9),
    (19, |call| call.exchange.settings.prefix = 2),
    (24, |call| call.exchange.settings.ports = 3),
    (24, |call| (call.exchange.settings.ports, call.exchange.settings.scheduled) = (2, 9)),
    (7, |call| call.exchange.n = 3),
    (7, |call| call.exchange.n = 12),
    (20, |call| (call.exchange.settings.prefix, call.exchange.settings.special) = (0, 5)),
    (20, |call| (call.exchange.settings.prefix, call.exchange.settings.special) = (1, 4)),
    (10, |call| call.exchange.sent.at[8].blocks = 3),
    (10, |call| call.exchange.sent.at[0].blocks = 65535),
    (11, |call| call.exchange.sent.at[4].cce = 61),
    (12, |call| call.exchange.sent.at[1].dai = 0),
    (12, |call| call.exchange.sent.at[7].dai = 5),
    (18, |call| call.exchange.sent.at[3].signalled = 0),
    (18, |call| call.exchange.settings.scheduled = NONE),
    (25, |call| call.exchange.sent.at[0].itbs0 = 27),
    (25, |call| call.exchange.sent.at[2].nprb1 = 0),
    (25, |call| call.exchange.sent.at[7].nprb0 = 111),
    (25, |call| call.account.price = 1_000_001),
    (25, |call| call.account.charged += 1),
    (25, |call| {
        call.account.charged = call.account.charged.wrapping_sub(1);
        call.account.carry += 1_000_000;
    }),
    (13, |call| call.exchange.resource = 10 + 9 * 61),
    (13, |call| call.exchange.resource = 8),
    (14, |call| call.exchange.b0 = 2),
    (14, |call| call.exchange.b1 = 65535),
    (26, |call| call.account = Account::with(1_000_000, Account::MOST)),
    (26, |call| call.account = Account::with(3, Account::MOST + 1)),
    (26, |call| call.account = Account::with(0, u64::MAX)),
];

/// The rank of a refusal.
fn rank(number: u16) -> usize {
    ORDER.iter().position(|each| *each == number).expect("a refusal of a credit")
}

/// What the call for confirmed blocks answers where some causes are met: the first of them that
/// it looks at, or 0.
fn of_confirmed(causes: &[u16]) -> u16 {
    let its_own = causes.iter().copied().filter(|number| !OF_CREDITS.contains(number));
    its_own.min_by_key(|number| rank(*number)).unwrap_or(0)
}

/// Each cause alone, each pair, and every tail of the list at once. Of two the later is brought
/// about first, so that the earlier is met whatever the later changed.
#[test]
fn causes_in_their_order() {
    let model = Model::new();
    let mut comparison = Comparison::with(&model);
    let window = model.window(5, 2).expect("a window");
    let good = good(&model, window, 0, 2);
    assert!(CAUSES.windows(2).all(|pair| rank(pair[0].0) <= rank(pair[1].0)));
    assert!(ORDER.iter().all(|number| CAUSES.iter().any(|(each, _)| each == number)));
    for (at, (number, cause)) in CAUSES.iter().enumerate() {
        let mut alone = good;
        cause(&mut alone);
        refused(&mut comparison, alone, *number, of_confirmed(&[*number]));
        for (later, later_cause) in &CAUSES[at + 1..] {
            let mut both = good;
            later_cause(&mut both);
            cause(&mut both);
            refused(&mut comparison, both, *number, of_confirmed(&[*number, *later]));
        }
        let mut all = good;
        CAUSES[at..].iter().rev().for_each(|(_, cause)| cause(&mut all));
        let numbers: Vec<u16> = CAUSES[at..].iter().map(|(number, _)| *number).collect();
        let given = credit(all.exchange, all.account);
        assert_eq!(given, CreditAnswer::refused(*number, all.account), "{numbers:?}: {all:?}");
    }
    let pairs = 37 * 36 / 2;
    comparison.finish_with(2 * (37 + pairs), &ORDER.map(usize::from), &[]);
}

/// 13 and 14 in their order with one and with two blocks, bundled and multiplexed, beside each
/// bad size and each bad account: 25 comes first, and an account at its end comes last.
#[test]
fn sizes_and_accounts_before_the_reading() {
    let model = Model::new();
    let mut comparison = Comparison::with(&model);
    let mut compared = 0;
    for window in model.windows() {
        for (mode, blocks) in [(0, 1), (0, 2), (1, 1), (1, 2)] {
            if (mode, window.config) == (1, 5) {
                continue;
            }
            let good = good(&model, window, mode, blocks);
            let top = 10 + window.size() * edge(50, 4);
            let full = Account::with(999_999, Account::MOST);
            let beyond = Account::with(999_999, Account::MOST + 1);
            for account in [good.account, full, beyond] {
                let mut bad_size = Call { account, ..good };
                let m = named(&model, &good.exchange);
                bad_size.exchange.sent.at[m].nprb0 = 0;
                let mut bad_account = Call { account, ..good };
                bad_account.account.octets ^= 1 << 40;
                for call in [bad_size, bad_account] {
                    for (resource, b0) in [(top, 1), (8, 2), (good.exchange.resource, 2)] {
                        let exchange = Exchange { resource, b0, ..call.exchange };
                        let of_reading = if resource == good.exchange.resource { 14 } else { 13 };
                        let call = Call { exchange, ..call };
                        refused(&mut comparison, call, 25, of_reading);
                        compared += 2;
                    }
                    refused(&mut comparison, call, 25, 0);
                    compared += 2;
                }
                for (resource, b0, due) in
                    [(top, 1, 13), (8, 2, 13), (good.exchange.resource, 2, 14)]
                {
                    let exchange = Exchange { resource, b0, ..good.exchange };
                    refused(&mut comparison, Call { exchange, account }, due, due);
                    compared += 2;
                }
            }
            for account in [full, beyond] {
                refused(&mut comparison, Call { account, ..good }, 26, 0);
                compared += 2;
            }
        }
    }
    comparison.finish_with(compared, &[0, 13, 14, 25, 26], &[]);
    assert_eq!(compared, (4 * WINDOWS - 2) * (3 * (2 * 4 + 3) + 2) * 2);
}

/// Each cause at each position of each window, with all that the other positions have, and at
/// each place behind the window, where it is none.
#[test]
fn every_cause_at_every_position() {
    let model = Model::new();
    let mut comparison = Comparison::with(&model);
    let (mut met, mut behind, mut specials) = (0, 0, 0);
    for window in model.windows() {
        for (mode, blocks) in [(0, 1), (0, 2), (1, 2)] {
            if (mode, window.config) == (1, 5) {
                continue;
            }
            let good = good(&model, window, mode, blocks);
            let before = comparison.credit(good.exchange, good.account);
            for m in 0..9 {
                for (number, change) in at_position(blocks) {
                    let mut call = good;
                    let is_pdcch = good.exchange.sent.at[m].signalled != 0;
                    let is_met = match number {
                        10 | 25 => true,
                        18 => is_pdcch && window.k.len() > 1,
                        _ => is_pdcch,
                    };
                    change(&mut call.exchange.sent.at[m]);
                    if m >= window.k.len() {
                        let given = comparison.credit(call.exchange, call.account);
                        assert_eq!(given, before, "{call:?}, {m}");
                        let (given, due) = (confirmed(call.exchange), confirmed(good.exchange));
                        assert_eq!(given, due, "{call:?}, {m}");
                        behind += 1;
                    } else if is_met {
                        refused(&mut comparison, call, number, of_confirmed(&[number]));
                        met += 1;
                    }
                }
                let is_short = |m| is_special(window.config, window.subframe(m));
                if m < window.k.len() && is_short(m) {
                    // Nothing but releases in special subframes, save at this position.
                    let mut call = good;
                    call.exchange.settings.special = 0;
                    refused(&mut comparison, call, 20, 20);
                    for other in (0..window.k.len()).filter(|other| *other != m && is_short(*other))
                    {
                        call.exchange.sent.at[other] = Sent::release(0, 1);
                    }
                    refused(&mut comparison, call, 20, 20);
                    call.exchange.sent.at[m] = Sent::release(0, 1);
                    assert_ne!(comparison.credit(call.exchange, call.account).refusal, 20);
                    specials += 1;
                }
            }
        }
    }
    println!("{met} met, {behind} behind the window, {specials} in a special subframe");
    // One special subframe of each window that has one: two of the windows of configurations
    // 0, 1, 2 and 6, and one of those of 3, 4 and 5.
    assert_eq!(specials, 3 * (2 * 4 + 3) - 1);
    // Of one block 28 changes, of two 35: at all places behind the windows, where those of
    // configuration 5 have none, and at all positions; but at the scheduled block, which every
    // window of more than one position has, neither 11 nor 12 nor 18 is met, and a window of
    // one has no second block.
    let places = 9 * WINDOWS - POSITIONS;
    assert_eq!(behind, (28 + 35 + 35) * places);
    let (with_block, without) = (28 + 35 + 35, 12 + 12 + 12);
    let longer = 2 + 2 + 3 + 2 + 1;
    let in_five = 9 * 35 - 12;
    assert_eq!(met, with_block * POSITIONS - without * longer - in_five - 3 * (WINDOWS - longer));
    assert_eq!(comparison.refused(20), 2 * 2 * specials);
}

/// A change at one position.
type Change = Box<dyn Fn(&mut Sent)>;

/// Changes at one position that make it meet a cause. The second block of one that has one only
/// is not looked at.
fn at_position(blocks: u16) -> Vec<(u16, Change)> {
    let mut all: Vec<(u16, Change)> = Vec::new();
    for number in [blocks + 1, 255, 256, 257, 258, 65535] {
        all.push((10, Box::new(move |sent| sent.blocks = number)));
    }
    for number in [61, 255, 256, 257, 65535] {
        all.push((11, Box::new(move |sent| sent.cce = number)));
    }
    for number in [0, 5, 255, 256, 257, 65535] {
        all.push((12, Box::new(move |sent| sent.dai = number)));
    }
    all.push((18, Box::new(|sent| sent.signalled = 0)));
    for number in [27, 255, 256, 65535] {
        all.push((25, Box::new(move |sent| sent.itbs0 = number)));
    }
    for number in [0, 111, 255, 256, 257, 65535] {
        all.push((25, Box::new(move |sent| sent.nprb0 = number)));
    }
    if blocks == 2 {
        for number in [27, 256, 65535] {
            all.push((25, Box::new(move |sent| sent.itbs1 = number)));
        }
        for number in [0, 111, 257, 65535] {
            all.push((25, Box::new(move |sent| sent.nprb1 = number)));
        }
    }
    all
}

/// A change at one position that makes it meet a cause, and the cause.
type CauseAt = (u16, fn(&mut Sent));

/// Two causes at two positions: the lower rank is answered, at whichever position it is.
#[test]
fn the_lowest_rank_of_all_positions() {
    let model = Model::new();
    let mut comparison = Comparison::with(&model);
    let mut compared = 0;
    let window = model.window(5, 2).expect("a window");
    let good = good(&model, window, 0, 2);
    let causes: [CauseAt; 6] = [
        (10, |sent| sent.blocks = 3),
        (11, |sent| sent.cce = 65535),
        (12, |sent| sent.dai = 0),
        (18, |sent| sent.signalled = 0),
        (25, |sent| sent.itbs0 = 27),
        (25, |sent| sent.nprb1 = 111),
    ];
    // Position 0 has the scheduled block, which has no CCE and no DAI.
    for one in 1..9 {
        for other in (1..9).filter(|other| *other != one) {
            for (first, first_cause) in causes {
                for (second, second_cause) in causes {
                    let mut call = good;
                    first_cause(&mut call.exchange.sent.at[one]);
                    second_cause(&mut call.exchange.sent.at[other]);
                    let due = if rank(first) < rank(second) { first } else { second };
                    refused(&mut comparison, call, due, of_confirmed(&[first, second]));
                    // With data in a special subframe that is too short for it, 20 comes first.
                    call.exchange.settings.special = 0;
                    refused(&mut comparison, call, 20, 20);
                    compared += 4;
                }
            }
        }
    }
    comparison.finish_with(compared, &[0, 10, 11, 12, 18, 20, 25], &[]);
    assert_eq!(compared, 8 * 7 * 36 * 4);
}

/// Numbers at 0, at the limits, one past them, far away, and such as would be allowed if only
/// their low eight bits were read.
const NUMBERS: [u16; 27] = [
    0, 1, 2, 3, 4, 5, 8, 9, 10, 26, 27, 50, 60, 61, 109, 110, 111, 133, 134, 255, 256, 257, 282,
    366, 32767, 32768, 65535,
];

/// Each field of what was sent, at each of the nine places, in windows of every size.
#[test]
fn damaged_fields() {
    let model = Model::new();
    let mut comparison = Comparison::with(&model);
    let fields: [fn(&mut Sent, u16); 8] = [
        |sent, number| sent.signalled = number,
        |sent, number| sent.blocks = number,
        |sent, number| sent.cce = number,
        |sent, number| sent.dai = number,
        |sent, number| sent.itbs0 = number,
        |sent, number| sent.nprb0 = number,
        |sent, number| sent.itbs1 = number,
        |sent, number| sent.nprb1 = number,
    ];
    let mut compared = 0;
    for (config, n, mode) in
        [(5, 2, 0), (0, 2, 1), (1, 2, 0), (1, 2, 1), (3, 2, 0), (3, 2, 1), (4, 2, 0), (4, 3, 1)]
    {
        let window = model.window(config, n).expect("a window");
        for blocks in [1, 2] {
            let good = good(&model, window, mode, blocks);
            let mut with_release = good;
            let m = usize::from(*window.in_time().last().expect("a position"));
            with_release.exchange.sent.at[m].blocks = 0;
            for call in [good, with_release] {
                for at in 0..9 {
                    for set in fields {
                        for number in NUMBERS {
                            let mut call = call;
                            set(&mut call.exchange.sent.at[at], number);
                            comparison.credit(call.exchange, call.account);
                            comparison.confirmed(call.exchange);
                            compared += 2;
                        }
                    }
                }
            }
        }
    }
    comparison.finish_with(compared, &[0, 10, 11, 12, 18, 25], &[]);
    assert_eq!(compared, 8 * 2 * 2 * 9 * 8 * 27 * 2);
}

/// Each number beside what was sent: settings, subframe, resource and bits.
#[test]
fn damaged_settings_and_replies() {
    let model = Model::new();
    let mut comparison = Comparison::with(&model);
    let fields: [fn(&mut Exchange, u16); 13] = [
        |exchange, number| exchange.settings.config = number,
        |exchange, number| exchange.settings.nrb = number,
        |exchange, number| exchange.settings.n1 = number,
        |exchange, number| exchange.settings.mode = number,
        |exchange, number| exchange.settings.blocks = number,
        |exchange, number| exchange.settings.scheduled = number,
        |exchange, number| exchange.settings.prefix = number,
        |exchange, number| exchange.settings.special = number,
        |exchange, number| exchange.settings.ports = number,
        |exchange, number| exchange.n = number,
        |exchange, number| exchange.resource = number,
        |exchange, number| exchange.b0 = number,
        |exchange, number| exchange.b1 = number,
    ];
    let numbers = NUMBERS.into_iter().chain([6, 7, 11, 2046, 2047, 2048, 2049]);
    let numbers: Vec<u16> = numbers.collect();
    let mut compared = 0;
    for window in model.windows() {
        for (mode, blocks) in [(0, 1), (0, 2), (1, 1), (1, 2)] {
            if (mode, window.config) == (1, 5) {
                continue;
            }
            let good = good(&model, window, mode, blocks);
            for set in fields {
                for number in numbers.iter().copied() {
                    let mut call = good;
                    set(&mut call.exchange, number);
                    comparison.credit(call.exchange, call.account);
                    comparison.confirmed(call.exchange);
                    compared += 2;
                }
            }
        }
    }
    let refusals = [0, 1, 2, 3, 4, 5, 6, 7, 10, 11, 13, 14, 17, 18, 19, 20, 24];
    comparison.finish_with(compared, &refusals, &[]);
    assert_eq!(compared, (4 * WINDOWS - 2) * 13 * 34 * 2);
}

/// The same with other values in all that is not looked at: fields that a kind has not, the
/// second block of one that has one only, entries behind the window; and another number that is
/// not 0 for signalled.
fn scrambled(model: &Model, exchange: Exchange, random: &mut Random) -> Exchange {
    let size =
        model.window(exchange.settings.config, exchange.n).map_or(0, |window| window.k.len());
    let mut other = exchange;
    for (m, sent) in other.sent.at.iter_mut().enumerate() {
        let mut any = || random.any();
        let all = [(); 8].map(|()| any());
        let [signalled, blocks, cce, dai, itbs0, nprb0, itbs1, nprb1] = all;
        if m >= size {
            *sent = Sent { signalled, blocks, cce, dai, itbs0, nprb0, itbs1, nprb1 };
            continue;
        }
        if sent.signalled != 0 {
            sent.signalled = signalled.max(1);
        } else {
            (sent.cce, sent.dai) = (cce, dai);
        }
        if sent.blocks == 0 {
            (sent.itbs0, sent.nprb0) = (itbs0, nprb0);
        }
        if sent.blocks < 2 {
            (sent.itbs1, sent.nprb1) = (itbs1, nprb1);
        }
    }
    other
}

/// What is not looked at may have any value, also beside a refusal.
#[test]
fn unused_values_change_nothing() {
    let model = Model::new();
    let mut random = Random::new(1010);
    let (mut credited, mut refused) = (0, 0);
    for _ in 0..40_000 {
        let exchange = random.exchange(&model, 100);
        let account = random.account(40);
        let (given, blocks) = (credit(exchange, account), confirmed(exchange));
        let other = scrambled(&model, exchange, &mut random);
        assert_eq!(credit(other, account), given, "{exchange:?}, {other:?}, {account:?}");
        assert_eq!(confirmed(other), blocks, "{exchange:?}, {other:?}");
        credited += u64::from(given.octets > 0);
        refused += u64::from(given.refusal != 0);
    }
    println!("{credited} with a credit, {refused} refused");
    assert!(credited > 5_000 && refused > 5_000);
}

/// 26 speaks of what the reply credits: at each number of octets that is left, a credit of so
/// many passes and one of any more is refused; a credit of nothing always passes.
#[test]
fn a_full_account_by_what_is_credited() {
    let model = Model::new();
    let windows = Windows::new(&model);
    let mut comparison = Comparison::with(&model);
    let credits: Vec<u32> = [0, 2, 3, 41, 4711, 9422, 18_844, 31_337, 60_000, 75_376].into();
    let exchanges: Vec<(u32, Exchange)> = credits
        .iter()
        .map(|octets| (*octets, windows.crediting(*octets).expect("a window with this credit")))
        .collect();
    let mut compared = 0;
    for price in [0, 1, 500_000, 999_999, 1_000_000] {
        for left in
            credits.iter().flat_map(|octets| [octets.saturating_sub(1), *octets, octets + 1])
        {
            let account = Account::with(price, Account::MOST - u64::from(left));
            for (octets, exchange) in &exchanges {
                let given = comparison.credit(*exchange, account);
                let total = account.octets + u64::from(*octets);
                let due = match *octets <= left {
                    true => CreditAnswer::of(*octets, Account::with(price, total)),
                    false => CreditAnswer::refused(26, account),
                };
                assert_eq!(given, due, "{octets} on {account:?}: the engine gives the first");
                compared += 1;
            }
        }
    }
    comparison.finish_with(compared, &[0, 26], &[]);
    assert_eq!(compared, 5 * 30 * 10);
}
