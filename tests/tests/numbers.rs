//! Every refusal number, 1 to 29, from every call that can give it. What is due
//! is written out by hand; the model has no part here.

use feedback_tests::form::FORMS;
use feedback_tests::trace::{put_number, Trace, LENGTH_AT, SETTINGS_AT};
use feedback_tests::{
    answered, change_mode, command, confirmed, credit, feed_grant, feed_nothing, feed_release,
    feed_scheduled, game, inverse, make, open_account, reading, record, replay, replay_size,
    resource, silence, trace_write, window, Account, AnsweredAnswer, Block, Changed, ClaimsAnswer,
    CommandAnswer, ConfirmedAnswer, CreditAnswer, Exchange, Fed, GameAnswer, Grant, Handset,
    InverseAnswer, Made, Opened, ReadingAnswer, RecordAnswer, Release, ReplayAnswer,
    ReplaySizeAnswer, ResourceAnswer, Sent, SentWindow, Settings, SilenceAnswer, Slot,
    WindowAnswer, WriteAnswer, NONE, NOT_TOLD,
};
use std::fmt::Debug;

/// Configuration 1, N_RB 50, N1 10: N_4 is 61, and the window of n = 2 has M = 2.
const CELL: Settings = Settings::plain(1, 50, 10, 0, 1);

const GRANT: Grant = Grant { blocks: 1, first: 1, second: 0, cce: 0, dai: 1 };

/// The same cell with a scheduled resource.
const SCHEDULED: Settings = CELL.with_scheduled(9);

const BLOCK: Block = Block { blocks: 1, first: 1, second: 0 };

const RELEASE: Release = Release { cce: 0, dai: 1 };

/// Prefix and special configuration of special subframes too short for data.
const SHORT: [(u16, u16); 4] = [(0, 0), (0, 5), (1, 0), (1, 4)];

/// What is sent in the window of n = 2 and a reply: at position 0 a grant of one block with
/// first CCE 0, whose resource is 10, an ACK for it.
const EXCHANGE: Exchange = Exchange {
    settings: CELL,
    n: 2,
    sent: sent(Sent::grant(1, 0, 1, [(26, 110), (65535, 65535)]), Sent::NOTHING),
    resource: 10,
    b0: 1,
    b1: 0,
};

/// What is sent in a window of two; what is behind it is not looked at.
const fn sent(first: Sent, second: Sent) -> SentWindow {
    let mut at = [Sent::grant(65535, 65535, 65535, [(65535, 65535), (65535, 65535)]); 9];
    (at[0], at[1]) = (first, second);
    SentWindow { at }
}

/// The same cell with two ports.
const TWO_PORTS: Settings = CELL.with_ports(2);

/// Settings that meet the causes 1 to 6, 17, 19 and 24, and no other.
const REFUSED: [(u16, Settings); 28] = [
    (1, Settings { config: 7, ..CELL }),
    (2, Settings { nrb: 5, ..CELL }),
    (2, Settings { nrb: 111, ..CELL }),
    (3, Settings { n1: 2048, ..CELL }),
    (4, Settings { mode: 2, ..CELL }),
    (5, Settings { mode: 1, config: 5, ..CELL }),
    (6, Settings { blocks: 0, ..CELL }),
    (6, Settings { blocks: 3, ..CELL }),
    (6, Settings { blocks: 65535, ..CELL }),
    (17, CELL.with_scheduled(10)),
    (17, CELL.with_scheduled(265)),
    (17, CELL.with_scheduled(65534)),
    (17, Settings { n1: 0, ..CELL }.with_scheduled(0)),
    (19, CELL.with_special(0, 9)),
    (19, CELL.with_special(0, 263)),
    (19, CELL.with_special(0, 65535)),
    (19, CELL.with_special(1, 7)),
    (19, CELL.with_special(1, 8)),
    (19, CELL.with_special(2, 0)),
    (19, CELL.with_special(256, 7)),
    (19, CELL.with_special(65535, 7)),
    (24, CELL.with_ports(0)),
    (24, CELL.with_ports(3)),
    (24, CELL.with_ports(257)),
    (24, CELL.with_ports(258)),
    (24, CELL.with_ports(65535)),
    (24, Settings { mode: 1, ..TWO_PORTS }),
    (24, TWO_PORTS.with_scheduled(9)),
];

/// Counts the refusals that came as they were due.
struct Count([u64; 30]);

impl Count {
    fn due<T: Debug + PartialEq>(&mut self, number: u16, given: T, due: T) {
        assert_eq!(given, due, "refusal {number}");
        self.0[usize::from(number)] += 1;
    }

    fn window(&mut self, number: u16, settings: Settings, n: u16) {
        self.due(number, window(settings, n), WindowAnswer::refused(number));
    }

    fn answered(&mut self, number: u16, settings: Settings, subframe: u16) {
        self.due(number, answered(settings, subframe), AnsweredAnswer::refused(number));
    }

    fn resource(&mut self, number: u16, settings: Settings, n: u16, position: u16, cce: u16) {
        let given = resource(settings, n, position, cce);
        self.due(number, given, ResourceAnswer::refused(number));
    }

    fn inverse(&mut self, number: u16, settings: Settings, n: u16, resource: u16) {
        self.due(number, inverse(settings, n, resource), InverseAnswer::refused(number));
    }

    fn reading(&mut self, number: u16, settings: Settings, n: u16, reply: (u16, u16, u16)) {
        self.told(number, settings, n, NOT_TOLD, reply);
    }

    fn told(&mut self, number: u16, settings: Settings, n: u16, told: u16, reply: (u16, u16, u16)) {
        let (resource, b0, b1) = reply;
        let given = reading(settings, n, told, resource, b0, b1);
        self.due(number, given, ReadingAnswer::refused(number));
    }

    /// In scratch of a room for each form, which is left as it was.
    fn claims(&mut self, number: u16, settings: Settings, n: u16, list: &[u16], rooms: [usize; 2]) {
        for (form, room) in FORMS.into_iter().zip(rooms) {
            let mut scratch = vec![5; room];
            let given = form.claims(settings, n, list, &mut scratch);
            // Where a list below has a bad claim, it is the last.
            let index = if number == 16 { list.len() - 1 } else { 0 };
            let due = (ClaimsAnswer::refused(number, index), vec![5; room]);
            self.due(number, (given, scratch), due);
        }
    }

    fn make(&mut self, number: u16, settings: Settings) {
        let handset = Handset::NONE;
        self.due(number, make(settings), Made { refusal: number, handset });
    }

    /// The handset is left as it was.
    fn feed_grant(&mut self, number: u16, handset: Handset, grant: Grant) {
        self.due(number, feed_grant(handset, grant), Fed::refused(number, handset));
    }

    fn feed_scheduled(&mut self, number: u16, handset: Handset, block: Block) {
        self.due(number, feed_scheduled(handset, block), Fed::refused(number, handset));
    }

    fn feed_release(&mut self, number: u16, handset: Handset, release: Release) {
        self.due(number, feed_release(handset, release), Fed::refused(number, handset));
    }

    /// The handset is left as it was.
    fn change_mode(&mut self, number: u16, handset: Handset, mode: u16) {
        self.due(number, change_mode(handset, mode), Changed::refused(number, handset));
    }

    /// The output is left as it was.
    fn replay(&mut self, number: u16, trace: &[u8], room: usize) {
        let mut output = vec![5; room];
        let given = replay(trace, &mut output);
        let due = (ReplayAnswer::refused(number), vec![5; room]);
        self.due(number, (given, output), due);
    }

    /// Neither windows nor bytes are told.
    fn replay_size(&mut self, number: u16, trace: &[u8]) {
        self.due(
            number,
            replay_size(trace),
            ReplaySizeAnswer { refusal: number, windows: 0, bytes: 0 },
        );
    }

    /// The output is left as it was.
    fn trace_write(&mut self, due: WriteAnswer, trace: &[u8], room: usize) {
        let mut output = vec![5; room];
        let given = trace_write(trace, &mut output);
        self.due(due.refusal, (given, output), (due, vec![5; room]));
    }

    /// A replay that stops at its last record, after one silent window, that of 2. The
    /// trace is not written, with room for it or without.
    fn stopped(&mut self, number: u16, settings: Settings, records: &[Slot]) {
        let trace = Trace::new(settings, records).bytes();
        let mut output = [5; 17];
        let given = replay(&trace, &mut output);
        let due = ReplayAnswer::stopped(number, records.len() - 1, 1);
        let left = [&[2, 0, 0, 0, 0, 0, 0, 0][..], &[5; 9]].concat();
        self.due(number, (given, output.to_vec()), (due, left));
        for room in [0, trace.len()] {
            self.trace_write(WriteAnswer::stopped(number, records.len() - 1), &trace, room);
        }
    }

    /// Nothing is confirmed.
    fn confirmed(&mut self, number: u16, exchange: Exchange) {
        self.due(number, confirmed(exchange), ConfirmedAnswer::refused(number));
    }

    /// Nothing is credited, and the account is left as it was.
    fn credit(&mut self, number: u16, exchange: Exchange, account: Account) {
        self.due(number, credit(exchange, account), CreditAnswer::refused(number, account));
    }

    /// Both calls on what was sent and a reply.
    fn exchange(&mut self, number: u16, exchange: Exchange) {
        self.confirmed(number, exchange);
        self.credit(number, exchange, Account::new(1));
    }

    /// Beside the refusal stands the account that is refused.
    fn open_account(&mut self, number: u16, price: u32) {
        let account = Account { octets: 0, charged: 0, price, carry: 0 };
        self.due(number, open_account(price), Opened { refusal: number, account });
    }

    fn record(&mut self, number: u16, trace: &[u8], next: usize) {
        self.due(number, record(trace, next), RecordAnswer::refused(number));
    }

    /// Beside a refusal nothing is said of the radio.
    fn game(&mut self, number: u16, size: u16, grants: u16, losses: u16) {
        self.due(number, game(size, grants, losses), GameAnswer::refused(number));
    }

    /// Bits 0, 2 and 4 of byte 5 are set before, and bit 1 of the mask alone. Bytes 5 and 7 alone
    /// change, and the handset is left as it was; the line is high.
    fn command(&mut self, number: u16, handset: Handset, record: [u8; 4], asked: u8) {
        let [kind, cce, dai, results] = record;
        let block =
            |flags, last| [kind, cce, dai, results, asked, flags, 2, last, 1, 2, 3, 4, 5, 6, 7, 8];
        let mut left = block(0b1_0101, 99);
        let given = command(handset, &mut left);
        let due = CommandAnswer { refusal: number, line: 1, handset };
        self.due(number, (given, left), (due, block(0b1_0111, number as u8)));
    }

    /// The block is left as it was, and the line is not high.
    fn other_block(&mut self, number: u16, handset: Handset, block: &[u8]) {
        let mut left = block.to_vec();
        let given = command(handset, &mut left);
        let due = CommandAnswer { refusal: number, line: 0, handset };
        self.due(number, (given, left), (due, block.to_vec()));
    }

    /// The handset is left as it was, whatever it is fed, and keeps its mode. A refusal has no
    /// cause. None and clear are not refused.
    fn bad_state(&mut self, handset: Handset) {
        let fed = Fed::refused(8, handset);
        self.due(8, feed_nothing(handset), fed);
        self.due(8, silence(handset), SilenceAnswer { fed, cause: 0, v: 0, expected: 0 });
        self.feed_grant(8, handset, GRANT);
        self.feed_grant(8, handset, Grant { blocks: 0, cce: 61, dai: 0, ..GRANT });
        self.feed_scheduled(8, handset, BLOCK);
        self.feed_scheduled(8, handset, Block { blocks: 0, ..BLOCK });
        self.feed_release(8, handset, RELEASE);
        self.feed_release(8, handset, Release { cce: 61, dai: 0 });
        self.change_mode(8, handset, 0);
        self.command(8, handset, [0, 0, 0, 0], 1);
        self.command(8, handset, [1, 61, 0, 5], 1);
        for asked in [0, 2] {
            let mut block = [0, 0, 0, 0, asked, 7, 7, 99, 1, 2, 3, 4, 5, 6, 7, 8];
            let due = CommandAnswer { refusal: 0, line: 1, handset };
            assert_eq!(command(handset, &mut block), due, "{asked}");
        }
    }
}

#[test]
fn every_number_occurs() {
    let mut count = Count([0; 30]);
    let fresh = make(CELL).handset;
    assert_eq!(fresh, Handset::fresh(CELL));

    for (number, settings) in REFUSED {
        count.window(number, settings, 2);
        count.answered(number, settings, 1);
        count.resource(number, settings, 2, 0, 0);
        count.inverse(number, settings, 2, 10);
        count.reading(number, settings, 2, (10, 0, 0));
        count.claims(number, settings, 2, &[0], [122, 16]);
        count.make(number, settings);
        count.exchange(number, Exchange { settings, ..EXCHANGE });
        count.bad_state(Handset { settings, ..fresh });
    }

    for n in [0, 4, 10, 258, 65535] {
        count.window(7, CELL, n);
        count.resource(7, CELL, n, 0, 0);
        count.inverse(7, CELL, n, 10);
        count.reading(7, CELL, n, (10, 0, 0));
        count.claims(7, CELL, n, &[0], [122, 16]);
        count.exchange(7, Exchange { n, ..EXCHANGE });
    }

    for uplink in [2, 3, 7, 8, 10, 257, 65535] {
        count.answered(7, CELL, uplink);
    }

    // In configuration 1 the subframes 2, 3, 7 and 8 are uplink. A handset that
    // expects 2 remembers 1, 0, 9, 8 and so on: the uplink ones are 3, 4, 8 and 9.
    let good = Slot { kind: 1, cce: 60, dai: 4, results: 1 };
    let expecting = Handset { next: 2, ..fresh };
    for at in [0, 1, 2, 5, 6, 7, 10, 11, 12] {
        let with = |slot| {
            let mut handset = expecting;
            handset.past[at] = slot;
            handset
        };
        assert_eq!(feed_nothing(with(good)).refusal, 0, "{at}");
        count.bad_state(with(Slot { kind: 2, ..good }));
        count.bad_state(with(Slot { kind: 4, ..good }));
        count.bad_state(with(Slot { kind: 255, ..good }));
        count.bad_state(with(Slot { results: 4, ..good }));
        count.bad_state(with(Slot { cce: 61, ..good }));
        count.bad_state(with(Slot { dai: 0, ..good }));
        count.bad_state(with(Slot { dai: 5, ..good }));
    }
    for at in [3, 4, 8, 9] {
        let mut handset = expecting;
        handset.past[at] = good;
        count.bad_state(handset);
    }
    count.bad_state(Handset { next: 10, ..fresh });
    count.bad_state(Handset { next: 65535, ..fresh });
    count.bad_state(Handset::NONE);
    let scheduled = Handset { settings: SCHEDULED, ..expecting };
    blocks_and_releases_remembered(&mut count, scheduled);

    // One cause after another is put right, and the next number is answered.
    let grant = Grant { blocks: 2, cce: 61, dai: 5, ..GRANT };
    count.feed_grant(8, Handset { next: 12, ..fresh }, grant);
    count.feed_grant(9, expecting, grant);
    count.feed_grant(9, expecting, GRANT);
    count.feed_grant(10, fresh, grant);
    count.feed_grant(10, fresh, Grant { blocks: 0, ..grant });
    count.feed_grant(11, fresh, Grant { blocks: 1, ..grant });
    count.feed_grant(12, fresh, Grant { blocks: 1, cce: 60, ..grant });
    count.feed_grant(12, fresh, Grant { blocks: 1, cce: 60, dai: 0, ..grant });
    let taken = feed_grant(fresh, Grant { blocks: 1, cce: 60, dai: 4, ..grant });
    assert_eq!((taken.refusal, taken.kind, taken.handset.next), (0, Fed::TAKEN, 1));

    blocks_and_releases_fed(&mut count, fresh);
    mode_changes(&mut count, fresh);
    two_ports(&mut count, fresh);
    two_ports_of_a_state(&mut count, fresh);
    told_positions(&mut count);
    for (prefix, special) in SHORT {
        let settings = SCHEDULED.with_special(prefix, special);
        short_specials_remembered(&mut count, Handset { settings, ..expecting });
        short_specials_fed(&mut count, Handset { settings, ..fresh });
        short_specials_told(&mut count, settings);
    }

    count.resource(11, CELL, 2, 0, 61);
    count.resource(11, CELL, 2, 2, 0);
    for resource in [0, 9, 132, 65535] {
        count.inverse(13, CELL, 2, resource);
        count.reading(13, CELL, 2, (resource, 2, 2));
    }
    // A bit over 1; a second bit in a one-bit reply, also of a window of one in
    // mode 1; a symbol in no row.
    let multiplexing = Settings { mode: 1, ..CELL };
    count.reading(14, CELL, 2, (10, 2, 0));
    count.reading(14, CELL, 2, (10, 0, 2));
    count.reading(14, CELL, 2, (10, 0, 1));
    count.reading(14, multiplexing, 3, (10, 0, 1));
    count.reading(14, multiplexing, 2, (10, 0, 0));
    count.reading(14, multiplexing, 2, (10, 1, 1));
    count.reading(14, multiplexing, 2, (21, 0, 1));

    // Of two times 61 resources, a byte for each or a bit.
    count.claims(15, CELL, 2, &[], [121, 15]);
    count.claims(15, CELL, 2, &[65535], [121, 15]);
    count.claims(15, CELL, 2, &[0, 0], [0, 0]);
    count.claims(16, CELL, 2, &[61], [122, 16]);
    count.claims(16, CELL, 2, &[0, 512], [122, 16]);
    count.claims(16, CELL, 2, &[7, 7, 65535], [200, 25]);

    replays(&mut count);
    records_stopped_at(&mut count);
    sent_and_credited(&mut count);
    games(&mut count);
    commands(&mut count, fresh);
    for (prefix, special) in SHORT {
        let short = CELL.with_special(prefix, special);
        commands_in_short_specials(&mut count, Handset { settings: short, ..fresh });
    }

    println!("refusals by number: {:?}", count.0);
    let of_settings = |causes: u64| 10 * causes;
    // A replay, its size and a writing; and where a record is refused a replay, and a writing with
    // room or without.
    let on_traces = |causes: u64| 3 * causes;
    let at_records = |causes: u64| 3 * causes;
    // The confirmed blocks, and a credit.
    let both = |causes: u64| 2 * causes;
    // Seven feeds, the cause of a silence, a mode change and two commands.
    let bad_states = |states: u64| 11 * states;
    let states = bad_states(28 + 9 * 7 + 4 + 3) + 1;
    let remembering = bad_states(9 * 6 + 4 * 2 + 2) + 2;
    let shorts = 4;
    let of_ports = bad_states(13) + 3 + 4 * 2;
    let counts = [
        0,
        of_settings(1) + on_traces(1),
        of_settings(2) + on_traces(2),
        of_settings(1) + on_traces(1),
        of_settings(1) + on_traces(1) + 6 * 4 + 4,
        of_settings(1) + on_traces(1) + 3 + 1,
        of_settings(3) + on_traces(2),
        5 * 8 + 7 + 1 + shorts + 6,
        states + remembering + shorts * bad_states(6) + bad_states(13) + 2 * 13 + 3 + of_ports + 3,
        2 + 4 + shorts * 3 + at_records(3) + 3 * 2,
        2 + 3 + at_records(2) + both(4 * 2) + 2,
        3 + 2 + 5 + shorts * (2 + 2) + at_records(2) + 2 + both(3 * 2) + 2,
        2 + 2 + shorts * 2 + at_records(2) + both(4 * 2) + 2,
        8 + 2 + 4 + 7 * 4 + both(4 + 1) + 3,
        7 + 3 + 2 + both(4) + 3,
        (3 + 2) * 2,
        (3 + 3) * 2,
        of_settings(4) + on_traces(4),
        3 + 4 + shorts * 2 + at_records(2) + 1 + both(3) + 2,
        of_settings(8) + on_traces(4),
        shorts * (2 * 6 + 2 * 4) + at_records(shorts * 2) + both(shorts * 2) + shorts * 2 * 4,
        4 * 4,
        4 * 2 + 2 + 5 * 2,
        2 * 2,
        of_settings(7) + 4 + 13,
        7 * (4 + 1) + 3 * 2 + 7 * 2,
        3 * 4,
        6 * 3 + 9 + 5 + 5 * 3 + 1,
        5 * 2,
        13 * 2,
    ];
    assert_eq!(count.0, counts);
    assert!(count.0[1..].iter().all(|number| *number > 0));
}

/// The commands of a register block, one cause after another put right. What a record's kind does
/// not use is not judged.
fn commands(count: &mut Count, fresh: Handset) {
    let all_wrong = [4, 61, 5, 7];
    let bad = Handset { next: 10, ..fresh };
    let block: Vec<u8> = [4, 61, 5, 7, 3].into_iter().chain([255; 65_552]).collect();
    for length in [0, 1, 4, 5, 6, 7, 8, 15, 17, 32, 256, 272, 65_552] {
        count.other_block(29, bad, &block[..length]);
        count.other_block(29, fresh, &vec![0; length]);
    }
    for asked in [3, 4, 127, 128, 255] {
        count.command(28, bad, all_wrong, asked);
        count.command(28, fresh, [0, 0, 0, 0], asked);
    }
    for kind in [4, 5, 128, 129, 255] {
        count.command(22, bad, [kind, 61, 5, 7], 1);
        count.command(22, fresh, [kind, 0, 1, 0], 1);
    }
    let uplink = Handset { next: 2, ..fresh };
    for kind in [1, 2, 3] {
        count.command(8, bad, [kind, 61, 5, 7], 1);
        count.command(9, uplink, [kind, 61, 5, 7], 1);
        count.command(9, uplink, [kind, 60, 4, 1], 1);
    }
    count.command(10, fresh, [1, 61, 5, 4], 1);
    count.command(10, fresh, [2, 61, 5, 7], 1);
    count.command(11, fresh, [1, 61, 5, 3], 1);
    count.command(11, fresh, [3, 61, 0, 7], 1);
    count.command(12, fresh, [1, 60, 5, 3], 1);
    count.command(12, fresh, [3, 60, 0, 7], 1);
    count.command(18, fresh, [2, 60, 4, 1], 1);
    let scheduled = Handset { settings: SCHEDULED, ..fresh };
    let taken = feed_scheduled(scheduled, BLOCK).handset;
    count.command(18, taken, [2, 60, 4, 1], 1);
    for (handset, record) in [
        (fresh, [0, 61, 5, 255]),
        (fresh, [1, 60, 4, 0b1111_1011]),
        (fresh, [3, 60, 1, 255]),
        (scheduled, [2, 61, 5, 0b1111_1011]),
    ] {
        let [kind, cce, dai, results] = record;
        let mut block = [kind, cce, dai, results, 1, 0, 255, 0, 0, 0, 0, 0, 0, 0, 0, 0];
        let before = block;
        let answer = command(handset, &mut block);
        assert_eq!((answer.refusal, answer.line, answer.handset.next), (0, 0, 1), "{record:?}");
        assert_eq!(block, before, "{record:?}");
    }
}

/// 9 comes before 20, and 20 before 10, 11, 12 and 18; a release is taken.
fn commands_in_short_specials(count: &mut Count, fresh: Handset) {
    for next in [1, 6] {
        let handset = Handset { next, ..fresh };
        for record in [[1, 61, 5, 7], [1, 60, 4, 1], [2, 61, 5, 7], [2, 60, 4, 1]] {
            count.command(20, handset, record, 1);
        }
        let mut block = [3, 60, 4, 255, 1, 0, 255, 0, 0, 0, 0, 0, 0, 0, 0, 0];
        assert_eq!(command(handset, &mut block).refusal, 0);
    }
}

/// Games: a size that is not 1 to 9, more grants than subframes, and more losses than nine; alone
/// and together.
fn games(count: &mut Count) {
    for size in [0, 10, 256, 257, 265, 65535] {
        count.game(27, size, 0, 0);
        count.game(27, size, 1, 9);
        count.game(27, size, 5, 4);
    }
    for size in 1..=9 {
        count.game(27, size, size + 1, 4);
        assert_eq!(game(size, size, 3), GameAnswer { refusal: 0, radio: 0 }, "{size}");
    }
    for grants in [10, 256, 261, 32768, 65535] {
        count.game(27, 9, grants, 4);
    }
    for losses in [10, 256, 260, 32768, 65535] {
        count.game(27, 9, 5, losses);
        count.game(27, 1, 0, losses);
        count.game(27, 9, 10, losses);
    }
    count.game(27, 0, 1, 10);
    assert_eq!(game(9, 5, 4), GameAnswer { refusal: 0, radio: 1 });
    assert_eq!(game(9, 9, 9), GameAnswer { refusal: 0, radio: 1 });
    assert_eq!(game(1, 0, 0), GameAnswer { refusal: 0, radio: 0 });
}

/// What was sent: in configuration 1 the window of 2 has 5 and 6, which is a special subframe.
fn sent_and_credited(count: &mut Count) {
    let sizes = [(26, 110), (65535, 65535)];
    let grant = Sent::grant(1, 60, 4, sizes);
    let block = Sent::block(1, sizes);
    let release = Sent::release(60, 4);
    let with =
        |settings, first, second| Exchange { settings, sent: sent(first, second), ..EXCHANGE };
    let good = [
        (with(CELL, Sent::NOTHING, Sent::NOTHING), 0),
        (with(CELL, grant, release), 0),
        (with(SCHEDULED, block, grant), 0),
        (with(SCHEDULED, release, block), 0),
        (EXCHANGE, 1),
    ];
    for (exchange, first) in good {
        let octets = 9422 * first;
        assert_eq!(confirmed(exchange), ConfirmedAnswer::of(first, 0), "{exchange:?}");
        let account = Account::with(1, octets.into());
        let due = CreditAnswer::of(octets.into(), account);
        assert_eq!(credit(exchange, Account::new(1)), due, "{exchange:?}");
    }
    // One cause after another is put right, and the next number is answered.
    let bad_sizes = [(27, 111), (0, 0)];
    let bad = Sent::grant(2, 61, 5, bad_sizes);
    let (resource, b0) = (9, 2);
    for (prefix, special) in SHORT {
        let short = SCHEDULED.with_special(prefix, special);
        let exchange = Exchange { resource, b0, ..with(short, bad, bad) };
        count.exchange(20, exchange);
        count
            .exchange(20, Exchange { resource, b0, ..with(short, bad, Sent::block(2, bad_sizes)) });
        assert_eq!(confirmed(with(short, grant, release)).refusal, 0, "{short:?}");
    }
    for blocks in [2, 3, 257, 65535] {
        count.exchange(10, Exchange { resource, b0, ..with(CELL, bad, Sent { blocks, ..bad }) });
        count.exchange(10, Exchange { resource, b0, ..with(CELL, Sent { blocks, ..block }, bad) });
    }
    let bad = Sent { blocks: 1, ..bad };
    for cce in [61, 256, 65535] {
        count.exchange(11, Exchange { resource, b0, ..with(CELL, block, Sent { cce, ..bad }) });
        count.exchange(
            11,
            Exchange { resource, b0, ..with(CELL, Sent { blocks: 0, cce, ..bad }, bad) },
        );
    }
    let bad = Sent { cce: 60, ..bad };
    for dai in [0, 5, 257, 65535] {
        count.exchange(12, Exchange { resource, b0, ..with(CELL, block, Sent { dai, ..bad }) });
        count.exchange(
            12,
            Exchange { resource, b0, ..with(CELL, Sent { blocks: 0, dai, ..bad }, bad) },
        );
    }
    let bad = Sent { dai: 4, ..bad };
    let bad_block = Sent::block(1, bad_sizes);
    count.exchange(18, Exchange { resource, b0, ..with(CELL, bad_block, bad) });
    count.exchange(18, Exchange { resource, b0, ..with(CELL, release, bad_block) });
    count.exchange(18, Exchange { resource, b0, ..with(SCHEDULED, bad_block, bad_block) });

    // Of sizes the call for confirmed blocks says nothing, and answers 13.
    let account = Account::new(1);
    let sized = |itbs0, nprb0| Sent { itbs0, nprb0, ..grant };
    for (itbs, nprb) in [(27, 110), (255, 1), (65535, 1), (26, 0), (26, 111), (0, 256), (0, 65535)]
    {
        for exchange in [
            with(CELL, sized(itbs, nprb), grant),
            with(CELL, grant, sized(itbs, nprb)),
            with(SCHEDULED, Sent { itbs0: itbs, nprb0: nprb, ..block }, grant),
            with(SCHEDULED, grant, Sent { itbs0: itbs, nprb0: nprb, ..block }),
        ] {
            let exchange = Exchange { resource: 132, b0, ..exchange };
            count.credit(25, exchange, account);
            count.confirmed(13, exchange);
        }
        let two = Sent { blocks: 2, itbs1: itbs, nprb1: nprb, ..grant };
        count.credit(25, with(Settings { blocks: 2, ..CELL }, release, two), account);
    }
    for price in [1_000_001, 1_048_576, u32::MAX] {
        count.open_account(25, price);
        count.credit(25, EXCHANGE, Account::new(price));
    }
    let half = Account { octets: 3, charged: 1, price: 500_000, carry: 500_000 };
    assert_eq!(credit(EXCHANGE, half).refusal, 0);
    for account in [
        Account { octets: 4, ..half },
        Account { charged: 0, ..half },
        Account { charged: 0, carry: 1_500_000, ..half },
        Account { charged: 1 << 58 | 1, ..half },
        Account { price: 500_001, ..half },
        Account { carry: 499_999, ..half },
        Account { carry: 500_001, ..half },
    ] {
        count.credit(25, EXCHANGE, account);
        count.credit(25, Exchange { resource: 132, b0, ..EXCHANGE }, account);
    }

    for resource in [0, 9, 132, 65535] {
        count.exchange(13, Exchange { resource, b0, ..EXCHANGE });
    }
    count.exchange(13, Exchange { resource: 8, b0, ..with(SCHEDULED, block, grant) });
    count.exchange(14, Exchange { b0, ..EXCHANGE });
    count.exchange(14, Exchange { b1: 1, ..EXCHANGE });
    count.exchange(14, Exchange { resource: 9, b0, ..with(SCHEDULED, block, grant) });
    let multiplexing = Settings { mode: 1, ..CELL };
    count.exchange(14, Exchange { b0: 0, ..with(multiplexing, grant, grant) });

    // The end of an account: 1,000,000,000,000 octets.
    let most = 1_000_000_000_000;
    let (zero, ack) = (Exchange { b0: 0, ..EXCHANGE }, EXCHANGE);
    for price in [0, 1, 1_000_000] {
        let full = Account::with(price, most);
        assert_eq!(credit(zero, full), CreditAnswer::of(0, full));
        let up_to = Account::with(price, most - 9422);
        assert_eq!(credit(ack, up_to), CreditAnswer::of(9422, full));
        count.credit(26, ack, Account::with(price, most - 9421));
        count.credit(26, ack, full);
        count.credit(26, zero, Account::with(price, most + 1));
        count.credit(26, ack, Account::with(price, u64::MAX));
        count.credit(14, Exchange { b0: 2, ..ack }, full);
        count.credit(13, Exchange { resource: 132, ..ack }, Account::with(price, u64::MAX));
    }
}

/// What a replay refuses before any record; its size and the writing of a trace refuse it too, but
/// a size looks at no kind. Of the settings above those count whose numbers fit in the bytes of a
/// trace, which has no ports.
fn replays(count: &mut Count) {
    let good = Trace::new(CELL, &[Slot::NOTHING; 4]).bytes();
    let size = ReplaySizeAnswer { refusal: 0, windows: 2, bytes: 16 };
    assert_eq!(replay(&good, &mut [5; 16]), ReplayAnswer::done(2));
    assert_eq!(replay_size(&good), size);
    assert_eq!(record(&good, 3), RecordAnswer::read(Slot::NOTHING));
    let mut told_longer = good.clone();
    put_number(&mut told_longer, LENGTH_AT, good.len() + 1);
    for trace in [&[][..], &good[..7], &good[..good.len() - 1], &told_longer] {
        count.replay(21, trace, 16);
        count.replay_size(21, trace);
        count.record(21, trace, 0);
        count.trace_write(WriteAnswer::refused(21), trace, 34);
    }
    for settings_at in [7, good.len() - 9] {
        let mut bad = good.clone();
        put_number(&mut bad, SETTINGS_AT, settings_at);
        count.replay(22, &bad, 16);
        count.replay_size(22, &bad);
        count.record(22, &bad, 0);
        count.trace_write(WriteAnswer::refused(22), &bad, 34);
    }
    let mut kind = good.clone();
    kind[good.len() - 4] = 4;
    count.replay(22, &kind, 0);
    count.trace_write(WriteAnswer::refused(22), &kind, 0);
    assert_eq!(replay_size(&kind), size);
    for (number, settings) in REFUSED {
        let Settings { mode, blocks, prefix, special, .. } = settings;
        let fits = [mode, blocks, prefix, special].into_iter().all(|number| number < 256);
        if fits && number != 24 {
            let trace = Trace::new(settings, &[Slot::NOTHING; 4]).bytes();
            count.replay(number, &trace, 0);
            count.replay_size(number, &trace);
            count.trace_write(WriteAnswer::refused(number), &trace, 0);
        }
    }
    count.replay(23, &good, 15);
    count.replay(23, &good, 0);
    count.trace_write(WriteAnswer::refused(23), &good, 33);
    count.trace_write(WriteAnswer::refused(23), &good, 0);
    assert_eq!(trace_write(&good, &mut [5; 34]), WriteAnswer::done(34));
}

/// What a replay stops at. In configuration 1 subframe 3 is uplink and has a window, as
/// 2 has. In configuration 5 there is that of 2 alone, and 3 to 9 are downlink. In
/// configuration 2 there is no other before the special subframe 6.
fn records_stopped_at(count: &mut Count) {
    let good = Slot::grant(60, 1, 1);
    let at = |subframe: usize, slot: Slot| {
        let mut records = vec![Slot::NOTHING; subframe];
        records.push(slot);
        records
    };
    for slot in [good, Slot::block(1), Slot::release(60, 4)] {
        count.stopped(9, SCHEDULED, &at(3, slot));
    }
    let cell = Settings { config: 5, ..SCHEDULED };
    count.stopped(10, cell, &at(4, Slot { results: 5, ..good }));
    count.stopped(10, cell, &at(4, Slot::block(4)));
    count.stopped(11, cell, &at(4, Slot { cce: 61, ..good }));
    count.stopped(11, cell, &at(4, Slot::release(61, 5)));
    count.stopped(12, cell, &at(4, Slot { dai: 5, ..good }));
    count.stopped(12, cell, &at(4, Slot::release(60, 0)));
    count.stopped(18, Settings { scheduled: NONE, ..cell }, &at(4, Slot::block(1)));
    let mut second = at(5, Slot::block(0));
    second[4] = Slot::block(1);
    count.stopped(18, cell, &second);
    for (prefix, special) in SHORT {
        let cell = Settings { config: 2, ..SCHEDULED }.with_special(prefix, special);
        count.stopped(20, cell, &at(6, Slot { results: 5, cce: 61, ..good }));
        count.stopped(20, cell, &at(6, Slot::block(4)));
    }
}

/// What is remembered in a handset that expects 2, as above, with a resource set. In
/// configuration 1 the window of 7 has 0 and 1, that of 8 has 4, that of 2 has 5 and
/// 6, and that of 3 has 9. So 1 and 2 ago are in one window, which is still to be
/// filled, 6 and 7 ago in the one that is answered next, and 11 and 12 ago in one
/// that was answered long since.
fn blocks_and_releases_remembered(count: &mut Count, expecting: Handset) {
    let block = Slot { kind: Slot::BLOCK, cce: 255, dai: 255, results: 1 };
    let release = Slot { kind: Slot::RELEASE, cce: 60, dai: 4, results: 255 };
    let with = |slots: &[(usize, Slot)]| {
        let mut handset = expecting;
        slots.iter().for_each(|(ago, slot)| handset.past[*ago - 1] = *slot);
        handset
    };
    let downlink = [1, 2, 3, 6, 7, 8, 11, 12, 13];
    for ago in downlink {
        for good in [block, release, Slot { results: 251, ..block }] {
            assert_eq!(feed_nothing(with(&[(ago, good)])).refusal, 0, "{ago}, {good:?}");
        }
        count.bad_state(with(&[(ago, Slot { results: 5, ..block })]));
        count.bad_state(with(&[(ago, Slot { cce: 61, ..release })]));
        count.bad_state(with(&[(ago, Slot { dai: 0, ..release })]));
        count.bad_state(with(&[(ago, Slot { dai: 5, ..release })]));
        count.bad_state(with(&[(ago, Slot { kind: 4, ..release })]));
        let unset = Settings { scheduled: NONE, ..SCHEDULED };
        count.bad_state(Handset { settings: unset, ..with(&[(ago, block)]) });
    }
    for ago in [4, 5, 9, 10] {
        count.bad_state(with(&[(ago, block)]));
        count.bad_state(with(&[(ago, release)]));
    }
    count.bad_state(with(&[(1, block), (2, block)]));
    count.bad_state(with(&[(6, block), (7, block)]));
    count.due(8, feed_nothing(with(&[(11, block), (12, block)])).refusal, 8);
    count.due(8, feed_scheduled(with(&[(11, block), (12, block)]), BLOCK).refusal, 8);
    let six_windows = [1, 3, 6, 8, 12, 13].map(|ago| (ago, block));
    assert_eq!(feed_nothing(with(&six_windows)).refusal, 0);
}

/// One cause after another is put right, and the next number is answered.
fn blocks_and_releases_fed(count: &mut Count, without: Handset) {
    let fresh = Handset { settings: SCHEDULED, ..without };
    let uplink = Handset { next: 2, ..fresh };
    let none = Block { blocks: 0, ..BLOCK };
    count.feed_scheduled(9, uplink, none);
    count.feed_scheduled(9, uplink, BLOCK);
    count.feed_scheduled(10, fresh, none);
    count.feed_scheduled(10, fresh, Block { blocks: 2, ..BLOCK });
    count.feed_scheduled(10, without, none);
    count.feed_scheduled(18, without, BLOCK);
    let taken = feed_scheduled(fresh, BLOCK);
    assert_eq!((taken.refusal, taken.kind, taken.handset.next), (0, Fed::TAKEN, 1));
    count.feed_scheduled(18, taken.handset, BLOCK);
    count.feed_scheduled(18, taken.handset, Block { first: 0, ..BLOCK });

    count.feed_release(9, uplink, Release { cce: 61, dai: 5 });
    count.feed_release(9, uplink, RELEASE);
    count.feed_release(11, fresh, Release { cce: 61, dai: 5 });
    count.feed_release(11, without, Release { cce: 65535, dai: 1 });
    count.feed_release(12, fresh, Release { cce: 60, dai: 5 });
    count.feed_release(12, without, Release { cce: 60, dai: 0 });
    for handset in [fresh, without] {
        let taken = feed_release(handset, Release { cce: 60, dai: 4 });
        assert_eq!((taken.refusal, taken.kind, taken.handset.next), (0, Fed::TAKEN, 1));
    }
}

/// 4 and 5 speak of the new mode in the state's configuration, and come before 8. In
/// configuration 5 a handset that remembers multiplexing is bad at every age, for feeds and
/// for a change; the three bits above the 13 say nothing.
fn mode_changes(count: &mut Count, fresh: Handset) {
    let five = Handset { settings: Settings { config: 5, ..CELL }, ..fresh };
    let (bad, bad_five) = (Handset { next: 10, ..fresh }, Handset { next: 10, ..five });
    let multiplexing_five = five.in_mode(1);
    for handset in [fresh, five, bad, bad_five, multiplexing_five, Handset::NONE] {
        for mode in [2, 256, 257, 65535] {
            count.change_mode(4, handset, mode);
        }
    }
    for handset in [five, bad_five, multiplexing_five] {
        count.change_mode(5, handset, 1);
    }
    count.change_mode(8, bad, 0);
    count.change_mode(8, bad, 1);
    count.change_mode(8, Handset::NONE, 1);
    for bit in 0..13 {
        count.bad_state(Handset { modes: 1 << bit, ..five });
        let all_but_one = Handset { modes: 65535 - (1 << bit), ..five };
        count.change_mode(8, all_but_one, 0);
        count.due(8, feed_nothing(all_but_one), Fed::refused(8, all_but_one));
        let elsewhere = Handset { modes: 1 << bit, ..fresh };
        assert_eq!(change_mode(elsewhere, 1), Changed::to(elsewhere.in_mode(1)));
        assert_eq!(feed_nothing(elsewhere).refusal, 0);
    }
    for bit in 13..16 {
        let unused = Handset { modes: 1 << bit, ..five };
        assert_eq!(change_mode(unused, 0), Changed::to(unused));
        assert_eq!((feed_nothing(unused).refusal, feed_nothing(unused).handset.modes), (0, 0));
    }
}

/// A cell that may have two ports: what is not of the window is refused as with one port,
/// and the scratch has room for one resource more, the second of the last claim.
fn two_ports(count: &mut Count, fresh: Handset) {
    assert_eq!(make(TWO_PORTS), Made { refusal: 0, handset: with_ports(fresh, 2) });
    assert_eq!(window(TWO_PORTS, 2), window(CELL, 2));
    assert_eq!(answered(TWO_PORTS, 5), answered(CELL, 5));
    assert_eq!(resource(TWO_PORTS, 2, 1, 60), ResourceAnswer::of_two(131, 132));
    assert_eq!(inverse(TWO_PORTS, 2, 131), InverseAnswer::of(1, 60));
    count.window(7, TWO_PORTS, 10);
    count.resource(7, TWO_PORTS, 10, 2, 61);
    count.inverse(7, TWO_PORTS, 10, 132);
    count.reading(7, TWO_PORTS, 10, (132, 2, 2));
    count.claims(7, TWO_PORTS, 10, &[65535], [0, 0]);
    count.resource(11, TWO_PORTS, 2, 0, 61);
    count.resource(11, TWO_PORTS, 2, 2, 60);
    for resource in [9, 132] {
        count.inverse(13, TWO_PORTS, 2, resource);
        count.reading(13, TWO_PORTS, 2, (resource, 1, 0));
    }
    count.reading(14, TWO_PORTS, 2, (131, 2, 0));
    count.reading(14, TWO_PORTS, 2, (131, 0, 1));

    count.claims(15, TWO_PORTS, 2, &[], [122, 15]);
    count.claims(15, TWO_PORTS, 2, &[0, 0, 65535], [122, 15]);
    count.claims(16, TWO_PORTS, 2, &[61], [123, 16]);
    count.claims(16, TWO_PORTS, 2, &[0, 512], [123, 16]);
    count.claims(16, TWO_PORTS, 2, &[7, 8, 65535], [200, 25]);
    count.feed_scheduled(18, with_ports(fresh, 2), BLOCK);
}

fn with_ports(handset: Handset, ports: u16) -> Handset {
    Handset { settings: handset.settings.with_ports(ports), ..handset }
}

/// 24 is given for a change to multiplexing with two ports, after 4 and 5 and before 8. A
/// state with two ports is bad in mode 1, with a scheduled resource, and where it remembers
/// mode 1, at every age; the three bits above the 13 say nothing.
fn two_ports_of_a_state(count: &mut Count, fresh: Handset) {
    let good = with_ports(fresh, 2);
    let five = Handset { settings: Settings { config: 5, ..TWO_PORTS }, ..good };
    let scheduled = Handset { settings: TWO_PORTS.with_scheduled(9), ..good };
    let bad = [Handset { next: 10, ..good }, good.in_mode(1), scheduled];
    for handset in [good].into_iter().chain(bad) {
        count.change_mode(4, handset, 2);
        count.change_mode(24, handset, 1);
    }
    count.change_mode(5, five, 1);
    for handset in bad {
        count.change_mode(8, handset, 0);
    }
    for ports in [0, 3, 258, 65535] {
        count.change_mode(8, with_ports(fresh, ports), 0);
        count.change_mode(8, with_ports(fresh, ports), 1);
    }
    assert_eq!(change_mode(good, 0), Changed::to(good));
    for bit in 0..13 {
        let remembering = Handset { modes: 1 << bit, ..good };
        count.bad_state(remembering);
        count.change_mode(24, remembering, 1);
    }
    for bit in 13..16 {
        let unused = Handset { modes: 1 << bit, ..good };
        assert_eq!(change_mode(unused, 0), Changed::to(unused));
        assert_eq!((feed_nothing(unused).refusal, feed_nothing(unused).handset.modes), (0, 0));
    }
}

/// The reading of one that is told a position: 7, 11, 18, 13, 14.
fn told_positions(count: &mut Count) {
    count.told(7, SCHEDULED, 4, 2, (8, 2, 2));
    for told in [2, 9, 256, 65534] {
        count.told(11, CELL, 2, told, (8, 2, 2));
    }
    count.told(11, SCHEDULED, 2, 2, (9, 1, 0));
    count.told(18, CELL, 2, 0, (8, 2, 2));
    count.told(18, CELL, 2, 1, (9, 1, 0));
    count.told(18, CELL, 2, 1, (10, 1, 0));
    count.told(18, CELL, 2, 0, (NONE, 1, 0));
    count.told(13, SCHEDULED, 2, 0, (8, 2, 2));
    count.reading(13, SCHEDULED, 2, (9, 1, 0));
    count.told(14, SCHEDULED, 2, 0, (9, 2, 0));
    count.told(14, SCHEDULED, 2, 0, (9, 0, 1));
    count.told(14, Settings { mode: 1, ..SCHEDULED }, 2, 1, (9, 0, 1));
    let read = ReadingAnswer::bundled(0, 0, 1, 0).as_block();
    assert_eq!(reading(SCHEDULED, 2, 0, 9, 1, 0), read);
}

/// In configuration 1 the subframes 1 and 6 are special: of what a handset remembers
/// that expects 2, those 1, 6 and 11 ago, the last in a window that was answered long
/// since. A release is remembered there, a grant and a block are not.
fn short_specials_remembered(count: &mut Count, expecting: Handset) {
    let grant = Slot { kind: Slot::GRANT, cce: 60, dai: 4, results: 1 };
    let block = Slot { kind: Slot::BLOCK, ..grant };
    let release = Slot { kind: Slot::RELEASE, ..grant };
    let with = |ago: usize, slot| {
        let mut handset = expecting;
        handset.past[ago - 1] = slot;
        handset
    };
    for ago in [1, 6, 11] {
        count.bad_state(with(ago, grant));
        count.bad_state(with(ago, block));
        assert_eq!(feed_nothing(with(ago, release)).refusal, 0, "{ago}");
    }
    for ago in [2, 3, 7, 8, 12, 13] {
        for slot in [grant, block, release] {
            assert_eq!(feed_nothing(with(ago, slot)).refusal, 0, "{ago}, {slot:?}");
        }
    }
}

/// 9 comes before 20, and 20 before 10, 11, 12 and 18.
fn short_specials_fed(count: &mut Count, fresh: Handset) {
    let all_wrong = Grant { blocks: 0, cce: 61, dai: 5, ..GRANT };
    let none = Block { blocks: 0, ..BLOCK };
    let uplink = Handset { next: 2, ..fresh };
    count.feed_grant(9, uplink, all_wrong);
    count.feed_scheduled(9, uplink, none);
    count.feed_release(9, uplink, Release { cce: 61, dai: 5 });
    for next in [1, 6] {
        let handset = Handset { next, ..fresh };
        let unset = Settings { scheduled: NONE, ..fresh.settings };
        count.feed_grant(20, handset, GRANT);
        count.feed_grant(20, handset, all_wrong);
        count.feed_scheduled(20, handset, BLOCK);
        count.feed_scheduled(20, handset, none);
        count.feed_scheduled(20, Handset { settings: unset, ..handset }, BLOCK);
        count.feed_scheduled(20, Handset { settings: unset, ..handset }, none);
        count.feed_release(11, handset, Release { cce: 61, dai: 5 });
        count.feed_release(12, handset, Release { cce: 60, dai: 5 });
        let taken = [feed_release(handset, RELEASE), feed_nothing(handset)];
        assert_eq!(taken.map(|fed| (fed.refusal, fed.kind)), [(0, Fed::TAKEN); 2]);
    }
    for next in [0, 4, 5, 9] {
        let handset = Handset { next, ..fresh };
        let taken = [feed_grant(handset, GRANT), feed_scheduled(handset, BLOCK)];
        assert_eq!(taken.map(|fed| (fed.refusal, fed.kind)), [(0, Fed::TAKEN); 2]);
    }
}

/// The windows of 2 and 7 have their special subframe at position 1. It is looked at
/// whatever came in, after 7 and before 18; where there is no such position, 11.
fn short_specials_told(count: &mut Count, settings: Settings) {
    let unset = Settings { scheduled: NONE, ..settings };
    count.told(7, unset, 4, 1, (8, 2, 2));
    for n in [2, 7] {
        count.told(20, settings, n, 1, (9, 1, 0));
        count.told(20, settings, n, 1, (10, 1, 0));
        count.told(20, settings, n, 1, (8, 2, 2));
        count.told(20, unset, n, 1, (8, 2, 2));
        count.told(11, unset, n, 2, (8, 2, 2));
        count.told(18, unset, n, 0, (8, 2, 2));
        let read = ReadingAnswer::bundled(0, 0, 1, 0).as_block();
        assert_eq!(reading(settings, n, 0, 9, 1, 0), read);
        assert_eq!(reading(settings, n, NOT_TOLD, 21, 1, 0), ReadingAnswer::bundled(1, 0, 1, 0));
    }
}
