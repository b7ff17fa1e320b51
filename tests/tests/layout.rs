//! The structs of the C calls, byte by byte, and how they are passed.

use feedback_tests::form::Form;
use feedback_tests::trace::Trace;
use feedback_tests::{
    answered, change_mode, claims, claims_bits, command, confirmed, credit, feed, game, inverse,
    layout_5, make, open_account, reading, record, replay, replay_size, resource, silence,
    trace_write, window, Account, AnsweredAnswer, Block, Changed, ClaimsAnswer, CommandAnswer,
    ConfirmedAnswer, CreditAnswer, Exchange, Fed, GameAnswer, Grant, Handset, Heard, InverseAnswer,
    Made, Opened, ReadingAnswer, RecordAnswer, Release, ReplayAnswer, ReplaySizeAnswer,
    ResourceAnswer, Sent, SentWindow, Settings, SilenceAnswer, Slot, WindowAnswer, WriteAnswer,
    NOT_TOLD,
};
use std::mem::{align_of, offset_of, size_of};

#[test]
fn layout_is_the_fifth() {
    assert_eq!(layout_5(), 5);
}

#[test]
fn settings_are_nine_16_bit_numbers() {
    assert_eq!((size_of::<Settings>(), align_of::<Settings>()), (18, 2));
    assert_eq!(offset_of!(Settings, config), 0);
    assert_eq!(offset_of!(Settings, nrb), 2);
    assert_eq!(offset_of!(Settings, n1), 4);
    assert_eq!(offset_of!(Settings, mode), 6);
    assert_eq!(offset_of!(Settings, blocks), 8);
    assert_eq!(offset_of!(Settings, scheduled), 10);
    assert_eq!(offset_of!(Settings, prefix), 12);
    assert_eq!(offset_of!(Settings, special), 14);
    assert_eq!(offset_of!(Settings, ports), 16);
}

#[test]
fn a_window_answer_is_twenty_16_bit_numbers() {
    assert_eq!((size_of::<WindowAnswer>(), align_of::<WindowAnswer>()), (40, 2));
    assert_eq!(offset_of!(WindowAnswer, refusal), 0);
    assert_eq!(offset_of!(WindowAnswer, size), 2);
    assert_eq!(offset_of!(WindowAnswer, k), 4);
    assert_eq!(offset_of!(WindowAnswer, order), 22);
}

#[test]
fn an_answer_for_a_subframe_is_four_16_bit_numbers() {
    assert_eq!((size_of::<AnsweredAnswer>(), align_of::<AnsweredAnswer>()), (8, 2));
    assert_eq!(offset_of!(AnsweredAnswer, refusal), 0);
    assert_eq!(offset_of!(AnsweredAnswer, n), 2);
    assert_eq!(offset_of!(AnsweredAnswer, k), 4);
    assert_eq!(offset_of!(AnsweredAnswer, position), 6);
}

#[test]
fn a_resource_answer_is_three_16_bit_numbers() {
    assert_eq!((size_of::<ResourceAnswer>(), align_of::<ResourceAnswer>()), (6, 2));
    assert_eq!(offset_of!(ResourceAnswer, refusal), 0);
    assert_eq!(offset_of!(ResourceAnswer, resource), 2);
    assert_eq!(offset_of!(ResourceAnswer, second), 4);
}

#[test]
fn an_inverse_answer_is_three_16_bit_numbers() {
    assert_eq!((size_of::<InverseAnswer>(), align_of::<InverseAnswer>()), (6, 2));
    assert_eq!(offset_of!(InverseAnswer, refusal), 0);
    assert_eq!(offset_of!(InverseAnswer, position), 2);
    assert_eq!(offset_of!(InverseAnswer, cce), 4);
}

#[test]
fn a_reading_answer_is_eight_16_bit_numbers() {
    assert_eq!((size_of::<ReadingAnswer>(), align_of::<ReadingAnswer>()), (16, 2));
    assert_eq!(offset_of!(ReadingAnswer, refusal), 0);
    assert_eq!(offset_of!(ReadingAnswer, kind), 2);
    assert_eq!(offset_of!(ReadingAnswer, position), 4);
    assert_eq!(offset_of!(ReadingAnswer, cce), 6);
    assert_eq!(offset_of!(ReadingAnswer, b0), 8);
    assert_eq!(offset_of!(ReadingAnswer, b1), 10);
    assert_eq!(offset_of!(ReadingAnswer, delivered), 12);
    assert_eq!(offset_of!(ReadingAnswer, scheduled), 14);
}

#[test]
fn a_claims_answer_is_two_16_bit_numbers_and_one_of_64() {
    assert_eq!((size_of::<ClaimsAnswer>(), align_of::<ClaimsAnswer>()), (16, 8));
    assert_eq!(offset_of!(ClaimsAnswer, refusal), 0);
    assert_eq!(offset_of!(ClaimsAnswer, kind), 2);
    assert_eq!(offset_of!(ClaimsAnswer, index), 8);
}

#[test]
fn a_slot_is_four_bytes() {
    assert_eq!((size_of::<Slot>(), align_of::<Slot>()), (4, 1));
    assert_eq!(offset_of!(Slot, kind), 0);
    assert_eq!(offset_of!(Slot, cce), 1);
    assert_eq!(offset_of!(Slot, dai), 2);
    assert_eq!(offset_of!(Slot, results), 3);
}

#[test]
fn a_handset_is_74_bytes() {
    assert_eq!((size_of::<Handset>(), align_of::<Handset>()), (74, 2));
    assert_eq!(offset_of!(Handset, settings), 0);
    assert_eq!(offset_of!(Handset, next), 18);
    assert_eq!(offset_of!(Handset, modes), 20);
    assert_eq!(offset_of!(Handset, past), 22);
}

#[test]
fn answers_with_a_handset_have_it_last() {
    assert_eq!((size_of::<Made>(), align_of::<Made>()), (76, 2));
    assert_eq!(offset_of!(Made, refusal), 0);
    assert_eq!(offset_of!(Made, handset), 2);

    assert_eq!((size_of::<Changed>(), align_of::<Changed>()), (76, 2));
    assert_eq!(offset_of!(Changed, refusal), 0);
    assert_eq!(offset_of!(Changed, handset), 2);

    assert_eq!((size_of::<CommandAnswer>(), align_of::<CommandAnswer>()), (78, 2));
    assert_eq!(offset_of!(CommandAnswer, refusal), 0);
    assert_eq!(offset_of!(CommandAnswer, line), 2);
    assert_eq!(offset_of!(CommandAnswer, handset), 4);

    assert_eq!((size_of::<Fed>(), align_of::<Fed>()), (86, 2));
    assert_eq!(offset_of!(Fed, refusal), 0);
    assert_eq!(offset_of!(Fed, kind), 2);
    assert_eq!(offset_of!(Fed, resource), 4);
    assert_eq!(offset_of!(Fed, b0), 6);
    assert_eq!(offset_of!(Fed, b1), 8);
    assert_eq!(offset_of!(Fed, second), 10);
    assert_eq!(offset_of!(Fed, handset), 12);
}

#[test]
fn a_silence_answer_is_that_of_a_feed_and_three_16_bit_numbers() {
    assert_eq!((size_of::<SilenceAnswer>(), align_of::<SilenceAnswer>()), (92, 2));
    assert_eq!(offset_of!(SilenceAnswer, fed), 0);
    assert_eq!(offset_of!(SilenceAnswer, cause), 86);
    assert_eq!(offset_of!(SilenceAnswer, v), 88);
    assert_eq!(offset_of!(SilenceAnswer, expected), 90);
}

#[test]
fn a_game_answer_is_two_16_bit_numbers() {
    assert_eq!((size_of::<GameAnswer>(), align_of::<GameAnswer>()), (4, 2));
    assert_eq!(offset_of!(GameAnswer, refusal), 0);
    assert_eq!(offset_of!(GameAnswer, radio), 2);
}

#[test]
fn a_replay_answer_is_four_16_bit_numbers() {
    assert_eq!((size_of::<ReplayAnswer>(), align_of::<ReplayAnswer>()), (8, 2));
    assert_eq!(offset_of!(ReplayAnswer, refusal), 0);
    assert_eq!(offset_of!(ReplayAnswer, kind), 2);
    assert_eq!(offset_of!(ReplayAnswer, record), 4);
    assert_eq!(offset_of!(ReplayAnswer, windows), 6);
}

#[test]
fn a_replay_size_answer_is_two_16_bit_numbers_and_one_of_32() {
    assert_eq!((size_of::<ReplaySizeAnswer>(), align_of::<ReplaySizeAnswer>()), (8, 4));
    assert_eq!(offset_of!(ReplaySizeAnswer, refusal), 0);
    assert_eq!(offset_of!(ReplaySizeAnswer, windows), 2);
    assert_eq!(offset_of!(ReplaySizeAnswer, bytes), 4);
}

#[test]
fn a_record_answer_is_two_16_bit_numbers_and_a_slot() {
    assert_eq!((size_of::<RecordAnswer>(), align_of::<RecordAnswer>()), (8, 2));
    assert_eq!(offset_of!(RecordAnswer, refusal), 0);
    assert_eq!(offset_of!(RecordAnswer, kind), 2);
    assert_eq!(offset_of!(RecordAnswer, slot), 4);
}

#[test]
fn a_write_answer_is_four_16_bit_numbers() {
    assert_eq!((size_of::<WriteAnswer>(), align_of::<WriteAnswer>()), (8, 2));
    assert_eq!(offset_of!(WriteAnswer, refusal), 0);
    assert_eq!(offset_of!(WriteAnswer, kind), 2);
    assert_eq!(offset_of!(WriteAnswer, record), 4);
    assert_eq!(offset_of!(WriteAnswer, bytes), 6);
}

#[test]
fn a_sent_entry_is_eight_16_bit_numbers() {
    assert_eq!((size_of::<Sent>(), align_of::<Sent>()), (16, 2));
    assert_eq!(offset_of!(Sent, signalled), 0);
    assert_eq!(offset_of!(Sent, blocks), 2);
    assert_eq!(offset_of!(Sent, cce), 4);
    assert_eq!(offset_of!(Sent, dai), 6);
    assert_eq!(offset_of!(Sent, itbs0), 8);
    assert_eq!(offset_of!(Sent, nprb0), 10);
    assert_eq!(offset_of!(Sent, itbs1), 12);
    assert_eq!(offset_of!(Sent, nprb1), 14);

    assert_eq!((size_of::<SentWindow>(), align_of::<SentWindow>()), (144, 2));
    assert_eq!(offset_of!(SentWindow, at), 0);
}

#[test]
fn an_account_is_24_bytes() {
    assert_eq!((size_of::<Account>(), align_of::<Account>()), (24, 8));
    assert_eq!(offset_of!(Account, octets), 0);
    assert_eq!(offset_of!(Account, charged), 8);
    assert_eq!(offset_of!(Account, price), 16);
    assert_eq!(offset_of!(Account, carry), 20);
}

#[test]
fn answers_with_an_account_have_it_last() {
    assert_eq!((size_of::<Opened>(), align_of::<Opened>()), (32, 8));
    assert_eq!(offset_of!(Opened, refusal), 0);
    assert_eq!(offset_of!(Opened, account), 8);

    assert_eq!((size_of::<CreditAnswer>(), align_of::<CreditAnswer>()), (32, 8));
    assert_eq!(offset_of!(CreditAnswer, refusal), 0);
    assert_eq!(offset_of!(CreditAnswer, octets), 4);
    assert_eq!(offset_of!(CreditAnswer, account), 8);
}

#[test]
fn a_confirmed_answer_is_three_16_bit_numbers() {
    assert_eq!((size_of::<ConfirmedAnswer>(), align_of::<ConfirmedAnswer>()), (6, 2));
    assert_eq!(offset_of!(ConfirmedAnswer, refusal), 0);
    assert_eq!(offset_of!(ConfirmedAnswer, first), 2);
    assert_eq!(offset_of!(ConfirmedAnswer, second), 4);
}

/// What is sent in the window of nine: at each position a grant of two blocks, each number with
/// a value of its own. The DAIs go on 1, 2, 3, 4, 1 in time, and the last position in time is 6,
/// where first CCE 126 lies in the fourth region: (9 − 6 − 1) × 97 + 6 × 134 + 126 above N1.
fn nine() -> Exchange {
    let settings = Settings::plain(5, 110, 2000, 0, 2);
    let mut sent = SentWindow::NOTHING;
    let in_time = [0, 1, 7, 2, 3, 4, 8, 5, 6];
    for (j, m) in (0..).zip(in_time) {
        let sizes = [(10 + m, 100 + m), (m, 1 + m)];
        sent.at[usize::from(m)] = Sent::grant(2, 120 + m, j % 4 + 1, sizes);
    }
    Exchange { settings, n: 2, sent, resource: 2000 + 2 * 97 + 6 * 134 + 126, b0: 1, b1: 1 }
}

/// Of a window of nine that passes in memory every field arrives in its place: at each position
/// a number out of its range is refused by the cause that is its own.
#[test]
fn every_number_of_a_sent_window_arrives() {
    let good = nine();
    assert_eq!(confirmed(good), ConfirmedAnswer::of(1 << 6, 1 << 6));
    for m in 0..9 {
        let with = |change: &dyn Fn(&mut Sent)| {
            let mut exchange = good;
            change(&mut exchange.sent.at[m]);
            (confirmed(exchange).refusal, credit(exchange, Account::new(1)).refusal)
        };
        assert_eq!(with(&|sent| sent.signalled = 0), (18, 18), "{m}");
        assert_eq!(with(&|sent| sent.signalled = 256), (0, 0), "{m}");
        assert_eq!(with(&|sent| sent.blocks = 258), (10, 10), "{m}");
        assert_eq!(with(&|sent| sent.cce = 134), (11, 11), "{m}");
        assert_eq!(with(&|sent| sent.dai = 257), (12, 12), "{m}");
        assert_eq!(with(&|sent| sent.itbs0 = 27), (0, 25), "{m}");
        assert_eq!(with(&|sent| sent.nprb0 = 256), (0, 25), "{m}");
        assert_eq!(with(&|sent| sent.itbs1 = 256), (0, 25), "{m}");
        assert_eq!(with(&|sent| sent.nprb1 = 0), (0, 25), "{m}");
    }
}

/// The other arguments arrive in their places too, and every field of the answers comes back,
/// each with a value of its own. At position 6 the first block, of I_TBS 16 and N_PRB 106, has
/// 34,008 bits, and the second, of 6 and 7, has 712.
#[test]
fn every_field_of_a_credit_comes_back() {
    let exchange = nine();
    let account =
        Account { octets: 5_000_000_000, charged: 4_999_995_000, price: 999_999, carry: 0 };
    let first: u32 = 34_008 / 8;
    let second: u32 = 712 / 8;
    let after = |octets: u32| {
        let total = 5_000_000_000 + u64::from(octets);
        let product = total * 999_999;
        let (charged, carry) = (product / 1_000_000, (product % 1_000_000) as u32);
        CreditAnswer {
            refusal: 0,
            octets,
            account: Account { octets: total, charged, price: 999_999, carry },
        }
    };
    assert_eq!(credit(exchange, account), after(first + second));
    assert_eq!(credit(Exchange { b1: 0, ..exchange }, account), after(first));
    assert_eq!(credit(Exchange { b0: 0, ..exchange }, account), after(second));
    assert_eq!(credit(Exchange { b0: 0, b1: 0, ..exchange }, account), after(0));
    let refused = |refusal| CreditAnswer { refusal, octets: 0, account };
    assert_eq!(credit(Exchange { n: 258, ..exchange }, account), refused(7));
    assert_eq!(credit(Exchange { resource: 65535, ..exchange }, account), refused(13));
    assert_eq!(credit(Exchange { b0: 257, ..exchange }, account), refused(14));
    assert_eq!(credit(Exchange { b1: 65535, ..exchange }, account), refused(14));
    let mut fewer = exchange;
    fewer.sent.at[0].blocks = 1;
    (fewer.b0, fewer.resource) = (0, 2000 + 8 * 97 + 120);
    // Position 0 is the first in time, and has one block: by bit 1 it is confirmed.
    let first_only = ConfirmedAnswer { refusal: 0, first: 1, second: 0 };
    assert_eq!(confirmed(fewer), first_only);
    let second_only = ConfirmedAnswer { refusal: 0, first: 0, second: 1 << 6 };
    assert_eq!(confirmed(Exchange { b0: 0, ..exchange }), second_only);
    let opened = open_account(0x000f_4240);
    let new = Account { octets: 0, charged: 0, price: 1_000_000, carry: 0 };
    assert_eq!(opened, Opened { refusal: 0, account: new });
    let too_dear = Account { price: 0xf4f3_f2f1, ..new };
    assert_eq!(open_account(0xf4f3_f2f1), Opened { refusal: 25, account: too_dear });
}

/// Every field of these four answers, each with a value of its own. In configuration 1
/// the windows of 2, 3, 7 and 8 are complete before the bad CCE of record 1015; numbers
/// above 255 come back whole. Without it the trace is written: 18 + 4 * 1015 bytes.
#[test]
fn every_field_of_a_replay_comes_back() {
    let mut records = [Slot::NOTHING; 1016];
    records[1014] = Slot::grant(60, 3, 5);
    records[1015] = Slot::grant(61, 4, 1);
    let trace = Trace::new(Settings::plain(1, 50, 10, 0, 2), &records).bytes();
    let answer = replay(&trace, &mut [9; 8 * 406]);
    assert_eq!(answer, ReplayAnswer { refusal: 11, kind: 2, record: 1015, windows: 406 });
    let size = ReplaySizeAnswer { refusal: 0, windows: 406, bytes: 3248 };
    assert_eq!(replay_size(&trace), size);
    assert_eq!(replay_size(&trace[1..]), ReplaySizeAnswer { refusal: 21, windows: 0, bytes: 0 });
    let slot = Slot { kind: 1, cce: 60, dai: 3, results: 5 };
    assert_eq!(record(&trace, 1014), RecordAnswer { refusal: 0, kind: 1, slot });
    assert_eq!(record(&trace[1..], 1014).refusal, 21);
    let stopped = WriteAnswer { refusal: 11, kind: 2, record: 1015, bytes: 0 };
    assert_eq!(trace_write(&trace, &mut [9; 4082]), stopped);
    let trace = Trace::new(Settings::plain(1, 50, 10, 0, 2), &records[..1015]).bytes();
    let done = WriteAnswer { refusal: 0, kind: 1, record: 0, bytes: 4078 };
    assert_eq!(trace_write(&trace, &mut [9; 4078]), done);
}

/// Every byte of a handset that is not refused comes back where it was, each
/// slot one later: each has a value of its own here.
#[test]
fn every_byte_of_a_handset_comes_back() {
    let settings = Settings::plain(5, 110, 2047, 0, 2);
    let mut handset = Handset { next: 3, ..Handset::fresh(settings) };
    for (at, slot) in handset.past.iter_mut().enumerate() {
        // Subframe 2, the only uplink one, is 1 and 11 before; a slot of nothing
        // may hold anything.
        let kind = u8::from(at != 0 && at != 10);
        let at = at as u8;
        *slot = Slot { kind, cce: 100 + at, dai: 1 + at % 4, results: 16 * at + at % 8 };
    }
    let fed = feed(handset, Some(Grant { blocks: 1, first: 0, second: 9, cce: 90, dai: 4 }));
    let mut after = handset;
    after.next = 4;
    after.past.rotate_right(1);
    after.past[0] = Slot { kind: 1, cce: 90, dai: 4, results: 2 };
    assert_eq!(fed, Fed::answer(Fed::TAKEN, after));
}

/// Likewise with every kind, fed with each kind: bytes of a slot that its kind does
/// not use come back too, and a fed slot has them 0.
#[test]
fn every_kind_comes_back() {
    let settings = Settings::plain(2, 110, 2047, 0, 2).with_scheduled(2046);
    let modes = 0b1011_0110_0101_1011;
    let mut handset = Handset { next: 4, modes, ..Handset::fresh(settings) };
    // Remembered are 3 to 0, 9 to 0 and so back, where 2 and 7 are uplink. The blocks
    // in 3, 5 and the 3 before are in three windows, and 4 is in a fourth.
    let kinds = [2, 0, 3, 1, 3, 1, 0, 3, 2, 3, 2, 0, 1];
    for (at, (slot, kind)) in handset.past.iter_mut().zip(kinds).enumerate() {
        let at = at as u8;
        *slot = Slot { kind, cce: 100 + at, dai: 1 + at % 4, results: 16 * at + at % 8 };
        if kind == Slot::BLOCK {
            slot.dai = 200 + at;
            slot.cce = 255;
        }
    }
    let heard: [(Heard, Slot); 4] = [
        (Heard::Nothing, Slot::NOTHING),
        (
            Heard::Grant(Grant { blocks: 2, first: 256, second: 0, cce: 133, dai: 1 }),
            Slot { kind: 1, cce: 133, dai: 1, results: 5 },
        ),
        (
            Heard::Block(Block { blocks: 2, first: 0, second: 65535 }),
            Slot { kind: 2, cce: 0, dai: 0, results: 6 },
        ),
        (
            Heard::Release(Release { cce: 133, dai: 4 }),
            Slot { kind: 3, cce: 133, dai: 4, results: 0 },
        ),
    ];
    for (heard, slot) in heard {
        let mut after = handset;
        after.next = 5;
        after.modes = 0b0000_1100_1011_0110;
        after.past.rotate_right(1);
        after.past[0] = slot;
        assert_eq!(feed(handset, heard), Fed::answer(Fed::TAKEN, after), "{heard:?}");
        after.settings.mode = 1;
        after.modes = 0b0000_1100_1011_0111;
        let fed = feed(handset.in_mode(1), heard);
        assert_eq!(fed, Fed::answer(Fed::TAKEN, after), "{heard:?}");
    }
    let changed = change_mode(handset, 1).handset.bytes();
    let mut after = handset.bytes();
    after[offset_of!(Handset, settings) + offset_of!(Settings, mode)] = 1;
    assert_eq!(changed, after);
}

/// Both resources come back, and every field of a reply, each with a value of its own. In
/// configuration 1 the window of 2 has K 7, 6: a grant 6 ago, at position 1, with first CCE
/// 60, has the resource 61 + 60 above N1.
#[test]
fn every_field_of_two_ports_comes_back() {
    let settings = Settings::plain(1, 50, 1000, 0, 2).with_ports(2);
    let answer = ResourceAnswer { refusal: 0, resource: 1121, second: 1122 };
    assert_eq!(resource(settings, 2, 1, 60), answer);
    let mut handset = Handset { next: 2, ..Handset::fresh(settings) };
    handset.past[5] = Slot::grant(60, 1, Slot::TWO | Slot::FIRST);
    let mut after = Handset { next: 3, ..handset };
    after.past.rotate_right(1);
    let due =
        Fed { refusal: 0, kind: 1, resource: 1121, b0: 1, b1: 0, second: 1122, handset: after };
    assert_eq!(feed(handset, None), due);
    assert_eq!(silence(handset), SilenceAnswer { fed: due, cause: 0, v: 0, expected: 0 });
    let one_port = |handset: Handset| Handset { settings: settings.with_ports(1), ..handset };
    let due = Fed { second: 0, handset: one_port(after), ..due };
    assert_eq!(feed(one_port(handset), None), due);
}

/// Every byte of a handset comes back beside the cause of a silence too, each slot one later,
/// and the three numbers behind it, each with a value of its own. In configuration 5 the window
/// of 2 is 13, 12, 11, 9, 8, 7, 6, 5 and 4 ago. Here 13 ago is lost, and 12 to 6 ago bring the
/// DAIs 2, 3, 4, 1, 2, 3: six of seven are heard.
#[test]
fn every_field_of_a_silence_comes_back() {
    let settings = Settings::plain(5, 110, 2047, 0, 2);
    let mut handset = Handset { next: 2, ..Handset::fresh(settings) };
    let mut dai = 1;
    for (at, slot) in handset.past.iter_mut().enumerate().rev() {
        let ago = at as u8 + 1;
        // Subframe 2 is 10 ago, and 1 to 3 ago are in the next window; a slot of nothing may
        // hold anything.
        let heard = ![13, 10, 5, 4].contains(&ago);
        dai = if heard { dai % 4 + 1 } else { dai };
        *slot = Slot { kind: heard.into(), cce: 90 + ago, dai, results: 16 * ago + ago % 8 };
    }
    let mut after = Handset { next: 3, ..handset };
    after.past.rotate_right(1);
    after.past[0] = Slot::NOTHING;
    let fed = Fed { refusal: 0, kind: 3, resource: 0, b0: 0, b1: 0, second: 0, handset: after };
    assert_eq!(silence(handset), SilenceAnswer { fed, cause: 2, v: 3, expected: 2 });
    let bad = Handset { next: 258, ..handset };
    let fed = Fed { refusal: 8, kind: 0, resource: 0, b0: 0, b1: 0, second: 0, handset: bad };
    assert_eq!(silence(bad), SilenceAnswer { fed, cause: 0, v: 0, expected: 0 });
    let nothing = Handset { past: [Slot::NOTHING; 13], ..handset };
    let given = silence(nothing);
    assert_eq!((given.cause, given.v, given.expected), (1, 0, 0));
}

/// Of a game both numbers come back, and each of the three that are given arrives in its place:
/// the same in other places are refused or answered otherwise. So does each bit from 4 on.
#[test]
fn every_number_of_a_game_arrives() {
    let given = [game(9, 5, 4), game(9, 4, 5), game(5, 4, 9), game(4, 5, 9), game(5, 9, 4)];
    let due = [(0, 1), (0, 0), (0, 0), (27, 0), (27, 0)];
    assert_eq!(given.map(|answer| (answer.refusal, answer.radio)), due);
    for bit in 4..16 {
        let more = 1 << bit;
        let given = [game(9 + more, 5, 4), game(9, 5 + more, 4), game(9, 5, 4 + more)];
        assert_eq!(given, [GameAnswer { refusal: 27, radio: 0 }; 3], "bit {bit}");
    }
}

/// Every byte of the block of a command is where it is due, each with a value of its own before,
/// and every byte of the handset comes back. In configuration 5 five grants of the window of 2 were
/// heard, of which the last in time is at position 8: first CCE 96 there has resource
/// 0 × 61 + 8 × 97 + 96 above N1. One first block was not decoded.
#[test]
fn every_byte_of_a_command_comes_back() {
    let settings = Settings::plain(5, 110, 2047, 0, 2);
    let mut handset = Handset { next: 2, ..Handset::fresh(settings) };
    let mut dai = 0;
    for (at, slot) in handset.past.iter_mut().enumerate().rev() {
        let ago = at as u8 + 1;
        let heard = [12, 11, 9, 8, 6].contains(&ago);
        dai = if heard { dai % 4 + 1 } else { dai };
        let results = 16 * ago + if ago == 9 { 6 } else { 7 };
        *slot = Slot { kind: heard.into(), cce: 90 + ago, dai, results };
    }
    let mut after = Handset { next: 3, ..handset };
    after.past.rotate_right(1);
    after.past[0] = Slot::NOTHING;
    let mut block = [0, 1, 2, 3, 1, 0xf8, 0x79, 7, 8, 9, 10, 11, 12, 13, 14, 15];
    let given = command(handset, &mut block);
    assert_eq!(given, CommandAnswer { refusal: 0, line: 1, handset: after });
    // 2047 + 8 × 97 + 96 is 11 × 256 + 103.
    assert_eq!(block, [0, 1, 2, 3, 1, 0xf9, 0x79, 7, 2, 1, 103, 11, 0, 1, 0, 0]);
}

/// So does every byte of a handset that is bad, and bit 1 of the mask alone is not set.
#[test]
fn every_byte_of_a_bad_handset_comes_back_from_a_command() {
    let bytes: [u8; 74] = std::array::from_fn(|at| 101 + at as u8);
    let bad = Handset::from_bytes(bytes);
    for (asked, number, refusal) in [(0, 7, 0), (1, 8, 8), (2, 7, 0), (0x80, 28, 28)] {
        let mut block = [0, 1, 2, 3, asked, 0xfa, 0xfd, 7, 8, 9, 10, 11, 12, 13, 14, 15];
        let given = command(bad, &mut block);
        let due = [0, 1, 2, 3, asked, 0xfa, 0xfd, number, 8, 9, 10, 11, 12, 13, 14, 15];
        assert_eq!((given.refusal, given.line, block), (refusal, 0, due));
        assert_eq!(given.handset.bytes(), bytes, "{asked}");
    }
    let mut long = [0x99; 17];
    let given = command(bad, &mut long);
    assert_eq!((given.refusal, given.line, long), (29, 0, [0x99; 17]));
    assert_eq!(given.handset.bytes(), bytes);
}

/// Of a mode change the refusal and the handset come back, and all 16 bits of the new mode
/// arrive.
#[test]
fn every_field_of_a_mode_change_comes_back() {
    let handset = Handset { next: 9, ..Handset::fresh(Settings::plain(4, 100, 2000, 1, 2)) };
    for mode in [2, 256, 257, 32768, 65535] {
        assert_eq!(change_mode(handset, mode), Changed { refusal: 4, handset });
    }
    let changed = Handset { modes: 8191, ..handset.in_mode(0) };
    assert_eq!(change_mode(handset, 0), Changed { refusal: 0, handset: changed });
    assert_eq!(change_mode(changed, 1), Changed { refusal: 0, handset });
}

/// A fresh handset in its 74 bytes: the settings, and in mode 1 thirteen bits of the modes.
#[test]
fn every_byte_of_a_fresh_handset() {
    for (mode, scheduled, ports, modes) in [(0, 1999, 1, 0), (1, 1999, 1, 0x1fff), (0, 65535, 2, 0)]
    {
        let settings = Settings::plain(4, 100, 2000, mode, 2).with_scheduled(scheduled);
        let made = make(settings.with_ports(ports));
        let numbers = [4, 100, 2000, mode, 2, scheduled, 0, 7, ports, 0, modes];
        let mut bytes = [0; 74];
        bytes[..22].copy_from_slice(numbers.map(u16::to_ne_bytes).as_flattened());
        assert_eq!((made.refusal, made.handset.bytes()), (0, bytes), "mode {mode}, {ports} ports");
    }
    let multiplexing = Settings::plain(5, 100, 2000, 1, 2);
    for (number, settings) in [(5, multiplexing), (24, Settings { config: 4, ..multiplexing })] {
        let refused = make(settings.with_ports(2));
        assert_eq!((refused.refusal, refused.handset.bytes()), (number, [0; 74]));
    }
}

/// Settings pass in memory. There are not enough small values for nine numbers that all
/// differ; but of two settings no two numbers are the same in both, and each is where it was.
#[test]
fn every_number_of_the_settings_comes_back() {
    let both = [
        Settings::plain(4, 100, 2000, 1, 2).with_scheduled(1999).with_special(0, 6),
        Settings::plain(3, 50, 300, 0, 1).with_special(1, 5).with_ports(2),
    ];
    let numbers = both.map(|settings| {
        let Settings { config, nrb, n1, mode, blocks, scheduled, prefix, special, ports } =
            settings;
        [config, nrb, n1, mode, blocks, scheduled, prefix, special, ports]
    });
    let mut of_both: Vec<_> = numbers[0].into_iter().zip(numbers[1]).collect();
    of_both.sort();
    assert!(of_both.windows(2).all(|pair| pair[0] < pair[1]), "{of_both:?}");
    for settings in both {
        let made = make(settings);
        assert_eq!((made.refusal, made.handset), (0, Handset::fresh(settings)));
        assert_eq!(feed(made.handset, None).handset.settings, settings);
    }
}

/// Each number of the settings reaches every call that takes them: out of its range
/// it is refused by the cause that is its own.
#[test]
fn every_number_of_the_settings_arrives() {
    let good = Settings::plain(4, 100, 2000, 1, 2).with_scheduled(1999).with_special(0, 6);
    let refused = [
        (1, Settings { config: 7, ..good }),
        (2, Settings { nrb: 5, ..good }),
        (3, Settings { n1: 2048, ..good }),
        (4, Settings { mode: 2, ..good }),
        (6, Settings { blocks: 3, ..good }),
        (17, Settings { scheduled: 2000, ..good }),
        (19, Settings { prefix: 2, ..good }),
        (19, Settings { special: 9, ..good }),
        (24, Settings { ports: 3, ..good }),
    ];
    let exchange = |settings| Exchange {
        settings,
        n: 2,
        sent: SentWindow::NOTHING,
        resource: 2000,
        b0: 1,
        b1: 0,
    };
    for (number, settings) in refused.into_iter().chain([(0, good)]) {
        let refusals = [
            window(settings, 2).refusal,
            answered(settings, 1).refusal,
            resource(settings, 2, 0, 0).refusal,
            inverse(settings, 2, 2000).refusal,
            reading(settings, 2, NOT_TOLD, 2000, 1, 0).refusal,
            claims(settings, 2, &[0], &mut [0; 500]).refusal,
            claims_bits(settings, 2, &[0], &mut [0; 62]).refusal,
            make(settings).refusal,
            confirmed(exchange(settings)).refusal,
            credit(exchange(settings), Account::new(0)).refusal,
        ];
        assert_eq!(refusals, [number; 10], "{settings:?}");
    }
}

/// Each of the other arguments on claims arrives in its place, and the index comes back
/// whole: in configuration 5 with N_RB 6 there are 63 resources, and (8, 6) has the last. A
/// second port has one more.
#[test]
fn every_argument_on_claims_arrives() {
    let settings = Settings::plain(5, 6, 10, 0, 1);
    let mut list = vec![8 * 256 + 6; 70_000];
    list[0] = 0;
    list[69_999] = 8 * 256 + 7;
    for (form, marks) in [(Form::Bytes, 63), (Form::Bits, 8)] {
        let mut scratch = vec![7; marks + 1];
        let refused = form.claims(settings, 2, &list, &mut scratch);
        assert_eq!(refused, ClaimsAnswer { refusal: 16, kind: 0, index: 69_999 }, "{form}");
        let clash = form.claims(settings, 2, &list[..69_999], &mut scratch);
        assert_eq!(clash, ClaimsAnswer { refusal: 0, kind: 2, index: 2 }, "{form}");
        let due = match form {
            Form::Bytes => (1, 1, 7),
            Form::Bits => (0b0000_0001, 0b0100_0000, 7),
        };
        assert_eq!((scratch[0], scratch[marks - 1], scratch[marks]), due, "{form}");
        assert_eq!(
            form.claims(settings, 2, &list[..2], &mut scratch),
            ClaimsAnswer::CLEAN,
            "{form}"
        );
        assert_eq!(
            form.claims(settings, 2, &list, &mut scratch[..marks - 1]).refusal,
            15,
            "{form}"
        );
        assert_eq!(form.claims(settings, 3, &list, &mut scratch).refusal, 7, "{form}");
        let two_ports = settings.with_ports(2);
        let (room, due) = match form {
            Form::Bytes => (64, (1, 1, 7)),
            Form::Bits => (8, (0b0000_0011, 0b1100_0000, 7)),
        };
        let mut scratch = vec![7; room + 1];
        let refused = form.claims(two_ports, 2, &list, &mut scratch[..room]);
        assert_eq!(refused, ClaimsAnswer { refusal: 16, kind: 0, index: 69_999 }, "{form}");
        assert_eq!(
            form.claims(two_ports, 2, &list[..2], &mut scratch[..room]),
            ClaimsAnswer::CLEAN,
            "{form}"
        );
        assert_eq!((scratch[0], scratch[room - 1], scratch[room]), due, "{form}");
        assert_eq!(
            form.claims(two_ports, 2, &list, &mut scratch[..room - 1]).refusal,
            15,
            "{form}"
        );
    }
}
