//! Fuzzing: every call with numbers, states and buffers of any kind, from fixed
//! seeds. Every answer is compared with the plain implementation, and one in 64
//! with the model too. Memory that is lent lies flush with pages that are not
//! mapped, once at its start and once at its end.
//!
//! The calls counted below are those of a normal run. With FEEDBACK_FUZZ set to
//! a number, as many times more are made, from further seeds.

use feedback_tests::compare::{
    hold_beside_the_feed, plain_command_on, plain_confirmed_of, plain_credit_of, plain_feed,
    plain_record_of, plain_replay_on, plain_replay_size_of, plain_trace_write_on, Comparison, Lent,
    LentTrace, Shown,
};
use feedback_tests::form::Form;
use feedback_tests::guarded::{Guarded, BOTH};
use feedback_tests::model::{edge, is_short, is_uplink, Model, NRB};
use feedback_tests::plain::{
    plain_answered, plain_change_mode, plain_game, plain_inverse, plain_make, plain_open_account,
    plain_reading, plain_resource, plain_silence, plain_window,
};
use feedback_tests::random::Random;
use feedback_tests::registers::{
    is_high, Written, CLEAR, FEED, FLAGS, MASK, NO_COMMAND, OVERWRITTEN, READY, SIZE, ZEROS,
};
use feedback_tests::trace::{
    number_at, record_of, spelled_length, Trace, RECORDS_AT, SETTINGS_AT, WINDOW,
};
use feedback_tests::{
    answered, change_mode, command, confirmed, credit, feed, game, inverse, make, open_account,
    reading, resource, silence, window, Account, Changed, Fed, Handset, Heard, Settings,
    SilenceAnswer, Slot, WriteAnswer, NOT_TOLD,
};
use std::env;

const WINDOW_CALLS: u64 = 2_000_000;
const ANSWERED_CALLS: u64 = 2_000_000;
const RESOURCE_CALLS: u64 = 2_000_000;
const INVERSE_CALLS: u64 = 2_000_000;
const READING_CALLS: u64 = 4_000_000;
const MAKE_CALLS: u64 = 1_000_000;
const FEED_CALLS: u64 = 8_000_000;
const STEP_CALLS: u64 = 4_000_000;
const SILENCE_CALLS: u64 = 2_048_000;
const CHANGE_CALLS: u64 = 1_024_000;
const CLAIMS_CALLS: u64 = 2_000_000;
const BIT_CLAIMS_CALLS: u64 = 1_024_000;
const REPLAY_CALLS: u64 = 1_024_000;
const SIZE_CALLS: u64 = 256_000;
const RECORD_CALLS: u64 = 1_024_000;
const WRITE_CALLS: u64 = 512_000;
const CONFIRMED_CALLS: u64 = 1_024_000;
const CREDIT_CALLS: u64 = 1_024_000;
const OPEN_CALLS: u64 = 256_000;
const GAME_CALLS: u64 = 256_000;
const COMMAND_CALLS: u64 = 2_048_000;

const _: () = assert!(
    WINDOW_CALLS
        + ANSWERED_CALLS
        + RESOURCE_CALLS
        + INVERSE_CALLS
        + READING_CALLS
        + MAKE_CALLS
        + FEED_CALLS
        + STEP_CALLS
        + SILENCE_CALLS
        + CHANGE_CALLS
        + CLAIMS_CALLS
        + BIT_CLAIMS_CALLS
        + REPLAY_CALLS
        + SIZE_CALLS
        + RECORD_CALLS
        + WRITE_CALLS
        + CONFIRMED_CALLS
        + CREDIT_CALLS
        + OPEN_CALLS
        + GAME_CALLS
        + COMMAND_CALLS
        >= 10_000_000
);

/// One answer in as many is compared with the model too.
const SAMPLE: u64 = 64;

/// How many times a normal run is made.
fn times() -> u64 {
    match env::var("FEEDBACK_FUZZ") {
        Ok(times) => times.parse().expect("FEEDBACK_FUZZ is a number"),
        Err(_) => 1,
    }
}

/// Makes `calls` calls, from a seed of their own for each thousand, and shows how
/// many they were. `each` is told when to ask the model, and says how many calls
/// it made.
fn fuzz(first_seed: u64, calls: u64, mut each: impl FnMut(&mut Random, bool) -> u64) -> u64 {
    let (mut made, mut inputs, mut seed) = (0, 0, first_seed << 32);
    while made < calls * times() {
        let mut random = Random::new(seed);
        let end = made + 1000;
        while made < end {
            made += each(&mut random, inputs % SAMPLE == 0);
            inputs += 1;
        }
        seed += 1;
    }
    println!("{made} calls");
    made
}

/// A number near an edge, or any.
fn near(edge: u16, random: &mut Random) -> u16 {
    match random.below(8) {
        0 => random.any(),
        1 => edge.wrapping_add(random.below16(8)).wrapping_sub(4),
        _ => random.below16(edge.max(1)),
    }
}

/// N_4, also of a bandwidth that is not allowed.
fn cces(settings: Settings) -> u16 {
    edge(settings.nrb.clamp(*NRB.start(), *NRB.end()), 4)
}

/// M, or 1 where there is no window.
fn size(model: &Model, settings: Settings, n: u16) -> u16 {
    model.window(settings.config, n).map_or(1, |window| window.size())
}

#[test]
fn windows() {
    let model = Model::new();
    let mut comparison = Comparison::with(&model);
    let calls = fuzz(7, WINDOW_CALLS, |random, ask_model| {
        let settings = random.wild_settings(24);
        let n = random.wild_n(&model, settings.config);
        let (given, plain) = (window(settings, n), plain_window(settings, n));
        assert!(
            given == plain,
            "feedback_window({settings:?}, n {n}): the engine gives {given:?}, the plain \
             implementation {plain:?}"
        );
        if ask_model {
            comparison.window(settings, n);
        }
        1
    });
    assert_eq!(calls, WINDOW_CALLS * times());
    comparison.finish_with(calls / SAMPLE, &[0, 1, 2, 3, 4, 5, 6, 7, 17, 19, 24], &[]);
}

#[test]
fn answers_for_subframes() {
    let model = Model::new();
    let mut comparison = Comparison::with(&model);
    let calls = fuzz(8, ANSWERED_CALLS, |random, ask_model| {
        let settings = random.wild_settings(24);
        let subframe = near(10, random);
        let (given, plain) = (answered(settings, subframe), plain_answered(settings, subframe));
        assert!(
            given == plain,
            "feedback_answered({settings:?}, subframe {subframe}): the engine gives {given:?}, \
             the plain implementation {plain:?}"
        );
        if ask_model {
            comparison.answered(settings, subframe);
        }
        1
    });
    assert_eq!(calls, ANSWERED_CALLS * times());
    comparison.finish_with(calls / SAMPLE, &[0, 1, 2, 3, 4, 5, 6, 7, 17, 19, 24], &[]);
}

#[test]
fn resources() {
    let model = Model::new();
    let mut comparison = Comparison::with(&model);
    let mut of_ports = [0; 2];
    let calls = fuzz(1, RESOURCE_CALLS, |random, ask_model| {
        let settings = random.wild_settings(24);
        let n = random.wild_n(&model, settings.config);
        let position = near(size(&model, settings, n), random);
        let cce = near(cces(settings), random);
        let given = resource(settings, n, position, cce);
        let plain = plain_resource(settings, n, position, cce);
        assert!(
            given == plain,
            "feedback_resource({settings:?}, n {n}, position {position}, cce {cce}): the engine \
             gives {given:?}, the plain implementation {plain:?}"
        );
        if given.refusal == 0 {
            of_ports[usize::from(settings.ports - 1)] += 1;
        }
        if ask_model {
            comparison.resource(settings, n, position, cce);
        }
        1
    });
    assert_eq!(calls, RESOURCE_CALLS * times());
    comparison.finish_with(calls / SAMPLE, &[0, 1, 2, 3, 4, 5, 6, 7, 11, 17, 19, 24], &[]);
    println!("{of_ports:?} answered, by ports");
    assert!(of_ports.iter().all(|number| *number > 50_000));
}

#[test]
fn inverses() {
    let model = Model::new();
    let mut comparison = Comparison::with(&model);
    let calls = fuzz(2, INVERSE_CALLS, |random, ask_model| {
        let settings = random.wild_settings(24);
        let n = random.wild_n(&model, settings.config);
        let place = near(size(&model, settings, n) * cces(settings), random);
        let resource = settings.n1.wrapping_add(place);
        let given = inverse(settings, n, resource);
        let plain = plain_inverse(settings, n, resource);
        assert!(
            given == plain,
            "feedback_inverse({settings:?}, n {n}, resource {resource}): the engine gives \
             {given:?}, the plain implementation {plain:?}"
        );
        if ask_model {
            comparison.inverse(settings, n, resource);
        }
        1
    });
    assert_eq!(calls, INVERSE_CALLS * times());
    comparison.finish_with(calls / SAMPLE, &[0, 1, 2, 3, 4, 5, 6, 7, 13, 17, 19, 24], &[]);
}

/// Half of the readings are told a position, mostly one of the window, and a quarter
/// come on the scheduled resource or beside it.
#[test]
fn readings() {
    let model = Model::new();
    let mut comparison = Comparison::with(&model);
    let mut as_block = [0; 3];
    let calls = fuzz(3, READING_CALLS, |random, ask_model| {
        let settings = random.wild_settings(24);
        let n = random.wild_n(&model, settings.config);
        let size = size(&model, settings, n);
        let told = if random.once_in(2) { NOT_TOLD } else { near(size, random) };
        let place = near(size * cces(settings), random);
        let resource = match random.below(8) {
            0 => settings.scheduled,
            1 => settings.scheduled.wrapping_add(random.below16(3)).wrapping_sub(1),
            _ => settings.n1.wrapping_add(place),
        };
        let [b0, b1] =
            [0; 2].map(|_| if random.once_in(16) { random.any() } else { random.below16(2) });
        let given = reading(settings, n, told, resource, b0, b1);
        let plain = plain_reading(settings, n, told, resource, b0, b1);
        assert!(
            given == plain,
            "feedback_reading({settings:?}, n {n}, told {told}, resource {resource}, b0 {b0}, \
             b1 {b1}): the engine gives {given:?}, the plain implementation {plain:?}"
        );
        as_block[usize::from(given.kind)] += u64::from(given.scheduled);
        if ask_model {
            comparison.reading(settings, n, told, resource, b0, b1);
        }
        1
    });
    assert_eq!(calls, READING_CALLS * times());
    let refusals = [0, 1, 2, 3, 4, 5, 6, 7, 11, 13, 14, 17, 18, 19, 20, 24];
    comparison.finish_with(calls / SAMPLE, &refusals, &[0, 1, 2]);
    println!("read as the scheduled block, by kind: {as_block:?}");
    assert!(as_block[0] == 0 && as_block[1] > 1000 && as_block[2] > 1000);
}

#[test]
fn makings() {
    let model = Model::new();
    let mut comparison = Comparison::with(&model);
    let calls = fuzz(4, MAKE_CALLS, |random, ask_model| {
        let settings = random.wild_settings(8);
        let (given, plain) = (make(settings), plain_make(settings));
        assert!(
            given == plain,
            "feedback_make({settings:?}): the engine gives {given:?}, the plain implementation \
             {plain:?}"
        );
        if ask_model {
            comparison.make(settings);
        }
        1
    });
    assert_eq!(calls, MAKE_CALLS * times());
    comparison.finish_with(calls / SAMPLE, &[0, 1, 2, 3, 4, 5, 6, 17, 19, 24], &[]);
}

/// The handset of the last call, or sometimes another: fresh, damaged or of any numbers.
fn lent(handset: Handset, random: &mut Random) -> Handset {
    match random.below(64) {
        0 => random.noise(),
        1..=5 => random.damage(handset),
        6 => Handset::fresh(random.settings()),
        7 => Handset::fresh(random.scheduled_settings()),
        _ => handset,
    }
}

/// The handset that goes on after a call; a bad one does not.
fn kept(before: Handset, refusal: u16, after: Handset, random: &mut Random) -> Handset {
    match refusal {
        8 if random.once_in(2) => Handset::fresh(random.settings()),
        8 => before,
        _ => after,
    }
}

/// What the next subframe of a handset hears. In the uplink a grant, a scheduled block or a
/// release is rare.
fn heard_by(handset: Handset, random: &mut Random) -> Heard {
    let Handset { settings, next, .. } = handset;
    let uplink = settings.config < 7 && next < 10 && is_uplink(settings.config, next);
    let is_heard = if uplink { random.once_in(8) } else { !random.once_in(3) };
    match is_heard {
        true => random.wild_heard(settings, 12),
        false => Heard::Nothing,
    }
}

/// The engine's answer to a feed, which the plain implementation gives too.
fn compared_feed(handset: Handset, heard: Heard) -> Fed {
    let (given, plain) = (feed(handset, heard), plain_feed(handset, heard));
    assert!(
        given == plain,
        "a feed of {heard:?} to {handset:?}: the engine gives {given:?}, the plain \
         implementation {plain:?}"
    );
    given
}

/// Likewise to a mode change.
fn compared_change(handset: Handset, mode: u16) -> Changed {
    let (given, plain) = (change_mode(handset, mode), plain_change_mode(handset, mode));
    assert!(
        given == plain,
        "feedback_change_mode({handset:?}, mode {mode}): the engine gives {given:?}, the plain \
         implementation {plain:?}"
    );
    given
}

/// A handset that goes from feed to feed.
#[test]
fn feeds() {
    let model = Model::new();
    let mut comparison = Comparison::with(&model);
    let mut handset = Handset::NONE;
    let (mut on_scheduled, mut short_releases, mut on_two) = (0, 0, 0);
    let calls = fuzz(5, FEED_CALLS, |random, ask_model| {
        let lent = lent(handset, random);
        let Handset { settings, next, .. } = lent;
        let heard = heard_by(lent, random);
        let given = compared_feed(lent, heard);
        let is_reply = [Fed::BUNDLED, Fed::MULTIPLEXED].contains(&given.kind);
        on_scheduled += u64::from(is_reply && given.resource == settings.scheduled);
        on_two += u64::from(is_reply && settings.ports == 2);
        if given.refusal == 0 && matches!(heard, Heard::Release(_)) {
            short_releases += u64::from(is_short(settings, next));
        }
        if ask_model {
            comparison.feed(lent, heard);
        }
        handset = kept(handset, given.refusal, given.handset, random);
        1
    });
    assert_eq!(calls, FEED_CALLS * times());
    let refusals = [0, 8, 9, 10, 11, 12, 18, 20];
    comparison.finish_with(calls / SAMPLE, &refusals, &[0, 1, 2, 3, 4, 5]);
    println!("{on_scheduled} replies on the scheduled resource");
    println!("{short_releases} releases in special subframes too short for data");
    println!("{on_two} replies with two ports");
    assert!(on_scheduled > 10_000 && short_releases > 10_000 && on_two > 10_000);
}

/// A handset that goes from feed to feed with mode changes in between, to any number too.
/// Counted are the windows of more than one subframe that get a reply in another mode than
/// the one that stands.
#[test]
fn feeds_and_mode_changes() {
    let model = Model::new();
    let mut comparison = Comparison::with(&model);
    let mut handset = Handset::NONE;
    let mut changed = 0;
    let mut in_another_mode = [0; 2];
    let calls = fuzz(13, STEP_CALLS, |random, ask_model| {
        let lent = lent(handset, random);
        let (refusal, after) = if random.once_in(6) {
            let mode = random.wild_mode(4);
            let given = compared_change(lent, mode);
            changed += u64::from(given.refusal == 0 && mode != lent.settings.mode);
            if ask_model {
                comparison.change_mode(lent, mode);
            }
            (given.refusal, given.handset)
        } else {
            let heard = heard_by(lent, random);
            let given = compared_feed(lent, heard);
            let Handset { settings, next, .. } = lent;
            if size(&model, settings, next) > 1 {
                in_another_mode[0] += u64::from(given.kind == Fed::BUNDLED && settings.mode == 1);
                in_another_mode[1] +=
                    u64::from(given.kind == Fed::MULTIPLEXED && settings.mode == 0);
            }
            if ask_model {
                comparison.feed(lent, heard);
            }
            (given.refusal, given.handset)
        };
        handset = kept(handset, refusal, after, random);
        1
    });
    assert_eq!(calls, STEP_CALLS * times());
    let refusals = [0, 4, 5, 8, 9, 10, 11, 12, 18, 20, 24];
    comparison.finish_with(calls / SAMPLE, &refusals, &[0, 1, 2, 3, 4, 5]);
    println!("{changed} changes, {in_another_mode:?} replies, by mode, while the other stands");
    assert!(changed > 100_000 && in_another_mode.iter().all(|number| *number > 5_000));
}

/// A handset that goes from feed to feed, damaged ones too, with mode changes in between: of
/// each state that is met the cause of a silence is asked for, whatever it is fed then. A refusal
/// has none and leaves every byte.
#[test]
fn silences() {
    let model = Model::new();
    let mut comparison = Comparison::with(&model);
    let mut handset = Handset::NONE;
    let (mut causes, mut refused, mut in_another_mode) = ([0; 3], 0, 0);
    let calls = fuzz(18, SILENCE_CALLS, |random, ask_model| {
        let lent = lent(handset, random);
        let (given, plain) = (silence(lent), plain_silence(lent));
        assert!(
            given == plain,
            "feedback_silence({lent:?}): the engine gives {given:?}, the plain implementation \
             {plain:?}"
        );
        hold_beside_the_feed(lent, given);
        if given.fed.refusal != 0 {
            assert_eq!(given, SilenceAnswer::not_silent(Fed::refused(8, lent)));
            assert_eq!(given.fed.handset.bytes(), lent.bytes());
            refused += 1;
        }
        causes[usize::from(given.cause)] += 1;
        let Handset { settings, next, .. } = lent;
        let is_miss = given.cause == SilenceAnswer::MISS_SHOWN;
        let multiplexes = settings.mode == 1 && size(&model, settings, next) > 1;
        in_another_mode += u64::from(is_miss && multiplexes);
        if ask_model {
            comparison.silence(lent);
        }
        let (refusal, after) = match random.once_in(8) {
            true => {
                let changed = change_mode(lent, random.below16(2));
                (changed.refusal, changed.handset)
            }
            false => {
                let fed = feed(lent, heard_by(lent, random));
                (fed.refusal, fed.handset)
            }
        };
        handset = kept(handset, refusal, after, random);
        1
    });
    assert_eq!(calls, SILENCE_CALLS * times());
    comparison.finish_with(calls / SAMPLE, &[0, 8], &[0, 1, 2, 3, 4, 5]);
    println!(
        "{causes:?} by cause, {refused} refused, {in_another_mode} misses while mode 1 stands"
    );
    assert!(causes.iter().all(|number| *number > 50_000));
    assert!(refused > 50_000 && in_another_mode > 5_000);
}

/// Mode changes on states of any kind, one in four with two ports.
#[test]
fn mode_changes() {
    let model = Model::new();
    let mut comparison = Comparison::with(&model);
    let calls = fuzz(14, CHANGE_CALLS, |random, ask_model| {
        let fresh = Handset::fresh(match random.once_in(4) {
            true => random.two_port_settings(),
            false => random.mixed_settings(),
        });
        let handset = match random.below(8) {
            0 => random.noise(),
            1..4 => random.damage(fresh),
            _ => Handset { next: random.below16(11), modes: random.any(), ..fresh },
        };
        let mode = random.wild_mode(4);
        compared_change(handset, mode);
        if ask_model {
            comparison.change_mode(handset, mode);
        }
        1
    });
    assert_eq!(calls, CHANGE_CALLS * times());
    comparison.finish_with(calls / SAMPLE, &[0, 4, 5, 8, 24], &[]);
}

/// Claims: mostly allowed ones, and any others.
fn list(size: u16, cces: u16, random: &mut Random) -> Vec<u16> {
    let longest = random.one_of(&[1, 2, 4, 8, 8, 16, 16, 32, 64, 1500]);
    let wild = random.one_of(&[2, 20, 500, 5000]);
    let claim = |_| match random.once_in(wild) {
        true => random.any(),
        false => random.below16(size) * 256 + random.below16(cces),
    };
    let mut claims: Vec<u16> = (0..longest).map(claim).collect();
    claims.truncate(random.below(longest + 1));
    claims
}

#[test]
fn lists_of_claims() {
    claims_in(Form::Bytes, 6, CLAIMS_CALLS);
}

#[test]
fn lists_of_claims_by_bits() {
    claims_in(Form::Bits, 12, BIT_CLAIMS_CALLS);
}

fn claims_in(form: Form, seed: u64, number: u64) {
    let model = Model::new();
    let mut comparison = Comparison::with(&model);
    let mut lent = Lent::new(1500);
    let mut random = Random::new(0);
    let dirt: Vec<u8> = (0..8192).map(|_| random.any_byte()).collect();
    let mut of_two_ports = [0; 3];
    let calls = fuzz(seed, number, |random, ask_model| {
        let settings = random.wild_settings(48);
        let n = random.wild_n(&model, settings.config);
        let (size, cces) = (size(&model, settings, n), cces(settings));
        let list = list(size, cces, random);
        let need = form.need(usize::from(size * cces) + usize::from(settings.ports == 2));
        let room = match random.below(8) {
            0 => random.below(need + 64),
            1 => need - 1,
            2..=4 => need,
            _ => need + random.below(64),
        };
        let mut scratch = vec![random.one_of(&[0, 1, 2, 255]); room];
        if random.once_in(2) {
            scratch.copy_from_slice(&dirt[random.below(dirt.len() - room)..][..room]);
        }
        let mut plain_left = scratch.clone();
        let plain = form.plain(settings, n, &list, &mut plain_left);
        for flush in BOTH {
            let (given, list_left, left) = lent.call(form, settings, n, &list, &scratch, flush);
            assert!(
                given == plain && left == plain_left && list_left == list,
                "{form}({settings:?}, n {n}, {}, room {room}), flush at the {flush:?}: \
                 the scratch was {}; the engine gives {given:?} and leaves {} and the list {}, \
                 the plain implementation {plain:?} and {}",
                Shown(&list),
                Shown(&scratch),
                Shown(left),
                Shown(list_left),
                Shown(&plain_left)
            );
        }
        of_two_ports[usize::from(plain.kind)] += u64::from(settings.ports == 2);
        if ask_model {
            comparison.claims(form, &mut lent, settings, n, &list, &scratch);
        }
        2
    });
    assert_eq!(calls, number * times());
    println!("{of_two_ports:?} lists of two ports, by kind");
    assert!(of_two_ports.iter().all(|number| *number > 5_000));
    let refusals = [0, 1, 2, 3, 4, 5, 6, 7, 15, 16, 17, 19, 24];
    comparison.finish_with(calls / 2 / SAMPLE * 2, &refusals, &[0, 1, 2]);
}

/// Settings that fit in a trace: each number once in `times` any that its bytes hold. There
/// is always one port.
fn settings_in_a_trace(random: &mut Random, times: usize) -> Settings {
    let Settings { config, nrb, n1, mode, blocks, scheduled, prefix, special, .. } =
        random.wild_settings(times);
    let byte = |number: u16| number & 255;
    let settings = Settings::plain(byte(config), byte(nrb), n1, byte(mode), byte(blocks));
    settings.with_scheduled(scheduled).with_special(byte(prefix), byte(special))
}

/// Records of which a number is once in `times` any, and so is a kind, which may then be
/// over 3. In the uplink a grant, a scheduled block or a release is rare. What a kind
/// does not use has any value.
fn records(settings: Settings, number: usize, times: usize, random: &mut Random) -> Vec<Slot> {
    let record = |at: usize| {
        let subframe = (at % 10) as u16;
        let uplink = settings.config < 7 && is_uplink(settings.config, subframe);
        let is_heard = if uplink { random.once_in(4 * times) } else { !random.once_in(3) };
        let short = settings.config < 7 && is_short(settings, subframe);
        let heard = match is_heard {
            true if short && !random.once_in(times) => {
                Heard::Release(random.release(Settings { nrb: 6, blocks: 1, ..settings }))
            }
            true => random.wild_heard(settings, times),
            false => Heard::Nothing,
        };
        // Few blocks: the second one of a window is refused.
        let heard = match heard {
            Heard::Block(_) if !random.once_in(8) => Heard::Nothing,
            heard => heard,
        };
        let record = random.with_unused(record_of(heard));
        let any_kind = random.once_in(64 * times);
        if any_kind {
            Slot { kind: random.any_byte(), ..record }
        } else {
            record
        }
    };
    (0..number).map(record).collect()
}

/// A trace, mostly a good one, but for its records. Of others a number of the header or
/// any byte is changed, or the file is cut or lengthened.
fn trace(random: &mut Random) -> Vec<u8> {
    let settings = settings_in_a_trace(random, 200);
    let longest = random.one_of(&[3, 12, 25, 60, 200]);
    let number = random.below(longest + 1);
    let times = random.one_of(&[10, 100, 1000]);
    let records = records(settings, number, times, random);
    let mut trace = random.arranged(Trace::new(settings, &records)).bytes();
    let length = trace.len();
    for _ in 0..random.one_of(&[0, 0, 0, 0, 1, 2]) {
        let number = number_at(&trace, 2 * random.below(4)) as u16;
        let near = number.wrapping_add(random.below16(24)).wrapping_sub(12);
        let number = if random.once_in(3) { random.any() } else { near };
        let header_at = 2 * random.below(4);
        match random.below(4) {
            0 | 1 => trace[header_at..header_at + 2].copy_from_slice(&number.to_le_bytes()),
            2 => trace[random.below(length)] = random.any_byte(),
            _ => {
                let cut = random.below(length + 1);
                trace.truncate(if random.once_in(2) { cut } else { length });
                trace.extend(random.bytes(cut % 7));
                break;
            }
        }
    }
    trace
}

/// The bytes that the windows of a trace take, as far as its header and its
/// configuration can be read.
fn need(model: &Model, trace: &[u8]) -> usize {
    if trace.len() < 8 {
        return 0;
    }
    let config = trace.get(number_at(trace, SETTINGS_AT)).copied().unwrap_or(0);
    let records = number_at(trace, RECORDS_AT).min(1000);
    WINDOW * model.windows_among(u16::from(config).min(6), records)
}

/// Windows that a replay wrote, by their kind.
fn count_windows(output: &[u8], counts: &mut [u64; 3]) {
    output.chunks(WINDOW).for_each(|window| counts[usize::from(window[1])] += 1);
}

/// The room of an output that needs so much: mostly enough.
fn room_near(need: usize, random: &mut Random) -> usize {
    match random.below(16) {
        0 => random.below(need + 64),
        1 => need.saturating_sub(1),
        2..=8 => need,
        _ => need + random.below(64),
    }
}

#[test]
fn replays() {
    let model = Model::new();
    let mut comparison = Comparison::with(&model);
    let mut lent = LentTrace::new();
    let mut windows = [0; 3];
    let calls = fuzz(9, REPLAY_CALLS, |random, ask_model| {
        let trace = trace(random);
        let room = room_near(need(&model, &trace), random);
        let output = random.bytes(room);
        let mut plain_left = output.clone();
        let plain = plain_replay_on(&trace, &mut plain_left);
        for flush in BOTH {
            let (given, left) = lent.replay(&trace, &output, flush);
            assert!(
                given == plain && left == plain_left,
                "feedback_replay({}, room {room}), flush at the {flush:?}: the output was {}; \
                 the engine gives {given:?} and leaves {}, the plain implementation {plain:?} \
                 and {}",
                Shown(&trace),
                Shown(&output),
                Shown(left),
                Shown(&plain_left)
            );
        }
        count_windows(&plain_left[..WINDOW * usize::from(plain.windows)], &mut windows);
        if ask_model {
            comparison.replay(&mut lent, &trace, &output);
        }
        2
    });
    assert_eq!(calls, REPLAY_CALLS * times());
    println!("windows by kind: {windows:?}");
    let refusals = [0, 1, 2, 3, 4, 5, 6, 9, 10, 11, 12, 17, 18, 19, 20, 21, 22, 23];
    comparison.finish_with(calls / 2 / SAMPLE * 2, &refusals, &[0, 1, 2]);
    assert!(windows.iter().all(|number| *number > 100_000));
}

#[test]
fn sizes_of_replays() {
    let model = Model::new();
    let mut comparison = Comparison::with(&model);
    let mut lent = LentTrace::new();
    let (mut sized, mut windows) = (0, 0);
    let calls = fuzz(21, SIZE_CALLS, |random, ask_model| {
        let trace = trace(random);
        let plain = plain_replay_size_of(&trace);
        for flush in BOTH {
            let given = lent.replay_size(&trace, flush);
            assert!(
                given == plain,
                "feedback_replay_size({}), flush at the {flush:?}: the engine gives {given:?}, the \
                 plain implementation {plain:?}",
                Shown(&trace)
            );
        }
        sized += u64::from(plain.refusal == 0);
        windows += u64::from(plain.windows);
        if ask_model {
            comparison.replay_size(&mut lent, &trace);
        }
        2
    });
    assert_eq!(calls, SIZE_CALLS * times());
    println!("{sized} traces sized, {windows} windows");
    let refusals = [0, 1, 2, 3, 4, 5, 6, 17, 19, 21, 22];
    comparison.finish_with(calls / 2 / SAMPLE * 2, &refusals, &[]);
    assert!(sized > 50_000 && windows > 250_000);
}

#[test]
fn records_of_traces() {
    let model = Model::new();
    let mut comparison = Comparison::with(&model);
    let mut lent = LentTrace::new();
    let calls = fuzz(10, RECORD_CALLS, |random, ask_model| {
        let trace = trace(random);
        let records = if trace.len() < 8 { 0 } else { number_at(&trace, RECORDS_AT) };
        let next = match random.below(8) {
            0 => random.number() as usize,
            1 => random.any().into(),
            2 => records + random.below(3),
            _ => random.below(records + 1),
        };
        let plain = plain_record_of(&trace, next);
        for flush in BOTH {
            let given = lent.record(&trace, next, flush);
            assert!(
                given == plain,
                "feedback_record({}, next {next}), flush at the {flush:?}: the engine gives \
                 {given:?}, the plain implementation {plain:?}",
                Shown(&trace)
            );
        }
        if ask_model {
            comparison.record(&mut lent, &trace, next);
        }
        2
    });
    assert_eq!(calls, RECORD_CALLS * times());
    comparison.finish_with(calls / 2 / SAMPLE * 2, &[0, 21, 22], &[0, 1, 2]);
}

#[test]
fn writings_of_traces() {
    let model = Model::new();
    let mut comparison = Comparison::with(&model);
    let mut lent = LentTrace::new();
    let (mut done, mut bytes) = (0, 0);
    let calls = fuzz(11, WRITE_CALLS, |random, ask_model| {
        let trace = trace(random);
        let records = if trace.len() < 8 { 0 } else { number_at(&trace, RECORDS_AT).min(1000) };
        let room = room_near(spelled_length(records), random);
        let output = random.bytes(room);
        let mut plain_left = output.clone();
        let plain = plain_trace_write_on(&trace, &mut plain_left);
        for flush in BOTH {
            let (given, left) = lent.trace_write(&trace, &output, flush);
            assert!(
                given == plain && left == plain_left,
                "feedback_trace_write({}, room {room}), flush at the {flush:?}: the output was \
                 {}; the engine gives {given:?} and leaves {}, the plain implementation \
                 {plain:?} and {}",
                Shown(&trace),
                Shown(&output),
                Shown(left),
                Shown(&plain_left)
            );
        }
        done += u64::from(plain.kind == WriteAnswer::DONE);
        bytes += u64::from(plain.bytes);
        if ask_model {
            comparison.trace_write(&mut lent, &trace, &output);
        }
        2
    });
    assert_eq!(calls, WRITE_CALLS * times());
    println!("{done} traces written, {bytes} bytes");
    let refusals = [0, 1, 2, 3, 4, 5, 6, 9, 10, 11, 12, 17, 18, 19, 20, 21, 22, 23];
    comparison.finish_with(calls / 2 / SAMPLE * 2, &refusals, &[0, 1, 2]);
    assert!(done > 50_000 && bytes > 1_000_000);
}

/// What was sent in windows of all kinds and replies of all kinds, mostly allowed ones.
#[test]
fn confirmed_blocks() {
    let model = Model::new();
    let mut comparison = Comparison::with(&model);
    let mut by_blocks = [0; 3];
    let calls = fuzz(15, CONFIRMED_CALLS, |random, ask_model| {
        let times = random.one_of(&[8, 100, 1000]);
        let exchange = random.exchange(&model, times);
        let (given, plain) = (confirmed(exchange), plain_confirmed_of(exchange));
        assert!(
            given == plain,
            "feedback_confirmed({exchange:?}): the engine gives {given:?}, the plain \
             implementation {plain:?}"
        );
        let blocks = given.first.count_ones() + given.second.count_ones();
        by_blocks[blocks.min(2) as usize] += 1;
        if ask_model {
            comparison.confirmed(exchange);
        }
        1
    });
    assert_eq!(calls, CONFIRMED_CALLS * times());
    let refusals = [0, 1, 2, 3, 4, 5, 6, 7, 10, 11, 12, 13, 14, 17, 18, 19, 20, 24];
    comparison.finish_with(calls / SAMPLE, &refusals, &[]);
    println!("none, one or more blocks confirmed: {by_blocks:?}");
    assert!(by_blocks.iter().all(|number| *number > 100_000));
}

/// The same with accounts: one that goes on from credit to credit, or another, on the equation
/// or off it.
#[test]
fn credits() {
    let model = Model::new();
    let mut comparison = Comparison::with(&model);
    let (mut credited, mut several, mut at_the_end) = (0, 0, 0);
    let mut account = Account::new(999_999);
    let calls = fuzz(16, CREDIT_CALLS, |random, ask_model| {
        let times = random.one_of(&[8, 100, 1000]);
        let exchange = random.exchange(&model, times);
        let lent = if random.once_in(4) { account } else { random.account(16) };
        let (given, plain) = (credit(exchange, lent), plain_credit_of(exchange, lent));
        assert!(
            given == plain,
            "feedback_credit({exchange:?}, {lent:?}): the engine gives {given:?}, the plain \
             implementation {plain:?}"
        );
        credited += u64::from(given.octets > 0);
        several += u64::from(given.octets > 9422);
        at_the_end += u64::from(given.refusal == 26);
        if ask_model {
            comparison.credit(exchange, lent);
        }
        account = match given.refusal {
            0 => given.account,
            26 => random.account(1_000_000),
            _ => account,
        };
        1
    });
    assert_eq!(calls, CREDIT_CALLS * times());
    let refusals = [0, 1, 2, 3, 4, 5, 6, 7, 10, 11, 12, 13, 14, 17, 18, 19, 20, 24, 25, 26];
    comparison.finish_with(calls / SAMPLE, &refusals, &[]);
    println!("{credited} credits, {several} of more than one block, {at_the_end} at the end");
    assert!(credited > 200_000 && several > 10_000 && at_the_end > 10_000);
}

#[test]
fn new_accounts() {
    let model = Model::new();
    let mut comparison = Comparison::with(&model);
    let calls = fuzz(17, OPEN_CALLS, |random, ask_model| {
        let price = match random.below(4) {
            0 => random.number() as u32,
            1 => (random.number() >> 32) as u32 >> random.below(20),
            _ => 999_990 + random.below(20) as u32,
        };
        let (given, plain) = (open_account(price), plain_open_account(price));
        assert!(
            given == plain,
            "feedback_open_account({price}): the engine gives {given:?}, the plain \
             implementation {plain:?}"
        );
        if ask_model {
            comparison.open_account(price);
        }
        1
    });
    assert_eq!(calls, OPEN_CALLS * times());
    comparison.finish_with(calls / SAMPLE, &[0, 25], &[]);
}

/// Any three numbers, mostly small.
#[test]
fn games() {
    let model = Model::new();
    let mut comparison = Comparison::with(&model);
    let mut of_the_radio = 0;
    let calls = fuzz(19, GAME_CALLS, |random, ask_model| {
        let [size, grants, losses] = [0; 3].map(|_| match random.below(6) {
            0 => random.any(),
            _ => random.below16(11),
        });
        let (given, plain) = (game(size, grants, losses), plain_game(size, grants, losses));
        assert!(
            given == plain,
            "feedback_game({size}, {grants}, {losses}): the engine gives {given:?}, the plain \
             implementation {plain:?}"
        );
        of_the_radio += u64::from(given.radio);
        if ask_model {
            comparison.game(size, grants, losses);
        }
        1
    });
    assert_eq!(calls, GAME_CALLS * times());
    comparison.finish_with(calls / SAMPLE, &[0, 27], &[]);
    println!("{of_the_radio} games of the radio");
    assert!(of_the_radio > 5_000);
}

/// What is written to a register block for a handset of any kind: mostly a feed, as above, of a
/// kind that there is.
fn written(handset: Handset, random: &mut Random) -> Written {
    let command = match random.below(16) {
        0 => random.any_byte(),
        1 => NO_COMMAND,
        2..5 => CLEAR,
        _ => FEED,
    };
    let heard = heard_by(handset, random);
    let mut record = random.with_unused(record_of(heard));
    if command != FEED || random.once_in(32) {
        record.kind = random.any_byte();
    }
    Written { record, command, mask: random.any_byte() }
}

/// A block and a handset that go on from command to command, or others, damaged ones too; once in
/// 64 a block of another length.
#[test]
fn commands() {
    let model = Model::new();
    let mut comparison = Comparison::with(&model);
    let mut memory = Guarded::new(SIZE);
    let (mut handset, mut block) = (Handset::NONE, ZEROS);
    let (mut by_line, mut replies, mut overwritten) = ([0; 2], 0, 0);
    let calls = fuzz(20, COMMAND_CALLS, |random, ask_model| {
        let lent_handset = lent(handset, random);
        if random.once_in(64) {
            block = random.register_block();
        }
        written(lent_handset, random).write(&mut block);
        let length = if random.once_in(64) { random.below(40) } else { SIZE };
        let bytes = match length {
            SIZE => block.to_vec(),
            _ => random.bytes(length),
        };
        let mut plain_left = bytes.clone();
        let plain = plain_command_on(lent_handset, &mut plain_left);
        let flush = random.one_of(&BOTH);
        let left = memory.bytes(&bytes, flush);
        let given = command(lent_handset, left);
        assert!(
            given == plain && left == plain_left,
            "feedback_command({lent_handset:?}, {bytes:?}), flush at the {flush:?}: the engine \
             gives {given:?} and leaves {left:?}, the plain implementation {plain:?} and \
             {plain_left:?}"
        );
        if length == SIZE {
            assert_eq!(given.line == 1, is_high(left), "{left:?}");
            assert_eq!(left[MASK], block[MASK], "{left:?}");
            let came = !block[FLAGS] & left[FLAGS];
            replies += u64::from(came & READY != 0);
            overwritten += u64::from(came & OVERWRITTEN != 0);
            block.copy_from_slice(left);
        }
        by_line[usize::from(given.line)] += 1;
        if ask_model {
            comparison.command(&mut memory, lent_handset, &bytes);
        }
        handset = kept(lent_handset, given.refusal, given.handset, random);
        1
    });
    assert_eq!(calls, COMMAND_CALLS * times());
    // The model is asked twice, with the block flush at either end.
    let refusals = [0, 8, 9, 10, 11, 12, 18, 20, 22, 28, 29];
    comparison.finish_with(2 * (calls / SAMPLE), &refusals, &[]);
    println!("line low and high {by_line:?}, {replies} replies ready, {overwritten} overwritten");
    assert!(by_line.iter().all(|number| *number > 100_000));
    assert!(replies > 50_000 && overwritten > 20_000);
}
