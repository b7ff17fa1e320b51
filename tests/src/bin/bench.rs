//! Measures the engine's C calls beside the plain implementation, on the same
//! inputs and in one run: `cargo run --release --offline --locked --bin bench`.
//! What it prints is a page of Markdown. Words behind `--` choose rows: `-- feed claims`
//! measures those whose names have one of the two, and draws no other inputs.
//!
//! Batches of the two alternate, so that both meet the same disturbances; the
//! median batch counts, and the least stands beside it. Nothing here is a test: the
//! figures depend on the machine, and no figure fails.

use feedback_tests::c::{
    feedback_answered, feedback_change_mode, feedback_command, feedback_confirmed, feedback_credit,
    feedback_feed_grant, feedback_feed_nothing, feedback_feed_release, feedback_feed_scheduled,
    feedback_game, feedback_inverse, feedback_make, feedback_open_account, feedback_reading,
    feedback_record, feedback_replay, feedback_replay_size, feedback_resource, feedback_silence,
    feedback_trace_write, feedback_window,
};
use feedback_tests::compare::{plain_credit_of, plain_feed};
use feedback_tests::every;
use feedback_tests::form::{Form, OnClaims};
use feedback_tests::model::{bundles, edge, is_short, is_uplink, Game, Model, Window};
use feedback_tests::plain::{
    plain_answered, plain_change_mode, plain_command, plain_confirmed, plain_credit,
    plain_feed_grant, plain_feed_nothing, plain_feed_release, plain_feed_scheduled, plain_game,
    plain_inverse, plain_make, plain_open_account, plain_reading, plain_record, plain_replay,
    plain_replay_size, plain_resource, plain_silence, plain_trace_write, plain_window,
};
use feedback_tests::random::Random;
use feedback_tests::registers::{Written, ALL, FLAGS, NO_COMMAND, REPLY, SIZE};
use feedback_tests::trace::{record_of, Trace, LONGEST, WINDOW};
use feedback_tests::{
    Account, AnsweredAnswer, Block, Changed, CommandAnswer, ConfirmedAnswer, CreditAnswer,
    Exchange, Fed, GameAnswer, Grant, Handset, Heard, InverseAnswer, Made, Opened, ReadingAnswer,
    RecordAnswer, Release, ReplayAnswer, ReplaySizeAnswer, ResourceAnswer, SentWindow, Settings,
    SilenceAnswer, Slot, WindowAnswer, WriteAnswer, NOT_TOLD,
};
use std::env;
use std::hint::black_box;
use std::iter;
use std::time::{Duration, Instant};

/// The inputs of one batch, or a few more: too many for a processor to learn their branches by
/// heart, as it does with some thousands. What is printed tells the number.
const INPUTS: usize = 65_536;

/// The fewest batches of each side.
const BATCHES: usize = 102;

/// How long a row is measured at least: one of short calls has more batches, so that a short
/// disturbance is not all that it meets.
const TIME: Duration = Duration::from_secs(1);

/// The engine's call and plain Rust's, or what else differs between the two. That their
/// signatures are the same the compiler checks where both stand under one type; and both are
/// called by the same code, since a row has one way to make its call.
type Sides<C> = [C; 2];

type OnWindow = unsafe extern "C" fn(Settings, u16) -> WindowAnswer;
const WINDOWS: Sides<OnWindow> = [feedback_window, plain_window];

type OnAnswered = unsafe extern "C" fn(Settings, u16) -> AnsweredAnswer;
const ANSWERED: Sides<OnAnswered> = [feedback_answered, plain_answered];

type OnResource = unsafe extern "C" fn(Settings, u16, u16, u16) -> ResourceAnswer;
const RESOURCE: Sides<OnResource> = [feedback_resource, plain_resource];

type OnInverse = unsafe extern "C" fn(Settings, u16, u16) -> InverseAnswer;
const INVERSE: Sides<OnInverse> = [feedback_inverse, plain_inverse];

type OnReading = unsafe extern "C" fn(Settings, u16, u16, u16, u16, u16) -> ReadingAnswer;
const READING: Sides<OnReading> = [feedback_reading, plain_reading];

type OnConfirmed =
    unsafe extern "C" fn(Settings, u16, SentWindow, u16, u16, u16) -> ConfirmedAnswer;
const CONFIRMED: Sides<OnConfirmed> = [feedback_confirmed, plain_confirmed];

type OnCredit =
    unsafe extern "C" fn(Settings, u16, SentWindow, u16, u16, u16, Account) -> CreditAnswer;
const CREDIT: Sides<OnCredit> = [feedback_credit, plain_credit];

type OnPrice = unsafe extern "C" fn(u32) -> Opened;
const OPEN_ACCOUNT: Sides<OnPrice> = [feedback_open_account, plain_open_account];

type OnSilence = unsafe extern "C" fn(Handset) -> SilenceAnswer;
const SILENCE: Sides<OnSilence> = [feedback_silence, plain_silence];

type OnReplay = unsafe extern "C" fn(*const u8, usize, *mut u8, usize) -> ReplayAnswer;
const REPLAY: Sides<OnReplay> = [feedback_replay, plain_replay];

type OnReplaySize = unsafe extern "C" fn(*const u8, usize) -> ReplaySizeAnswer;
const REPLAY_SIZE: Sides<OnReplaySize> = [feedback_replay_size, plain_replay_size];

type OnRecord = unsafe extern "C" fn(*const u8, usize, usize) -> RecordAnswer;
const RECORD: Sides<OnRecord> = [feedback_record, plain_record];

type OnTraceWrite = unsafe extern "C" fn(*const u8, usize, *mut u8, usize) -> WriteAnswer;
const TRACE_WRITE: Sides<OnTraceWrite> = [feedback_trace_write, plain_trace_write];

type OnGame = unsafe extern "C" fn(u16, u16, u16) -> GameAnswer;
const GAME: Sides<OnGame> = [feedback_game, plain_game];

type OnCommand = unsafe extern "C" fn(Handset, *mut u8, usize) -> CommandAnswer;
const COMMAND: Sides<OnCommand> = [feedback_command, plain_command];

/// The calls that make a handset and lead it on.
#[derive(Clone, Copy)]
struct OnHandset {
    make: unsafe extern "C" fn(Settings) -> Made,
    nothing: unsafe extern "C" fn(Handset) -> Fed,
    grant: unsafe extern "C" fn(Handset, u16, u16, u16, u16, u16) -> Fed,
    scheduled: unsafe extern "C" fn(Handset, u16, u16, u16) -> Fed,
    release: unsafe extern "C" fn(Handset, u16, u16) -> Fed,
    change_mode: unsafe extern "C" fn(Handset, u16) -> Changed,
}

const HANDSET: Sides<OnHandset> = [
    OnHandset {
        make: feedback_make,
        nothing: feedback_feed_nothing,
        grant: feedback_feed_grant,
        scheduled: feedback_feed_scheduled,
        release: feedback_feed_release,
        change_mode: feedback_change_mode,
    },
    OnHandset {
        make: plain_make,
        nothing: plain_feed_nothing,
        grant: plain_feed_grant,
        scheduled: plain_feed_scheduled,
        release: plain_feed_release,
        change_mode: plain_change_mode,
    },
];

/// One allowed input of the calls on numbers: the subframe is the one at the
/// position, the resource is that of the pair, and the bits are a reply that is
/// read, told of a scheduled block or not.
struct Input {
    settings: Settings,
    n: u16,
    subframe: u16,
    position: u16,
    cce: u16,
    told: u16,
    resource: u16,
    bits: (u16, u16),
}

/// One feed of a run, on the handset that the feeds before it left.
#[derive(Clone, Copy)]
struct Feed {
    handset: Handset,
    heard: Heard,
}

/// Which feeds of the runs belong to a row.
type Fits<'a> = &'a dyn Fn(&Feed) -> bool;

/// A whole run: its settings, and what each subframe hears.
struct Run {
    settings: Settings,
    heard: Vec<Heard>,
}

/// How a run is drawn.
type DrawRun = fn(&Model, &mut Random) -> Run;

/// A list of claims for a window.
struct List {
    settings: Settings,
    n: u16,
    claims: Vec<u16>,
}

/// A window, its reply, and the account that it is credited to.
struct Credit {
    exchange: Exchange,
    account: Account,
}

/// The bytes of a trace, and how many records it has.
struct Drive {
    trace: Vec<u8>,
    records: usize,
}

/// A register block before a command, and the handset behind it.
struct Command {
    handset: Handset,
    block: [u8; SIZE],
}

fn main() {
    print_header();
    let bench = Bench { model: Model::new(), words: env::args().skip(1).collect() };
    numbers(&bench);
    feeds(&bench);
    claims(&bench);
    schedule(&bench);
    short_specials(&bench);
    replays(&bench);
    sizes(&bench);
    records(&bench);
    writings(&bench);
    mode_changes(&bench);
    two_ports(&bench);
    charging(&bench);
    silences(&bench);
    games(&bench);
    registers(&bench);
}

fn print_header() {
    println!(
        "# Performance

The C calls beside the same calls in plain Rust, in nanoseconds for one call, for
the claims for one claim, and for a replay and the writing of a trace for one record.
Printed by `cargo run --release --offline --locked --bin bench` in `tests`. Both sides
are `extern \"C\"` functions of one signature and are not inlined; the same code calls
both, through a pointer. Plain Rust is built at the optimization of a release, in one
codegen unit and, as the engine is, for x86-64-v2. Both get the same inputs in batches of
65,536, of which a processor does not learn the branches by heart. The batches alternate,
{BATCHES} of each side, and more where these take less than a second. Their median counts, and
the least of them stands beside it; the last two columns are ours over plain Rust's, by the
medians and by the least. The figures depend on the machine; the ratios do so less.

The numbers are allowed ones over all configurations, bandwidths, modes and blocks.
The feeds are those of runs of 20 frames, one run behind the other, of as many as have enough
feeds of a kind: a grant in seven of ten downlink subframes, one in twenty of them lost, nine of
ten blocks decoded. A feed checks the whole state that it is lent. With a schedule one subframe
of each window has a scheduled block, every other time, and one PDCCH in eight is a release.
Special subframes carry data, but for the cells called short: there they bring nothing or a
release. A mode change checks the whole state too; it is to the other mode, of the handsets
of such runs, and in a run of its own it comes before one subframe in eleven. Handsets with
two ports bundle. The cause of a silence is asked for in windows of such runs that are silent,
and in every subframe of a run, in the downlink too.

A list of claims clears its scratch: as many bytes as there are resources, or as many bits. With
two ports a claim has two resources, and the lists are of claims two apart. There are as many
lists of a length as have 65,536 claims, or a few more, together: of 10 claims 6,554 lists, of
600 there are 110, of 1,000 there are 66, and of 100,000, which repeat the claims of one window,
there is one.

Blocks are confirmed and credited in windows of all sizes, in which grants, releases and
scheduled blocks were sent, and the reply is for something that was; a credit of nothing is for
something that was not, or a NACK. The accounts have some octets and any price.

The traces are of configuration 2 with two blocks and a schedule, with grants, scheduled
blocks, releases and nothing in the downlink, and good to the end, and there are as many as have
65,536 records, or some more, together: 66, 17 and 5. In plain Rust a replay keeps no state: it
checks the settings once and looks back into the trace. A trace is written when all its records
have been checked as in a replay, and in plain Rust that check makes no reply. Records are read
one after another, each by a call, which looks at header and parts anew. The size of a replay is
worked out from header and settings, and takes as long for every number of records: that row has
traces of any settings, with up to 20 records.

A command of a register block is carried out on a copy of the block, with any flags and mask. A
feed is that of the handsets of runs, with their whole state checked; none and a clear look at no
handset, and what they take is passing one. The games are drawn from all that there are, 540.

| call | ours, ns | least | plain Rust, ns | least | ratio | of the least |
|---|---:|---:|---:|---:|---:|---:|"
    );
}

fn numbers(bench: &Bench) {
    let all = || draws(0, |random| input(&bench.model, random));
    bench.row("window", all(), WINDOWS, window);
    bench.row("answered", all(), ANSWERED, answered);
    bench.row("resource", all(), RESOURCE, resource);
    bench.row("inverse", all(), INVERSE, inverse);
    for (name, bundled) in [("reading, bundled", true), ("reading, multiplexed", false)] {
        let fits = |input: &Input| bundles(input.settings, size(&bench.model, input)) == bundled;
        bench.row(name, all().filter(fits), READING, reading);
    }
    bench.row("make", all(), HANDSET, make);
}

/// Without end what is drawn from a seed. A row draws its inputs itself, and from a seed of its
/// group, so that they are the same whatever else is measured.
fn draws<T>(seed: u64, mut draw: impl FnMut(&mut Random) -> T) -> impl Iterator<Item = T> {
    let mut random = Random::new(seed);
    iter::repeat_with(move || draw(&mut random))
}

fn size(model: &Model, input: &Input) -> u16 {
    model.window(input.settings.config, input.n).expect("a window").size()
}

/// An allowed input over all configurations, bandwidths, modes and block numbers.
fn input(model: &Model, random: &mut Random) -> Input {
    read_input(model, random, Random::plain_settings)
}

/// An input of such settings whose reply is read.
fn read_input(
    model: &Model,
    random: &mut Random,
    settings: impl Fn(&mut Random) -> Settings,
) -> Input {
    loop {
        let settings = settings(random);
        let input = unread(model, settings, random);
        if is_read(model, &input) {
            return input;
        }
    }
}

/// One that is told of a scheduled block, and reads on the block's resource or on
/// that of a PDCCH.
fn told_input(
    model: &Model,
    random: &mut Random,
    settings: fn(&mut Random) -> Settings,
    of_block: bool,
) -> Input {
    loop {
        let settings = settings(random);
        let input = unread(model, settings, random);
        let size = size(model, &input);
        let told = Input { told: random.below16(size), ..input };
        let input = match of_block {
            true => Input { resource: settings.scheduled, ..told },
            false => told,
        };
        if is_read(model, &input) {
            return input;
        }
    }
}

/// An input whose bits may say nothing.
fn unread(model: &Model, settings: Settings, random: &mut Random) -> Input {
    let window = random.window(model, settings.config);
    let (position, cce) = (random.below16(window.size()), random.below16(edge(settings.nrb, 4)));
    let resource = model.resource(settings, window.n, position, cce).resource;
    let bits = (random.below16(2), random.below16(2));
    let subframe = (window.n + 20 - window.k[usize::from(position)]) % 10;
    Input { settings, n: window.n, subframe, position, cce, told: NOT_TOLD, resource, bits }
}

fn is_read(model: &Model, input: &Input) -> bool {
    let Input { settings, n, told, resource, bits: (b0, b1), .. } = *input;
    model.reading(settings, n, told, resource, b0, b1).refusal == 0
}

fn feeds(bench: &Bench) {
    let is_windowless = |feed: &Feed| {
        let Handset { settings, next, .. } = feed.handset;
        is_uplink(settings.config, next) && bench.model.window(settings.config, next).is_none()
    };
    let rows: [(&str, Fits); 5] = [
        ("feed, downlink, grant", &|feed| feed.heard != Heard::Nothing),
        ("feed, downlink, nothing", &|feed| {
            let Handset { settings, next, .. } = feed.handset;
            feed.heard == Heard::Nothing && !is_uplink(settings.config, next)
        }),
        ("feed, uplink, bundled window", &|feed| answers(&bench.model, feed, true)),
        ("feed, uplink, multiplexed window", &|feed| answers(&bench.model, feed, false)),
        ("feed, uplink, no window", &is_windowless),
    ];
    feed_rows(bench, 0, run, &rows);
    run_row(bench, "feed, one after another in a run", 0, run);
}

fn feed_rows(bench: &Bench, seed: u64, run: DrawRun, rows: &[(&str, Fits)]) {
    for (name, fits) in rows {
        bench.row(name, run_feeds(bench, seed, run).filter(fits), HANDSET, feed);
    }
}

/// Without end the feeds of runs.
fn run_feeds(bench: &Bench, seed: u64, run: DrawRun) -> impl Iterator<Item = Feed> + '_ {
    draws(seed, move |random| run(&bench.model, random)).flat_map(|run| feeds_of(&run))
}

fn run_row(bench: &Bench, name: &str, seed: u64, run: DrawRun) {
    let runs = draws(seed, |random| run(&bench.model, random));
    bench.row_of(name, runs, |run| run.heard.len(), HANDSET, whole_run);
}

/// Mode changes on the handsets of runs, and a run with such changes. Configuration 5 has one
/// mode only.
fn mode_changes(bench: &Bench) {
    let runs = || {
        let all = draws(5, |random| run(&bench.model, random));
        all.filter(|run| run.settings.config != 5)
    };
    let handsets = runs().flat_map(|run| feeds_of(&run)).map(|feed| feed.handset);
    bench.row("mode change", handsets.step_by(3), HANDSET, change);
    let name = "feed, one after another in a run with mode changes";
    bench.row_of(name, runs(), |run| run.heard.len(), HANDSET, changing_run);
}

/// Whether a feed answers a window that is bundled, or one that is not.
fn answers(model: &Model, feed: &Feed, bundled: bool) -> bool {
    let Handset { settings, next, .. } = feed.handset;
    let window = model.window(settings.config, next);
    window.is_some_and(|window| bundles(settings, window.size()) == bundled)
}

/// The calls that a schedule brings, and the answers of windows with one.
fn schedule(bench: &Bench) {
    for (name, of_block) in
        [("reading, told, on the block's resource", true), ("reading, told, on another", false)]
    {
        let settings = Random::plain_scheduled_settings;
        let inputs = draws(1, |random| told_input(&bench.model, random, settings, of_block));
        bench.row(name, inputs, READING, reading);
    }
    let model = &bench.model;
    let rows: [(&str, Fits); 5] = [
        ("feed, downlink, scheduled block", &|feed| matches!(feed.heard, Heard::Block(_))),
        ("feed, downlink, release", &|feed| matches!(feed.heard, Heard::Release(_))),
        ("feed, downlink, grant, with a schedule", &|feed| matches!(feed.heard, Heard::Grant(_))),
        ("feed, uplink, bundled window, with a schedule", &|feed| answers(model, feed, true)),
        ("feed, uplink, multiplexed window, with a schedule", &|feed| answers(model, feed, false)),
    ];
    feed_rows(bench, 1, scheduled_run, &rows);
    run_row(bench, "feed, one after another in a run with a schedule", 1, scheduled_run);
}

/// Cells whose special subframes are too short for data.
fn short_specials(bench: &Bench) {
    let settings = |random: &mut Random| {
        let (prefix, special) = random.one_of(&every::SHORT);
        random.plain_scheduled_settings().with_special(prefix, special)
    };
    let inputs = draws(2, |random| told_input(&bench.model, random, settings, false));
    bench.row("reading, told, on another, short special cell", inputs, READING, reading);
    let rows: [(&str, Fits); 2] = [
        ("feed, downlink, grant, short special cell", &|feed| {
            matches!(feed.heard, Heard::Grant(_))
        }),
        ("feed, downlink, release, short special cell", &|feed| {
            matches!(feed.heard, Heard::Release(_))
        }),
    ];
    feed_rows(bench, 2, short_run, &rows);
}

/// A run of grants, with a release in place of one in a special subframe.
fn short_run(model: &Model, random: &mut Random) -> Run {
    let (prefix, special) = random.one_of(&every::SHORT);
    let Run { settings, mut heard } = run(model, random);
    let settings = settings.with_special(prefix, special);
    for (brought, subframe) in heard.iter_mut().zip((0..10).cycle()) {
        if let (Heard::Grant(Grant { cce, dai, .. }), true) =
            (*brought, is_short(settings, subframe))
        {
            *brought = Heard::Release(Release { cce, dai });
        }
    }
    Run { settings, heard }
}

/// A run of grants, in which some become releases and some a scheduled block.
fn scheduled_run(model: &Model, random: &mut Random) -> Run {
    let Run { settings, mut heard } = run(model, random);
    let n1 = 1 + random.below16(2047);
    let settings = Settings { n1, ..settings }.with_scheduled(random.below16(n1));
    for brought in &mut heard {
        if let (Heard::Grant(Grant { cce, dai, .. }), true) = (*brought, random.once_in(8)) {
            *brought = Heard::Release(Release { cce, dai });
        }
    }
    for window in model.windows().iter().filter(|window| window.config == settings.config) {
        for frame in 0..20 {
            let uplink = 10 * frame + usize::from(window.n);
            let k = random.one_of(&window.k);
            if let (Some(at), true) = (uplink.checked_sub(k.into()), random.once_in(2)) {
                let flag = u16::from(!random.once_in(10));
                let blocks = 1 + random.below16(settings.blocks);
                heard[at] = Heard::Block(Block { blocks, first: flag, second: flag });
            }
        }
    }
    Run { settings, heard }
}

/// A realistic run of 20 frames: most subframes have a grant, by the DAI rule,
/// few are lost, and most blocks are decoded.
fn run(model: &Model, random: &mut Random) -> Run {
    let settings = random.plain_settings();
    run_of(model, settings, random)
}

/// The same of a handset with two ports.
fn two_port_run(model: &Model, random: &mut Random) -> Run {
    let settings = two_port_settings(random);
    run_of(model, settings, random)
}

fn run_of(model: &Model, settings: Settings, random: &mut Random) -> Run {
    let mut heard = vec![Heard::Nothing; 200];
    for window in model.windows().iter().filter(|window| window.config == settings.config) {
        for frame in 0..20 {
            let uplink = 10 * frame + usize::from(window.n);
            let mut ks = window.k.clone();
            ks.sort();
            let mut dai = 0;
            for k in ks.into_iter().rev() {
                if random.below(10) < 7 {
                    let mut flag = || u16::from(!random.once_in(10));
                    let (first, second) = (flag(), flag());
                    let grant = Grant { dai: dai % 4 + 1, first, second, ..random.grant(settings) };
                    let at = uplink.checked_sub(usize::from(k));
                    if let (Some(at), false) = (at, random.once_in(20)) {
                        heard[at] = Heard::Grant(grant);
                    }
                    dai += 1;
                }
            }
        }
    }
    Run { settings, heard }
}

/// The handsets are led on in plain Rust, which is quicker than the model and held to it by the
/// tests.
fn feeds_of(run: &Run) -> Vec<Feed> {
    let mut handset = plain_make(run.settings).handset;
    let mut feeds = Vec::new();
    for heard in &run.heard {
        feeds.push(Feed { handset, heard: *heard });
        let fed = plain_feed(handset, *heard);
        assert_eq!(fed.refusal, 0, "a feed of a run");
        handset = fed.handset;
    }
    feeds
}

fn claims(bench: &Bench) {
    let model = &bench.model;
    let widest = Settings::plain(5, 110, 10, 0, 1);
    let window = model.window(5, 2).expect("a window");
    let of_widest = |claims| List { settings: widest, n: 2, claims };
    let thousand = |random: &mut Random| of_widest(distinct(widest, window, 1000, random));
    let many = |random: &mut Random| of_widest(repeated(distinct(widest, window, 1206, random)));
    for (name, form) in [("claims", Form::Bytes), ("claims by bits", Form::Bits)] {
        let row = |list: &str, draw: &dyn Fn(&mut Random) -> List| {
            claims_row(bench, &format!("{name}, list of {list}"), form, draws(0, draw));
        };
        row("10", &|random| list_of_ten(model, random));
        row("1,000", &thousand);
        row("100,000, of which 1,206 differ", &many);
    }
}

/// A clean list of ten claims for a window of a cell of 3 MHz or more.
fn list_of_ten(model: &Model, random: &mut Random) -> List {
    let mut settings = random.plain_settings();
    settings.nrb = settings.nrb.max(15);
    let window = random.window(model, settings.config);
    List { settings, n: window.n, claims: distinct(settings, window, 10, random) }
}

/// Some of the allowed claims of a window, each once, in random order.
fn distinct(settings: Settings, window: &Window, length: usize, random: &mut Random) -> Vec<u16> {
    let mut claims = every::claim(window.size(), edge(settings.nrb, 4));
    random.shuffle(&mut claims);
    claims.truncate(length);
    claims
}

/// A list of 100,000 claims that are these again and again.
fn repeated(claims: Vec<u16>) -> Vec<u16> {
    claims.into_iter().cycle().take(100_000).collect()
}

/// The calls on handsets with two ports, as far as they have two resources or allow no other
/// mode and no schedule.
fn two_ports(bench: &Bench) {
    let model = &bench.model;
    let inputs = || draws(6, |random| read_input(model, random, two_port_settings));
    bench.row("resource, two ports", inputs(), RESOURCE, resource);
    bench.row("reading, two ports", inputs(), READING, reading);
    let rows: [(&str, Fits); 2] = [
        ("feed, downlink, grant, two ports", &|feed| feed.heard != Heard::Nothing),
        ("feed, uplink, bundled window, two ports", &|feed| answers(model, feed, true)),
    ];
    feed_rows(bench, 6, two_port_run, &rows);
    run_row(bench, "feed, one after another in a run, two ports", 6, two_port_run);
    let replies = commands(bench, 6, two_port_run, &is_answered, &fed_command);
    bench.row("command, feed, uplink, a reply, two ports", replies, COMMAND, command);
    two_port_claims(bench);
}

fn two_port_claims(bench: &Bench) {
    let model = &bench.model;
    let ten = |random: &mut Random| {
        let mut settings = two_port_settings(random);
        settings.nrb = settings.nrb.max(25);
        let window = random.window(model, settings.config);
        List { settings, n: window.n, claims: apart(model, settings, window, 10, random) }
    };
    let widest = Settings::plain(5, 110, 10, 0, 1).with_ports(2);
    let window = model.window(5, 2).expect("a window");
    let of_widest = |claims| List { settings: widest, n: 2, claims };
    let hundreds = |random: &mut Random| of_widest(apart(model, widest, window, 600, random));
    let many = |random: &mut Random| of_widest(repeated(apart(model, widest, window, 603, random)));
    for (name, form) in
        [("claims, two ports", Form::Bytes), ("claims by bits, two ports", Form::Bits)]
    {
        let row = |list: &str, draw: &dyn Fn(&mut Random) -> List| {
            claims_row(bench, &format!("{name}, list of {list}"), form, draws(6, draw));
        };
        row("10", &ten);
        row("600", &hundreds);
        row("100,000, of which 603 differ", &many);
    }
}

/// Which windows belong to a row, by what was sent and heard there and the octets credited.
type FitsCredit<'a> = &'a dyn Fn(&Exchange, u32) -> bool;

fn charging(bench: &Bench) {
    let model = &bench.model;
    let bundled = |exchange: &Exchange| {
        let window = model.window(exchange.settings.config, exchange.n).expect("a window");
        bundles(exchange.settings, window.size())
    };
    let all: [(&str, FitsCredit); 4] = [
        ("bundled window", &|exchange, octets| octets > 0 && bundled(exchange)),
        ("multiplexed window", &|exchange, octets| octets > 0 && !bundled(exchange)),
        ("two ports", &|exchange, octets| octets > 0 && exchange.settings.ports == 2),
        ("nothing", &|_, octets| octets == 0),
    ];
    for (name, fits) in all {
        let name = format!("confirmed blocks, {name}");
        bench.row(&name, credits(model, fits), CONFIRMED, confirmed);
    }
    for (name, fits) in all {
        bench.row(&format!("credit, {name}"), credits(model, fits), CREDIT, credit);
    }
    bench.row("a new account", draws(7, price), OPEN_ACCOUNT, open_account);
}

/// Without end credits that are not refused. Plain Rust says which, quicker than the model and
/// held to it by the tests.
fn credits<'a>(model: &'a Model, fits: FitsCredit<'a>) -> impl Iterator<Item = Credit> + 'a {
    const HARDLY_EVER: usize = 1_000_000;
    let all = draws(7, |random| {
        let exchange = random.exchange(model, HARDLY_EVER);
        let account = Account::with(price(random), random.below(1_000_000_000) as u64);
        Credit { exchange, account }
    });
    all.filter(move |Credit { exchange, account }| {
        let answer = plain_credit_of(*exchange, *account);
        answer.refusal == 0 && fits(exchange, answer.octets)
    })
}

fn price(random: &mut Random) -> u32 {
    random.below(1_000_001) as u32
}

/// The cause of a silence: of the handsets of runs those that are silent, by their cause, and
/// all of them, whatever the runs bring there.
fn silences(bench: &Bench) {
    let handsets = || run_feeds(bench, 8, run).map(|feed| feed.handset);
    for (name, cause) in [
        ("silence, nothing heard", SilenceAnswer::NOTHING_HEARD),
        ("silence, a miss shown", SilenceAnswer::MISS_SHOWN),
    ] {
        let silent = handsets().filter(|handset| plain_silence(*handset).cause == cause);
        bench.row(name, silent, SILENCE, silence);
    }
    bench.row("silence, every subframe", handsets(), SILENCE, silence);
}

/// Games at random, of all sizes.
fn games(bench: &Bench) {
    let all: Vec<Game> = Game::all().collect();
    bench.row("game", draws(9, |random| all[random.below(all.len())]), GAME, game);
}

/// What is written for a feed to the block before its command.
type Writes<'a> = &'a dyn Fn(&Feed) -> Written;

/// Commands of register blocks: feeds of a grant, feeds of the uplink that bring a reply,
/// clears of all flags, and none.
fn registers(bench: &Bench) {
    let clear = |_: &Feed| Written::clear(ALL, ALL);
    let none = |_: &Feed| Written { command: NO_COMMAND, ..Written::clear(ALL, ALL) };
    let rows: [(&str, Fits, Writes); 4] = [
        ("command, feed, downlink, grant", &|feed| feed.heard != Heard::Nothing, &fed_command),
        ("command, feed, uplink, a reply", &is_answered, &fed_command),
        ("command, clear", &|_| true, &clear),
        ("command, none", &|_| true, &none),
    ];
    for (name, fits, written) in rows {
        bench.row(name, commands(bench, 10, run, fits, written), COMMAND, command);
    }
}

/// Without end commands on the handsets of runs, with blocks of any bytes.
fn commands<'a>(
    bench: &'a Bench,
    seed: u64,
    run: DrawRun,
    fits: Fits<'a>,
    written: Writes<'a>,
) -> impl Iterator<Item = Command> + 'a {
    let of_run = move |random: &mut Random| -> Vec<Command> {
        let feeds = feeds_of(&run(&bench.model, random));
        let fitting = feeds.iter().filter(|feed| fits(feed));
        let of_feed = fitting.map(|feed| {
            let mut block = random.register_block();
            written(feed).write(&mut block);
            Command { handset: feed.handset, block }
        });
        of_feed.collect()
    };
    draws(seed, of_run).flatten()
}

/// A feed of what the subframe brought, with any flag on the line.
fn fed_command(feed: &Feed) -> Written {
    Written::feed(record_of(feed.heard), ALL)
}

/// Whether a feed is answered by a reply.
fn is_answered(feed: &Feed) -> bool {
    let kind = plain_feed(feed.handset, feed.heard).kind;
    kind == Fed::BUNDLED || kind == Fed::MULTIPLEXED
}

fn two_port_settings(random: &mut Random) -> Settings {
    Settings { mode: 0, ..random.plain_settings() }.with_ports(2)
}

/// Some of the allowed claims of a window that have every other resource, in random order.
fn apart(
    model: &Model,
    settings: Settings,
    window: &Window,
    length: usize,
    random: &mut Random,
) -> Vec<u16> {
    let resources = window.size() * edge(settings.nrb, 4);
    let claim = |t: u16| {
        let pair = model.inverse(settings, window.n, settings.n1 + t);
        pair.position * 256 + pair.cce
    };
    let mut claims: Vec<u16> = (0..resources).step_by(2).map(claim).collect();
    random.shuffle(&mut claims);
    claims.truncate(length);
    claims
}

/// Each form has the scratch that the widest window needs, with two ports.
fn claims_row(bench: &Bench, name: &str, form: Form, lists: impl Iterator<Item = List>) {
    let mut scratch = [0; 1207];
    let room = form.need(1207);
    let sides = [form.call(), form.plain_call()];
    let judge = |call: OnClaims, list: &List| judged(call, list, &mut scratch[..room]);
    bench.row_of(name, lists, |list| list.claims.len(), sides, judge);
}

/// How many records the measured traces have, in words too.
const LENGTHS: [(&str, usize); 3] = [("1,000", 1_000), ("4,000", 4_000), ("16,379", 16_379)];

fn replays(bench: &Bench) {
    let mut output = vec![0; LONGEST];
    for (name, mode) in [("bundled", 0), ("multiplexed", 1)] {
        for (length, records) in LENGTHS {
            let name = format!("replay, {name} cell, {length} records");
            let play = |call: OnReplay, drive: &Drive| replay(call, drive, &mut output);
            bench.row_of(&name, drives(bench, 3, mode, records), length_of, REPLAY, play);
        }
    }
}

/// Traces of records of nothing, of which none is looked at; so few that little of the time goes
/// to fetching them from memory.
fn sizes(bench: &Bench) {
    let drives = draws(11, |random| {
        let records = random.below(21);
        let settings = random.mixed_settings();
        let trace = Trace::new(settings, &vec![Slot::NOTHING; records]);
        Drive { trace: random.arranged(trace).bytes(), records }
    });
    bench.row("replay size", drives, REPLAY_SIZE, replay_size);
}

fn records(bench: &Bench) {
    let name = "a record read, one after another, 1,000 records";
    bench.row_of(name, drives(bench, 12, 0, 1_000), length_of, RECORD, read_all);
}

fn writings(bench: &Bench) {
    let mut output = vec![0; LONGEST];
    for (length, records) in LENGTHS {
        let name = format!("a trace written, {length} records");
        let write = |call: OnTraceWrite, drive: &Drive| trace_write(call, drive, &mut output);
        bench.row_of(&name, drives(bench, 4, 0, records), length_of, TRACE_WRITE, write);
    }
}

fn length_of(drive: &Drive) -> usize {
    drive.records
}

/// Without end traces of so many records.
fn drives(bench: &Bench, seed: u64, mode: u16, records: usize) -> impl Iterator<Item = Drive> + '_ {
    let settings = Settings::plain(2, 50, 10, mode, 2).with_scheduled(7);
    draws(seed, move |random| {
        let slots = random.records(&bench.model, settings, records);
        Drive { trace: Trace::new(settings, &slots).bytes(), records }
    })
}

/// What is measured: the rows whose names have one of the words, all of them where there is none.
struct Bench {
    model: Model,
    words: Vec<String>,
}

impl Bench {
    /// A row of one call for each input; see [`Bench::row_of`].
    fn row<C: Copy, T>(
        &self,
        name: &str,
        inputs: impl Iterator<Item = T>,
        sides: Sides<C>,
        how: impl FnMut(C, &T) -> u64,
    ) {
        self.row_of(name, inputs, |_| 1, sides, how);
    }

    /// Measures the two sides on the first inputs, as many as have enough things in them, and
    /// prints the nanoseconds of one thing. Where the row is not asked for no input is drawn.
    fn row_of<C: Copy, T>(
        &self,
        name: &str,
        inputs: impl Iterator<Item = T>,
        number: impl Fn(&T) -> usize,
        sides: Sides<C>,
        mut how: impl FnMut(C, &T) -> u64,
    ) {
        if !self.words.is_empty() && !self.words.iter().any(|word| name.contains(word)) {
            return;
        }
        let inputs = enough(inputs, &number);
        let things: usize = inputs.iter().map(number).sum();
        let mut agree = |input: &T| how(sides[0], input) == how(sides[1], input);
        assert!(inputs.iter().all(&mut agree), "{name}");
        let [ours, plain] =
            measured(&inputs, sides, &mut how).map(|times| Figures::of(times, things));
        println!(
            "| {name} | {:.2} | {:.2} | {:.2} | {:.2} | {:.2} | {:.2} |",
            ours.median,
            ours.least,
            plain.median,
            plain.least,
            ours.median / plain.median,
            ours.least / plain.least
        );
    }
}

/// The first inputs, until they have enough things in them.
fn enough<T>(inputs: impl Iterator<Item = T>, number: &impl Fn(&T) -> usize) -> Vec<T> {
    let mut things = 0;
    let is_missing = |input: &T| {
        let before = things;
        things += number(input);
        before < INPUTS
    };
    inputs.take_while(is_missing).collect()
}

/// The times of both sides' batches, each over all inputs. They take turns in which is first.
fn measured<C: Copy, T>(
    inputs: &[T],
    [ours, plain]: Sides<C>,
    how: &mut impl FnMut(C, &T) -> u64,
) -> Sides<Vec<f64>> {
    let (mut our_times, mut plain_times) = (Vec::new(), Vec::new());
    let start = Instant::now();
    while our_times.len() < BATCHES || start.elapsed() < TIME {
        our_times.push(time(inputs, ours, how));
        plain_times.push(time(inputs, plain, how));
        plain_times.push(time(inputs, plain, how));
        our_times.push(time(inputs, ours, how));
    }
    [our_times, plain_times]
}

/// The nanoseconds of one batch. Which side it is the compiler is not told, so that it makes the
/// same code for both.
#[inline(never)]
fn time<C: Copy, T>(inputs: &[T], call: C, how: &mut impl FnMut(C, &T) -> u64) -> f64 {
    let call = black_box(call);
    let start = Instant::now();
    let mut sum = 0u64;
    for input in inputs {
        sum = sum.wrapping_add(how(call, input));
    }
    black_box(sum);
    start.elapsed().as_nanos() as f64
}

/// Nanoseconds for one thing.
struct Figures {
    median: f64,
    least: f64,
}

impl Figures {
    /// By the times of batches over so many things.
    fn of(mut times: Vec<f64>, things: usize) -> Self {
        times.sort_by(f64::total_cmp);
        let of_one = |time: f64| time / things as f64;
        Self { median: of_one(times[times.len() / 2]), least: of_one(times[0]) }
    }
}

fn window(call: OnWindow, input: &Input) -> u64 {
    // SAFETY: the call takes numbers and gives numbers, and is lent no memory.
    let answer = unsafe { call(input.settings, input.n) };
    let answer = black_box(&answer);
    let last = answer.order[usize::from(answer.size.wrapping_sub(1) % 9)];
    u64::from(last) << 16 | u64::from(answer.k[0])
}

fn answered(call: OnAnswered, input: &Input) -> u64 {
    // SAFETY: the call takes numbers and gives numbers, and is lent no memory.
    let answer = unsafe { call(input.settings, input.subframe) };
    u64::from(answer.n) << 32 | u64::from(answer.k) << 16 | u64::from(answer.position)
}

fn resource(call: OnResource, input: &Input) -> u64 {
    // SAFETY: the call takes numbers and gives numbers, and is lent no memory.
    let answer = unsafe { call(input.settings, input.n, input.position, input.cce) };
    u64::from(answer.second) << 16 | u64::from(answer.resource)
}

fn inverse(call: OnInverse, input: &Input) -> u64 {
    // SAFETY: the call takes numbers and gives numbers, and is lent no memory.
    let answer = unsafe { call(input.settings, input.n, input.resource) };
    u64::from(answer.position) << 16 | u64::from(answer.cce)
}

fn reading(call: OnReading, input: &Input) -> u64 {
    let Input { settings, n, told, resource, bits: (b0, b1), .. } = *input;
    // SAFETY: the call takes numbers and gives numbers, and is lent no memory.
    let answer = unsafe { call(settings, n, told, resource, b0, b1) };
    let place = u64::from(answer.scheduled) << 32 | u64::from(answer.delivered) << 16;
    place | u64::from(answer.cce)
}

fn make(calls: OnHandset, input: &Input) -> u64 {
    // SAFETY: the call takes numbers and gives numbers, and is lent no memory.
    let made = unsafe { (calls.make)(input.settings) };
    black_box(&made).handset.settings.n1.into()
}

fn feed(calls: OnHandset, feed: &Feed) -> u64 {
    let fed = fed(calls, feed.handset, feed.heard);
    let fed = black_box(&fed);
    let bits = fed.b0 << 1 | fed.b1;
    let resources = u64::from(fed.second) << 48 | u64::from(fed.resource) << 32;
    resources | u64::from(fed.kind) << 16 | u64::from(bits)
}

#[inline(always)]
fn fed(calls: OnHandset, handset: Handset, heard: Heard) -> Fed {
    // SAFETY: the calls take numbers and give numbers, and are lent no memory.
    unsafe {
        match heard {
            Heard::Nothing => (calls.nothing)(handset),
            Heard::Grant(Grant { blocks, first, second, cce, dai }) => {
                (calls.grant)(handset, blocks, first, second, cce, dai)
            }
            Heard::Block(Block { blocks, first, second }) => {
                (calls.scheduled)(handset, blocks, first, second)
            }
            Heard::Release(Release { cce, dai }) => (calls.release)(handset, cce, dai),
        }
    }
}

/// Each feed gets the handset that the one before returned.
fn whole_run(calls: OnHandset, run: &Run) -> u64 {
    // SAFETY: the call takes numbers and gives numbers, and is lent no memory.
    let mut handset = unsafe { (calls.make)(run.settings) }.handset;
    let mut sum = 0u64;
    for heard in &run.heard {
        let fed = fed(calls, handset, *heard);
        sum = sum.wrapping_add(u64::from(fed.resource));
        handset = fed.handset;
    }
    sum
}

/// To the other mode.
fn change(calls: OnHandset, handset: &Handset) -> u64 {
    // SAFETY: the call takes numbers and gives numbers, and is lent no memory.
    let changed = unsafe { (calls.change_mode)(*handset, 1 - handset.settings.mode) };
    let changed = black_box(&changed);
    u64::from(changed.refusal) << 32 | u64::from(changed.handset.settings.mode)
}

/// A run with a change to the other mode before one subframe in eleven, each time another one of
/// the frame.
fn changing_run(calls: OnHandset, run: &Run) -> u64 {
    // SAFETY: the call takes numbers and gives numbers, and is lent no memory.
    let mut handset = unsafe { (calls.make)(run.settings) }.handset;
    let mut sum = 0u64;
    for (s, heard) in run.heard.iter().enumerate() {
        if s % 11 == 5 {
            // SAFETY: the same holds of this call.
            let changed = unsafe { (calls.change_mode)(handset, 1 - handset.settings.mode) };
            handset = changed.handset;
        }
        let fed = fed(calls, handset, *heard);
        sum = sum.wrapping_add(u64::from(fed.resource));
        handset = fed.handset;
    }
    sum
}

fn judged(call: OnClaims, list: &List, scratch: &mut [u8]) -> u64 {
    let (claims, count) = (list.claims.as_ptr(), list.claims.len());
    let (marks, room) = (scratch.as_mut_ptr(), scratch.len());
    // SAFETY: list and scratch are lent with their lengths and do not overlap.
    let answer = unsafe { call(list.settings, list.n, claims, count, marks, room) };
    u64::from(answer.kind) << 32 | answer.index
}

/// How many windows were written, and some of the last one.
fn replay(call: OnReplay, drive: &Drive, output: &mut [u8]) -> u64 {
    let (file, length) = (drive.trace.as_ptr(), drive.trace.len());
    let (out, room) = (output.as_mut_ptr(), output.len());
    // SAFETY: trace and output are lent with their lengths and do not overlap.
    let answer = unsafe { call(file, length, out, room) };
    let windows = usize::from(answer.windows);
    let last = &black_box(output)[WINDOW * windows.max(1) - WINDOW..][..WINDOW];
    let resource = u64::from(last[3]) << 8 | u64::from(last[2]);
    u64::from(answer.kind) << 48 | (windows as u64) << 16 | resource
}

fn replay_size(call: OnReplaySize, drive: &Drive) -> u64 {
    // SAFETY: the trace is lent with its length.
    let size = unsafe { call(drive.trace.as_ptr(), drive.trace.len()) };
    u64::from(size.refusal) << 48 | u64::from(size.windows) << 32 | u64::from(size.bytes)
}

/// One record after another.
fn read_all(call: OnRecord, drive: &Drive) -> u64 {
    let mut sum = 0u64;
    for next in 0..drive.records {
        // SAFETY: the trace is lent with its length.
        let answer = unsafe { call(drive.trace.as_ptr(), drive.trace.len(), next) };
        let Slot { kind, cce, dai, results } = answer.slot;
        let slot = u32::from_le_bytes([kind, cce, dai, results]);
        sum = sum.wrapping_add(u64::from(answer.kind) << 32 | u64::from(slot));
    }
    sum
}

/// How many bytes were written, and the last four of them.
fn trace_write(call: OnTraceWrite, drive: &Drive, output: &mut [u8]) -> u64 {
    let (file, length) = (drive.trace.as_ptr(), drive.trace.len());
    let (out, room) = (output.as_mut_ptr(), output.len());
    // SAFETY: trace and output are lent with their lengths and do not overlap.
    let answer = unsafe { call(file, length, out, room) };
    let written = &black_box(output)[..answer.bytes.into()];
    let last = written.last_chunk().map_or(0, |last| u32::from_le_bytes(*last));
    u64::from(answer.kind) << 48 | u64::from(answer.bytes) << 32 | u64::from(last)
}

fn confirmed(call: OnConfirmed, input: &Credit) -> u64 {
    let Exchange { settings, n, sent, resource, b0, b1 } = input.exchange;
    // SAFETY: the call takes numbers and gives numbers, and is lent no memory.
    let answer = unsafe { call(settings, n, sent, resource, b0, b1) };
    u64::from(answer.refusal) << 32 | u64::from(answer.first) << 16 | u64::from(answer.second)
}

fn credit(call: OnCredit, input: &Credit) -> u64 {
    let Exchange { settings, n, sent, resource, b0, b1 } = input.exchange;
    // SAFETY: the call takes numbers and gives numbers, and is lent no memory.
    let answer = unsafe { call(settings, n, sent, resource, b0, b1, input.account) };
    let answer = black_box(&answer);
    let Account { charged, carry, .. } = answer.account;
    u64::from(answer.octets) << 40 ^ u64::from(carry) << 20 ^ charged
}

fn open_account(call: OnPrice, price: &u32) -> u64 {
    // SAFETY: the call takes a number and gives numbers, and is lent no memory.
    let opened = unsafe { call(*price) };
    let opened = black_box(&opened);
    u64::from(opened.refusal) << 32 | u64::from(opened.account.price)
}

fn silence(call: OnSilence, handset: &Handset) -> u64 {
    // SAFETY: the call takes numbers and gives numbers, and is lent no memory.
    let answer = unsafe { call(*handset) };
    let answer = black_box(&answer);
    let [cause, v, expected] = answer.told().map(u64::from);
    let fed = u64::from(answer.fed.kind) << 16 | u64::from(answer.fed.resource);
    fed << 24 | cause << 16 | v << 8 | expected
}

fn game(call: OnGame, input: &Game) -> u64 {
    // SAFETY: the call takes numbers and gives numbers, and is lent no memory.
    let answer = unsafe { call(input.size, input.grants, input.losses) };
    u64::from(answer.refusal) << 16 | u64::from(answer.radio)
}

/// The resource and bits that the block shows, its flags, and the answer.
fn command(call: OnCommand, input: &Command) -> u64 {
    let mut block = input.block;
    // SAFETY: the block is lent with its length.
    let answer = unsafe { call(input.handset, block.as_mut_ptr(), block.len()) };
    let (answer, block) = (black_box(&answer), black_box(&block));
    let reply = block[REPLY + 2..].first_chunk().map_or(0, |reply| u32::from_le_bytes(*reply));
    let answered = u64::from(answer.refusal) << 8 | u64::from(answer.handset.next);
    u64::from(reply) << 32 | u64::from(block[FLAGS]) << 24 | answered << 1 | u64::from(answer.line)
}
