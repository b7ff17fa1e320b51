//! Holds the engine to the model, and counts what was compared. The plain
//! implementation is held to the model on the way.

use crate::form::Form;
use crate::guarded::{Flush, Guarded, BOTH};
use crate::model::Model;
use crate::plain::{
    plain_answered, plain_change_mode, plain_command, plain_confirmed, plain_credit,
    plain_feed_grant, plain_feed_nothing, plain_feed_release, plain_feed_scheduled, plain_game,
    plain_inverse, plain_make, plain_open_account, plain_reading, plain_record, plain_replay,
    plain_replay_size, plain_resource, plain_silence, plain_trace_write, plain_window,
};
use crate::random::Random;
use crate::{
    answered, change_mode, command, confirmed, credit, feed, feed_nothing, game, inverse, make,
    open_account, reading, record, replay, replay_size, resource, silence, trace_write, window,
    Account, Block, Changed, ClaimsAnswer, CommandAnswer, ConfirmedAnswer, CreditAnswer, Exchange,
    Fed, GameAnswer, Grant, Handset, Heard, Opened, ReadingAnswer, RecordAnswer, Release,
    ReplayAnswer, ReplaySizeAnswer, Settings, SilenceAnswer, WriteAnswer,
};
use std::fmt;
use std::hint::black_box;

/// The number of windows in the table.
pub const WINDOWS: u64 = 21;

/// The number of positions in all windows, the sum of M.
pub const POSITIONS: u64 = 47;

/// For each window the windows of its configuration, itself among them: how many
/// they are for all windows together.
pub const NEIGHBOURS: u64 = 4 * 4 + 4 * 4 + 2 * 2 + 3 * 3 + 2 * 2 + 1 + 5 * 5;

/// The number of bandwidths, 6 to 110 resource blocks.
pub const BANDWIDTHS: u64 = 105;

/// The number of CCEs over all bandwidths, the sum of N_4.
pub const CCES: u64 = 7397;

/// The highest refusal number.
const LAST_REFUSAL: usize = 29;

/// The highest kind of an answer.
const LAST_KIND: usize = 5;

/// The highest cause of a silence.
const LAST_CAUSE: usize = 2;

/// A test's comparisons, counted by the refusal that was due, 0 for none, and
/// by the kind, where an answer has one, and by the cause of a silence, where it is told.
pub struct Comparison<'a> {
    model: &'a Model,
    counts: [u64; LAST_REFUSAL + 1],
    kinds: [u64; LAST_KIND + 1],
    causes: [u64; LAST_CAUSE + 1],
}

impl<'a> Comparison<'a> {
    pub fn with(model: &'a Model) -> Self {
        let (counts, kinds) = ([0; LAST_REFUSAL + 1], [0; LAST_KIND + 1]);
        Self { model, counts, kinds, causes: [0; LAST_CAUSE + 1] }
    }

    pub fn window(&mut self, settings: Settings, n: u16) {
        let due = self.model.window_answer(settings, n);
        let given = window(settings, n);
        let plain = plain_window(settings, n);
        assert!(
            given == due && plain == due,
            "feedback_window({settings:?}, n {n}): the engine gives {given:?}, the model {due:?}, \
             the plain implementation {plain:?}"
        );
        self.counts[usize::from(due.refusal)] += 1;
    }

    pub fn answered(&mut self, settings: Settings, subframe: u16) {
        let due = self.model.answered(settings, subframe);
        let given = answered(settings, subframe);
        let plain = plain_answered(settings, subframe);
        assert!(
            given == due && plain == due,
            "feedback_answered({settings:?}, subframe {subframe}): the engine gives {given:?}, \
             the model {due:?}, the plain implementation {plain:?}"
        );
        self.counts[usize::from(due.refusal)] += 1;
    }

    pub fn resource(&mut self, settings: Settings, n: u16, position: u16, cce: u16) {
        let due = self.model.resource(settings, n, position, cce);
        let given = resource(settings, n, position, cce);
        let plain = plain_resource(settings, n, position, cce);
        assert!(
            given == due && plain == due,
            "feedback_resource({settings:?}, n {n}, position {position}, cce {cce}): the engine \
             gives {given:?}, the model {due:?}, the plain implementation {plain:?}"
        );
        self.counts[usize::from(due.refusal)] += 1;
    }

    pub fn inverse(&mut self, settings: Settings, n: u16, resource: u16) {
        let due = self.model.inverse(settings, n, resource);
        let given = inverse(settings, n, resource);
        let plain = plain_inverse(settings, n, resource);
        assert!(
            given == due && plain == due,
            "feedback_inverse({settings:?}, n {n}, resource {resource}): the engine gives \
             {given:?}, the model {due:?}, the plain implementation {plain:?}"
        );
        self.counts[usize::from(due.refusal)] += 1;
    }

    pub fn reading(
        &mut self,
        settings: Settings,
        n: u16,
        told: u16,
        resource: u16,
        b0: u16,
        b1: u16,
    ) -> ReadingAnswer {
        let due = self.model.reading(settings, n, told, resource, b0, b1);
        let given = reading(settings, n, told, resource, b0, b1);
        let plain = plain_reading(settings, n, told, resource, b0, b1);
        assert!(
            given == due && plain == due,
            "feedback_reading({settings:?}, n {n}, told {told}, resource {resource}, b0 {b0}, \
             b1 {b1}): the engine gives {given:?}, the model {due:?}, the plain implementation \
             {plain:?}"
        );
        self.counts[usize::from(due.refusal)] += 1;
        self.kinds[usize::from(due.kind)] += 1;
        given
    }

    /// Two comparisons: list and scratch lie flush with a guard, once at their
    /// start and once at their end. The list can't be written, and every byte of
    /// the scratch is compared. Shows the answer.
    pub fn claims(
        &mut self,
        form: Form,
        lent: &mut Lent,
        settings: Settings,
        n: u16,
        list: &[u16],
        scratch: &[u8],
    ) -> ClaimsAnswer {
        let (due, left) = form.model(self.model, settings, n, list, scratch);
        let mut plain_left = scratch.to_vec();
        let plain = form.plain(settings, n, list, &mut plain_left);
        for flush in BOTH {
            let given_left = lent.scratch.bytes(scratch, flush);
            let read = lent.list.numbers_to_read(list, flush);
            let given = form.claims(settings, n, read, given_left);
            assert!(
                given == due && plain == due,
                "{form}({settings:?}, n {n}, {}, room {}), flush at the {flush:?}: the \
                 engine gives {given:?}, the model {due:?}, the plain implementation {plain:?}",
                Shown(list),
                scratch.len()
            );
            assert!(
                given_left == left && plain_left == left,
                "{form}({settings:?}, n {n}, {}, room {}), flush at the {flush:?}: the \
                 scratch was {}; the engine leaves {}, the model {}, the plain implementation {}",
                Shown(list),
                scratch.len(),
                Shown(scratch),
                Shown(given_left),
                Shown(&left),
                Shown(&plain_left)
            );
            self.counts[usize::from(due.refusal)] += 1;
            self.kinds[usize::from(due.kind)] += 1;
        }
        due
    }

    pub fn make(&mut self, settings: Settings) -> Handset {
        let due = self.model.make(settings);
        let given = make(settings);
        let plain = plain_make(settings);
        assert!(
            given == due && plain == due,
            "feedback_make({settings:?}): the engine gives {given:?}, the model {due:?}, the \
             plain implementation {plain:?}"
        );
        self.counts[usize::from(due.refusal)] += 1;
        given.handset
    }

    pub fn feed(&mut self, handset: Handset, heard: impl Into<Heard>) -> Fed {
        let heard = heard.into();
        let due = self.model.feed(handset, heard);
        let given = feed(handset, heard);
        let plain = plain_feed(handset, heard);
        assert!(
            given == due && plain == due,
            "a feed of {heard:?} to {handset:?}: the engine gives {given:?}, the model {due:?}, \
             the plain implementation {plain:?}"
        );
        self.counts[usize::from(due.refusal)] += 1;
        self.kinds[usize::from(due.kind)] += 1;
        given
    }

    /// What stands beside the cause is also held to the engine's own feed of nothing.
    pub fn silence(&mut self, handset: Handset) -> SilenceAnswer {
        let due = self.model.silence(handset);
        let (given, plain) = (silence(handset), plain_silence(handset));
        assert!(
            given == due && plain == due,
            "feedback_silence({handset:?}): the engine gives {given:?}, the model {due:?}, the \
             plain implementation {plain:?}"
        );
        hold_beside_the_feed(handset, given);
        self.counts[usize::from(due.fed.refusal)] += 1;
        self.kinds[usize::from(due.fed.kind)] += 1;
        self.causes[usize::from(due.cause)] += 1;
        given
    }

    pub fn change_mode(&mut self, handset: Handset, mode: u16) -> Changed {
        let due = self.model.change_mode(handset, mode);
        let given = change_mode(handset, mode);
        let plain = plain_change_mode(handset, mode);
        assert!(
            given == due && plain == due,
            "feedback_change_mode({handset:?}, mode {mode}): the engine gives {given:?}, the model \
             {due:?}, the plain implementation {plain:?}"
        );
        self.counts[usize::from(due.refusal)] += 1;
        given
    }

    /// Two comparisons: trace and output lie flush with a guard, once at their start
    /// and once at their end. Every byte of both is compared. Shows the answer.
    pub fn replay(&mut self, lent: &mut LentTrace, trace: &[u8], output: &[u8]) -> ReplayAnswer {
        let due = self.model.replay(trace, output);
        let mut left = output.to_vec();
        let plain = (plain_replay_on(trace, &mut left), left);
        for flush in BOTH {
            let given = lent.replay(trace, output, flush);
            hold("feedback_replay", trace, output, flush, given, &due, &plain);
            self.counts[usize::from(due.0.refusal)] += 1;
            self.kinds[usize::from(due.0.kind)] += 1;
        }
        due.0
    }

    /// The same for the writing of a trace.
    pub fn trace_write(
        &mut self,
        lent: &mut LentTrace,
        trace: &[u8],
        output: &[u8],
    ) -> WriteAnswer {
        let due = self.model.trace_write(trace, output);
        let mut left = output.to_vec();
        let plain = (plain_trace_write_on(trace, &mut left), left);
        for flush in BOTH {
            let given = lent.trace_write(trace, output, flush);
            hold("feedback_trace_write", trace, output, flush, given, &due, &plain);
            self.counts[usize::from(due.0.refusal)] += 1;
            self.kinds[usize::from(due.0.kind)] += 1;
        }
        due.0
    }

    /// Two comparisons: the trace lies flush with a guard, once at its start and once at
    /// its end.
    pub fn record(&mut self, lent: &mut LentTrace, trace: &[u8], next: usize) -> RecordAnswer {
        let due = self.model.record(trace, next);
        let plain = plain_record_of(trace, next);
        for flush in BOTH {
            let given = lent.record(trace, next, flush);
            assert!(
                given == due && plain == due,
                "feedback_record({}, next {next}), flush at the {flush:?}: the engine gives \
                 {given:?}, the model {due:?}, the plain implementation {plain:?}",
                Shown(trace)
            );
            self.counts[usize::from(due.refusal)] += 1;
            self.kinds[usize::from(due.kind)] += 1;
        }
        due
    }

    /// The same for the sizing of a replay.
    pub fn replay_size(&mut self, lent: &mut LentTrace, trace: &[u8]) -> ReplaySizeAnswer {
        let due = self.model.replay_size(trace);
        let plain = plain_replay_size_of(trace);
        for flush in BOTH {
            let given = lent.replay_size(trace, flush);
            assert!(
                given == due && plain == due,
                "feedback_replay_size({}), flush at the {flush:?}: the engine gives {given:?}, \
                 the model {due:?}, the plain implementation {plain:?}",
                Shown(trace)
            );
            self.counts[usize::from(due.refusal)] += 1;
        }
        due
    }

    pub fn confirmed(&mut self, exchange: Exchange) -> ConfirmedAnswer {
        let due = self.model.confirmed(&exchange);
        let given = confirmed(exchange);
        let plain = plain_confirmed_of(exchange);
        assert!(
            given == due && plain == due,
            "feedback_confirmed({exchange:?}): the engine gives {given:?}, the model {due:?}, the \
             plain implementation {plain:?}"
        );
        self.counts[usize::from(due.refusal)] += 1;
        given
    }

    pub fn open_account(&mut self, price: u32) -> Opened {
        let due = self.model.open_account(price);
        let given = open_account(price);
        let plain = plain_open_account(price);
        assert!(
            given == due && plain == due,
            "feedback_open_account({price}): the engine gives {given:?}, the model {due:?}, the \
             plain implementation {plain:?}"
        );
        self.counts[usize::from(due.refusal)] += 1;
        given
    }

    pub fn credit(&mut self, exchange: Exchange, account: Account) -> CreditAnswer {
        let due = self.model.credit(&exchange, account);
        let given = credit(exchange, account);
        let plain = plain_credit_of(exchange, account);
        assert!(
            given == due && plain == due,
            "feedback_credit({exchange:?}, {account:?}): the engine gives {given:?}, the model \
             {due:?}, the plain implementation {plain:?}"
        );
        self.counts[usize::from(due.refusal)] += 1;
        given
    }

    pub fn game(&mut self, size: u16, grants: u16, losses: u16) -> GameAnswer {
        let due = self.model.game(size, grants, losses);
        let given = game(size, grants, losses);
        let plain = plain_game(size, grants, losses);
        assert!(
            given == due && plain == due,
            "feedback_game({size}, {grants}, {losses}): the engine gives {given:?}, the model \
             {due:?}, the plain implementation {plain:?}"
        );
        self.counts[usize::from(due.refusal)] += 1;
        given
    }

    /// Two comparisons: the block lies flush with a guard, once at its start and once at its
    /// end. Every byte of it is compared, and of the handset. Shows the answer, and the block
    /// afterwards.
    pub fn command(
        &mut self,
        lent: &mut Guarded,
        handset: Handset,
        block: &[u8],
    ) -> (CommandAnswer, Vec<u8>) {
        let mut left = block.to_vec();
        let due = self.model.command(handset, &mut left);
        let mut plain_left = block.to_vec();
        let plain = plain_command_on(handset, &mut plain_left);
        for flush in BOTH {
            let given_left = lent.bytes(block, flush);
            let given = command(handset, given_left);
            assert!(
                given == due && plain == due && given_left == left && plain_left == left,
                "feedback_command({handset:?}, {block:?}), flush at the {flush:?}: the engine \
                 gives {given:?} and leaves {given_left:?}, the model {due:?} and {left:?}, the \
                 plain implementation {plain:?} and {plain_left:?}"
            );
            self.counts[usize::from(due.refusal)] += 1;
        }
        (due, left)
    }

    /// Ends a test: as many answers were compared as there should be, and as
    /// many of them were answers without a refusal.
    pub fn finish(&self, compared: u64, answered: u64) {
        println!("{} compared, {} not refused", self.total(), self.counts[0]);
        assert_eq!(self.total(), compared, "answers compared");
        assert_eq!(self.counts[0], answered, "answers without a refusal");
    }

    /// Ends a test: as many answers were compared as there should be, with at
    /// least one for each of these refusals and each of these kinds.
    pub fn finish_with(&self, compared: u64, refusals: &[usize], kinds: &[usize]) {
        println!("{} compared, by refusal {:?}", self.total(), self.counts);
        println!("by kind {:?}", self.kinds);
        assert_eq!(self.total(), compared, "answers compared");
        let missing = |number: &&usize| self.counts[**number] == 0;
        assert_eq!(refusals.iter().find(missing), None, "a refusal that did not occur");
        let missing = |number: &&usize| self.kinds[**number] == 0;
        assert_eq!(kinds.iter().find(missing), None, "a kind that did not occur");
    }

    /// How many answers were due with this refusal, 0 for none.
    pub fn refused(&self, number: usize) -> u64 {
        self.counts[number]
    }

    /// How many answers were due of this kind.
    pub fn of_kind(&self, number: u16) -> u64 {
        self.kinds[usize::from(number)]
    }

    /// How many silences were due of each cause, first those answers that were not silent.
    pub fn of_causes(&self) -> [u64; LAST_CAUSE + 1] {
        self.causes
    }

    pub fn total(&self) -> u64 {
        self.counts.iter().sum()
    }
}

/// Beside the cause of a silence stands what the engine's feed of nothing answers, every byte
/// of it.
pub fn hold_beside_the_feed(handset: Handset, given: SilenceAnswer) {
    let fed = feed_nothing(handset);
    assert!(
        given.fed == fed && given.fed.handset.bytes() == fed.handset.bytes(),
        "feedback_silence({handset:?}) gives {given:?}, and feedback_feed_nothing {fed:?}"
    );
}

/// Holds a call on a trace and an output to the model, and the plain implementation too:
/// the answer, and every byte of the output afterwards.
fn hold<A: fmt::Debug + PartialEq>(
    call: &str,
    trace: &[u8],
    output: &[u8],
    flush: Flush,
    (given, given_left): (A, &[u8]),
    (due, left): &(A, Vec<u8>),
    (plain, plain_left): &(A, Vec<u8>),
) {
    assert!(
        given == *due && plain == due,
        "{call}({}, room {}), flush at the {flush:?}: the engine gives {given:?}, the model \
         {due:?}, the plain implementation {plain:?}",
        Shown(trace),
        output.len()
    );
    assert!(
        given_left == left && plain_left == left,
        "{call}({}, room {}), flush at the {flush:?}: the output was {}; the engine leaves {}, \
         the model {}, the plain implementation {}",
        Shown(trace),
        output.len(),
        Shown(output),
        Shown(given_left),
        Shown(left),
        Shown(plain_left)
    );
}

/// The memory that is lent for claims.
pub struct Lent {
    pub list: Guarded,
    pub scratch: Guarded,
}

impl Lent {
    /// For lists of as many claims.
    pub fn new(longest: usize) -> Self {
        Self { list: Guarded::new(2 * longest), scratch: Guarded::new(0) }
    }

    /// Calls the engine on copies of list and scratch, flush with a guard, and
    /// shows what it left of both.
    pub fn call(
        &mut self,
        form: Form,
        settings: Settings,
        n: u16,
        list: &[u16],
        scratch: &[u8],
        flush: Flush,
    ) -> (ClaimsAnswer, &[u16], &[u8]) {
        let left = self.scratch.bytes(scratch, flush);
        let read = self.list.numbers(list, flush);
        (form.claims(settings, n, read, left), read, left)
    }
}

/// The memory that is lent for a call on a trace: the trace, which is only read, and the
/// output.
pub struct LentTrace {
    pub trace: Guarded,
    pub output: Guarded,
}

impl LentTrace {
    /// For every trace, and for a file or an output that is twice as long.
    pub fn new() -> Self {
        Self { trace: Guarded::new(131_072), output: Guarded::new(131_072) }
    }

    /// Replays a copy of a trace into a copy of an output, both flush with a guard, and
    /// shows what the engine left of the output. It leaves the trace as it was.
    pub fn replay(&mut self, trace: &[u8], output: &[u8], flush: Flush) -> (ReplayAnswer, &[u8]) {
        self.call(trace, output, flush, replay)
    }

    /// The same for the writing of a trace.
    pub fn trace_write(
        &mut self,
        trace: &[u8],
        output: &[u8],
        flush: Flush,
    ) -> (WriteAnswer, &[u8]) {
        self.call(trace, output, flush, trace_write)
    }

    /// The same for a record, without an output.
    pub fn record(&mut self, trace: &[u8], next: usize, flush: Flush) -> RecordAnswer {
        self.call(trace, &[], flush, |read, _| record(read, next)).0
    }

    /// The same for the sizing of a replay.
    pub fn replay_size(&mut self, trace: &[u8], flush: Flush) -> ReplaySizeAnswer {
        self.call(trace, &[], flush, |read, _| replay_size(read)).0
    }

    fn call<A>(
        &mut self,
        trace: &[u8],
        output: &[u8],
        flush: Flush,
        call: impl Fn(&[u8], &mut [u8]) -> A,
    ) -> (A, &[u8]) {
        let left = self.output.bytes(output, flush);
        let read: &[u8] = self.trace.bytes(trace, flush);
        let answer = call(read, left);
        assert!(black_box(read) == trace, "a call wrote the trace {}", Shown(trace));
        (answer, left)
    }

    /// The answer of calls on a trace in memory that ends the test when it is written.
    pub fn read_only<A>(
        &mut self,
        trace: &[u8],
        output: &[u8],
        flush: Flush,
        call: impl Fn(&[u8], &mut [u8]) -> A,
    ) -> A {
        let left = self.output.bytes(output, flush);
        call(self.trace.bytes_to_read(trace, flush), left)
    }
}

impl Default for LentTrace {
    fn default() -> Self {
        Self::new()
    }
}

/// A C call that reads a trace and writes an output.
type OnTrace<A> = unsafe extern "C" fn(*const u8, usize, *mut u8, usize) -> A;

/// Memory in which a trace and an output are lent that overlap.
pub struct Overlapping(Guarded);

impl Overlapping {
    pub fn new() -> Self {
        Self(Guarded::new(1))
    }

    /// Makes a call on a trace and an output that share at least a byte, and says whether
    /// it wrote. It writes nothing outside of the output. Both lie in a stretch that is
    /// flush with a guard: the trace at its start, its end or in between, the output
    /// anywhere.
    pub fn call<A>(
        &mut self,
        trace: &[u8],
        room: usize,
        random: &mut Random,
        call: OnTrace<A>,
    ) -> bool {
        let Self(memory) = self;
        let stretch = trace.len() + room - 1;
        let start = match random.one_of(&BOTH) {
            Flush::Start => 0,
            Flush::End => memory.all().len() - stretch,
        };
        let trace_at = start + random.one_of(&[0, room - 1, (room - 1) / 2]);
        let out_at = start + random.below(trace.len());
        let all = memory.all();
        all[trace_at..][..trace.len()].copy_from_slice(trace);
        let before = all.to_vec();
        let memory_start = all.as_mut_ptr();
        // SAFETY: both lie within the memory, which nothing else uses meanwhile.
        unsafe {
            let (file, out) = (memory_start.add(trace_at), memory_start.add(out_at));
            call(file, trace.len(), out, room);
        }
        let all = memory.all();
        let may_change = out_at..out_at + room;
        assert!(
            all[..may_change.start] == before[..may_change.start]
                && all[may_change.end..] == before[may_change.end..],
            "a call on {} bytes at {trace_at} with {room} at {out_at} wrote beyond {may_change:?}",
            trace.len()
        );
        all[may_change.clone()] != before[may_change]
    }
}

impl Default for Overlapping {
    fn default() -> Self {
        Self::new()
    }
}

/// The plain implementation's replay, with the windows it leaves.
pub fn plain_replay_on(trace: &[u8], output: &mut [u8]) -> ReplayAnswer {
    let (out, room) = (output.as_mut_ptr(), output.len());
    // SAFETY: each slice is lent with its own length, and by their types the two
    // do not overlap.
    unsafe { plain_replay(trace.as_ptr(), trace.len(), out, room) }
}

/// The plain implementation's writing of a trace, with what it leaves in the output.
pub fn plain_trace_write_on(trace: &[u8], output: &mut [u8]) -> WriteAnswer {
    let (out, room) = (output.as_mut_ptr(), output.len());
    // SAFETY: each slice is lent with its own length, and by their types the two
    // do not overlap.
    unsafe { plain_trace_write(trace.as_ptr(), trace.len(), out, room) }
}

/// The plain implementation's answer about a record.
pub fn plain_record_of(trace: &[u8], next: usize) -> RecordAnswer {
    // SAFETY: the trace is lent with its length.
    unsafe { plain_record(trace.as_ptr(), trace.len(), next) }
}

/// The plain implementation's sizing of a replay.
pub fn plain_replay_size_of(trace: &[u8]) -> ReplaySizeAnswer {
    // SAFETY: the trace is lent with its length.
    unsafe { plain_replay_size(trace.as_ptr(), trace.len()) }
}

/// The plain implementation's answer to a command, with what it leaves in the block.
pub fn plain_command_on(handset: Handset, block: &mut [u8]) -> CommandAnswer {
    // SAFETY: the block is lent with its length.
    unsafe { plain_command(handset, block.as_mut_ptr(), block.len()) }
}

/// The plain implementation's answer to a feed.
pub fn plain_feed(handset: Handset, heard: impl Into<Heard>) -> Fed {
    match heard.into() {
        Heard::Nothing => plain_feed_nothing(handset),
        Heard::Grant(Grant { blocks, first, second, cce, dai }) => {
            plain_feed_grant(handset, blocks, first, second, cce, dai)
        }
        Heard::Block(Block { blocks, first, second }) => {
            plain_feed_scheduled(handset, blocks, first, second)
        }
        Heard::Release(Release { cce, dai }) => plain_feed_release(handset, cce, dai),
    }
}

/// The confirmed blocks by the plain implementation.
pub fn plain_confirmed_of(exchange: Exchange) -> ConfirmedAnswer {
    let Exchange { settings, n, sent, resource, b0, b1 } = exchange;
    plain_confirmed(settings, n, sent, resource, b0, b1)
}

/// A credit by the plain implementation.
pub fn plain_credit_of(exchange: Exchange, account: Account) -> CreditAnswer {
    let Exchange { settings, n, sent, resource, b0, b1 } = exchange;
    plain_credit(settings, n, sent, resource, b0, b1, account)
}

/// The numbers of a list in a message: all of a short one, the first of a long one.
pub struct Shown<'a, T>(pub &'a [T]);

impl<T: fmt::Debug> fmt::Display for Shown<'_, T> {
    fn fmt(&self, f: &mut fmt::Formatter) -> fmt::Result {
        let Self(list) = self;
        let first = &list[..list.len().min(1300)];
        write!(f, "{} numbers {first:?}", list.len())?;
        write!(f, "{}", if first.len() < list.len() { " and so on" } else { "" })
    }
}
