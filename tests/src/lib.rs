//! The feedback engine as a C caller sees it, and what its answers are held to.
//!
//! This file declares the engine's C calls, as in `include/feedback.h`, and
//! wraps them for Rust; [`types`] has their structs. [`model`] is a second
//! implementation of the same rules, made to be plainly right; [`plain`] is a
//! third, made to be fast, the measure in the benchmark and in the fuzzing.
//! [`compare`] holds the engine to the model, answer by answer, on inputs in every
//! combination ([`every`]) or at random ([`random`]), and on memory that is lent
//! from [`guarded`]. [`form`] has the two forms in which claims are checked. [`trace`]
//! builds recorded drives as bytes. [`fates`] sends, loses and decodes what a window brings,
//! [`silences`] tells why a window is silent, in wrong ways too, [`charging`] builds what a
//! credit is given, [`registers`] has the places and flags of a register block, and wrong ways
//! to carry out its commands, and [`sizings`] wrong ways to size a replay. [`vectors`] reads
//! the cases that come with the requests.

pub mod charging;
pub mod compare;
pub mod every;
pub mod fates;
pub mod form;
pub mod guarded;
pub mod model;
pub mod plain;
pub mod random;
pub mod registers;
pub mod silences;
pub mod sizings;
pub mod trace;
pub mod types;
pub mod vectors;

pub use types::{
    Account, AnsweredAnswer, Block, Changed, ClaimsAnswer, CommandAnswer, ConfirmedAnswer,
    CreditAnswer, Exchange, Fed, GameAnswer, Grant, Handset, Heard, InverseAnswer, Made, Opened,
    ReadingAnswer, RecordAnswer, Release, ReplayAnswer, ReplaySizeAnswer, ResourceAnswer, Sent,
    SentWindow, Settings, SilenceAnswer, Sizes, Slot, Step, WindowAnswer, WriteAnswer, NONE,
    NOT_TOLD,
};

/// The engine's calls under their C names.
pub mod c {
    use super::{
        Account, AnsweredAnswer, Changed, ClaimsAnswer, CommandAnswer, ConfirmedAnswer,
        CreditAnswer, Fed, GameAnswer, Handset, InverseAnswer, Made, Opened, ReadingAnswer,
        RecordAnswer, ReplayAnswer, ReplaySizeAnswer, ResourceAnswer, SentWindow, Settings,
        SilenceAnswer, WindowAnswer, WriteAnswer,
    };

    extern "C" {
        pub fn feedback_layout_5() -> u16;

        pub fn feedback_window(settings: Settings, n: u16) -> WindowAnswer;

        pub fn feedback_answered(settings: Settings, subframe: u16) -> AnsweredAnswer;

        pub fn feedback_resource(
            settings: Settings,
            n: u16,
            position: u16,
            cce: u16,
        ) -> ResourceAnswer;

        pub fn feedback_inverse(settings: Settings, n: u16, resource: u16) -> InverseAnswer;

        pub fn feedback_reading(
            settings: Settings,
            n: u16,
            scheduled_position: u16,
            resource: u16,
            b0: u16,
            b1: u16,
        ) -> ReadingAnswer;

        pub fn feedback_claims(
            settings: Settings,
            n: u16,
            claims: *const u16,
            count: usize,
            scratch: *mut u8,
            room: usize,
        ) -> ClaimsAnswer;

        pub fn feedback_claims_bits(
            settings: Settings,
            n: u16,
            claims: *const u16,
            count: usize,
            scratch: *mut u8,
            room: usize,
        ) -> ClaimsAnswer;

        pub fn feedback_make(settings: Settings) -> Made;

        pub fn feedback_feed_nothing(handset: Handset) -> Fed;

        pub fn feedback_silence(handset: Handset) -> SilenceAnswer;

        pub fn feedback_feed_grant(
            handset: Handset,
            blocks: u16,
            first: u16,
            second: u16,
            cce: u16,
            dai: u16,
        ) -> Fed;

        pub fn feedback_feed_scheduled(
            handset: Handset,
            blocks: u16,
            first: u16,
            second: u16,
        ) -> Fed;

        pub fn feedback_feed_release(handset: Handset, cce: u16, dai: u16) -> Fed;

        pub fn feedback_change_mode(handset: Handset, mode: u16) -> Changed;

        pub fn feedback_replay(
            trace: *const u8,
            length: usize,
            out: *mut u8,
            room: usize,
        ) -> ReplayAnswer;

        pub fn feedback_replay_size(trace: *const u8, length: usize) -> ReplaySizeAnswer;

        pub fn feedback_record(trace: *const u8, length: usize, next: usize) -> RecordAnswer;

        pub fn feedback_trace_write(
            trace: *const u8,
            length: usize,
            out: *mut u8,
            room: usize,
        ) -> WriteAnswer;

        pub fn feedback_confirmed(
            settings: Settings,
            n: u16,
            sent: SentWindow,
            resource: u16,
            b0: u16,
            b1: u16,
        ) -> ConfirmedAnswer;

        pub fn feedback_open_account(price: u32) -> Opened;

        pub fn feedback_credit(
            settings: Settings,
            n: u16,
            sent: SentWindow,
            resource: u16,
            b0: u16,
            b1: u16,
            account: Account,
        ) -> CreditAnswer;

        pub fn feedback_game(size: u16, grants: u16, losses: u16) -> GameAnswer;

        pub fn feedback_command(handset: Handset, block: *mut u8, length: usize) -> CommandAnswer;
    }
}

/// The number of the structs' layout.
pub fn layout_5() -> u16 {
    // SAFETY: the call gives a number, and is lent no memory.
    unsafe { c::feedback_layout_5() }
}

/// The engine's window of uplink subframe `n`.
pub fn window(settings: Settings, n: u16) -> WindowAnswer {
    // SAFETY: the call takes numbers and gives numbers, and is lent no memory.
    unsafe { c::feedback_window(settings, n) }
}

/// The engine's uplink subframe that answers for a downlink one.
pub fn answered(settings: Settings, subframe: u16) -> AnsweredAnswer {
    // SAFETY: the call takes numbers and gives numbers, and is lent no memory.
    unsafe { c::feedback_answered(settings, subframe) }
}

/// The engine's resource of a position and first CCE in the window of `n`, and with two
/// ports that of the second.
pub fn resource(settings: Settings, n: u16, position: u16, cce: u16) -> ResourceAnswer {
    // SAFETY: the call takes numbers and gives numbers, and is lent no memory.
    unsafe { c::feedback_resource(settings, n, position, cce) }
}

/// The engine's position and first CCE of a resource in the window of `n`.
pub fn inverse(settings: Settings, n: u16, resource: u16) -> InverseAnswer {
    // SAFETY: the call takes numbers and gives numbers, and is lent no memory.
    unsafe { c::feedback_inverse(settings, n, resource) }
}

/// The engine's reading of two bits on a resource in subframe `n`; it is told the
/// position of the scheduled block that was sent, if one was.
pub fn reading(
    settings: Settings,
    n: u16,
    told: u16,
    resource: u16,
    b0: u16,
    b1: u16,
) -> ReadingAnswer {
    // SAFETY: the call takes numbers and gives numbers, and is lent no memory.
    unsafe { c::feedback_reading(settings, n, told, resource, b0, b1) }
}

/// The engine's answer to the claims for subframe `n`, with the marks it leaves
/// in the scratch.
pub fn claims(settings: Settings, n: u16, claims: &[u16], scratch: &mut [u8]) -> ClaimsAnswer {
    let (list, count) = (claims.as_ptr(), claims.len());
    let (marks, room) = (scratch.as_mut_ptr(), scratch.len());
    // SAFETY: each slice is lent with its own length, the list to be read and the
    // scratch to be written, and by their types the two do not overlap.
    unsafe { c::feedback_claims(settings, n, list, count, marks, room) }
}

/// The same with a bit of the scratch for each resource.
pub fn claims_bits(settings: Settings, n: u16, claims: &[u16], scratch: &mut [u8]) -> ClaimsAnswer {
    let (list, count) = (claims.as_ptr(), claims.len());
    let (marks, room) = (scratch.as_mut_ptr(), scratch.len());
    // SAFETY: each slice is lent with its own length, the list to be read and the
    // scratch to be written, and by their types the two do not overlap.
    unsafe { c::feedback_claims_bits(settings, n, list, count, marks, room) }
}

/// The engine's fresh handset.
pub fn make(settings: Settings) -> Made {
    // SAFETY: the call takes numbers and gives numbers, and is lent no memory.
    unsafe { c::feedback_make(settings) }
}

/// The engine's answer to what the next subframe of a handset heard.
pub fn feed(handset: Handset, heard: impl Into<Heard>) -> Fed {
    match heard.into() {
        Heard::Nothing => feed_nothing(handset),
        Heard::Grant(grant) => feed_grant(handset, grant),
        Heard::Block(block) => feed_scheduled(handset, block),
        Heard::Release(release) => feed_release(handset, release),
    }
}

/// The engine's answer when the next subframe of a handset heard nothing.
pub fn feed_nothing(handset: Handset) -> Fed {
    // SAFETY: the call takes numbers and gives numbers, and is lent no memory.
    unsafe { c::feedback_feed_nothing(handset) }
}

/// The engine's answer when the next subframe of a handset heard nothing, and beside a silent
/// one its cause.
pub fn silence(handset: Handset) -> SilenceAnswer {
    // SAFETY: the call takes numbers and gives numbers, and is lent no memory.
    unsafe { c::feedback_silence(handset) }
}

/// The engine's answer when the next subframe of a handset heard a grant.
pub fn feed_grant(handset: Handset, grant: Grant) -> Fed {
    let Grant { blocks, first, second, cce, dai } = grant;
    // SAFETY: the call takes numbers and gives numbers, and is lent no memory.
    unsafe { c::feedback_feed_grant(handset, blocks, first, second, cce, dai) }
}

/// The engine's answer when the next subframe of a handset heard a scheduled block.
pub fn feed_scheduled(handset: Handset, block: Block) -> Fed {
    let Block { blocks, first, second } = block;
    // SAFETY: the call takes numbers and gives numbers, and is lent no memory.
    unsafe { c::feedback_feed_scheduled(handset, blocks, first, second) }
}

/// The engine's answer when the next subframe of a handset heard a release.
pub fn feed_release(handset: Handset, release: Release) -> Fed {
    let Release { cce, dai } = release;
    // SAFETY: the call takes numbers and gives numbers, and is lent no memory.
    unsafe { c::feedback_feed_release(handset, cce, dai) }
}

/// The engine's answer to another mode for a handset, between two feeds.
pub fn change_mode(handset: Handset, mode: u16) -> Changed {
    // SAFETY: the call takes numbers and gives numbers, and is lent no memory.
    unsafe { c::feedback_change_mode(handset, mode) }
}

/// The engine's replay of a trace, with the windows it leaves in the output.
pub fn replay(trace: &[u8], output: &mut [u8]) -> ReplayAnswer {
    let (file, length) = (trace.as_ptr(), trace.len());
    let (out, room) = (output.as_mut_ptr(), output.len());
    // SAFETY: each slice is lent with its own length, the trace to be read and the
    // output to be written, and by their types the two do not overlap.
    unsafe { c::feedback_replay(file, length, out, room) }
}

/// The engine's windows and bytes that a replay of a trace will write.
pub fn replay_size(trace: &[u8]) -> ReplaySizeAnswer {
    // SAFETY: the trace is lent with its length, to be read.
    unsafe { c::feedback_replay_size(trace.as_ptr(), trace.len()) }
}

/// The engine's answer about the record of a number, from 0, of a trace.
pub fn record(trace: &[u8], next: usize) -> RecordAnswer {
    // SAFETY: the trace is lent with its length, to be read.
    unsafe { c::feedback_record(trace.as_ptr(), trace.len(), next) }
}

/// The engine's answer to writing a trace in its one spelling, with what it leaves in the
/// output.
pub fn trace_write(trace: &[u8], output: &mut [u8]) -> WriteAnswer {
    let (file, length) = (trace.as_ptr(), trace.len());
    let (out, room) = (output.as_mut_ptr(), output.len());
    // SAFETY: each slice is lent with its own length, the trace to be read and the
    // output to be written, and by their types the two do not overlap.
    unsafe { c::feedback_trace_write(file, length, out, room) }
}

/// The engine's confirmed blocks of what was sent in a window and the reply.
pub fn confirmed(exchange: Exchange) -> ConfirmedAnswer {
    let Exchange { settings, n, sent, resource, b0, b1 } = exchange;
    // SAFETY: the call takes numbers and gives numbers, and is lent no memory.
    unsafe { c::feedback_confirmed(settings, n, sent, resource, b0, b1) }
}

/// The engine's new account of a price.
pub fn open_account(price: u32) -> Opened {
    // SAFETY: the call takes a number and gives numbers, and is lent no memory.
    unsafe { c::feedback_open_account(price) }
}

/// The engine's credit of what was sent in a window and the reply, on an account.
pub fn credit(exchange: Exchange, account: Account) -> CreditAnswer {
    let Exchange { settings, n, sent, resource, b0, b1 } = exchange;
    // SAFETY: the call takes numbers and gives numbers, and is lent no memory.
    unsafe { c::feedback_credit(settings, n, sent, resource, b0, b1, account) }
}

/// The engine's answer about the game of a scheduler and the radio in a window of `size`
/// subframes, with so many grants and at most so many losses.
pub fn game(size: u16, grants: u16, losses: u16) -> GameAnswer {
    // SAFETY: the call takes numbers and gives numbers, and is lent no memory.
    unsafe { c::feedback_game(size, grants, losses) }
}

/// The engine's answer to the command of a register block, behind which a handset is mapped, with
/// what it leaves in the block.
pub fn command(handset: Handset, block: &mut [u8]) -> CommandAnswer {
    // SAFETY: the block is lent with its own length, to be written.
    unsafe { c::feedback_command(handset, block.as_mut_ptr(), block.len()) }
}
