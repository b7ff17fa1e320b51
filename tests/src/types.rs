//! The structs of the C calls, as in `include/feedback.h`.

/// Stands for none: no scheduled resource is set.
pub const NONE: u16 = 65535;

/// Stands for none: no scheduled position is told to a reading.
pub const NOT_TOLD: u16 = 65535;

/// The settings of a cell: raw numbers, of which a call refuses what is not allowed.
#[repr(C)]
#[derive(Clone, Copy, Debug, PartialEq, Eq)]
pub struct Settings {
    pub config: u16,
    pub nrb: u16,
    pub n1: u16,
    pub mode: u16,
    pub blocks: u16,
    pub scheduled: u16,
    pub prefix: u16,
    pub special: u16,
    pub ports: u16,
}

impl Settings {
    /// The settings that 01 names; what later papers add is as before: no scheduled
    /// resource, special subframes that are long enough for data, and one antenna port.
    pub const fn plain(config: u16, nrb: u16, n1: u16, mode: u16, blocks: u16) -> Self {
        Self { config, nrb, n1, mode, blocks, scheduled: NONE, prefix: 0, special: 7, ports: 1 }
    }

    /// The same with a scheduled resource.
    pub const fn with_scheduled(self, scheduled: u16) -> Self {
        Self { scheduled, ..self }
    }

    /// The same with a prefix and a special configuration.
    pub const fn with_special(self, prefix: u16, special: u16) -> Self {
        Self { prefix, special, ..self }
    }

    /// The same with a number of antenna ports.
    pub const fn with_ports(self, ports: u16) -> Self {
        Self { ports, ..self }
    }

    /// Settings with all causes of a refusal at once, and the same with one after another
    /// put right, in the order of the refusals: each with the refusal that it meets first.
    /// The last two are accepted, with 0, and have one port: special subframes too short for
    /// data, and long enough for it.
    pub const fn one_cause_less() -> [(u16, Self); 14] {
        let all = Self::plain(7, 5, 2048, 2, 0).with_scheduled(65_534).with_special(2, 9);
        let all = all.with_ports(3);
        let nrb = Self { config: 5, ..all };
        let n1 = Self { nrb: 6, ..nrb };
        let mode = Self { n1: 2047, ..n1 };
        let multiplexing = Self { mode: 1, ..mode };
        let blocks = Self { mode: 0, ..multiplexing };
        let scheduled = Self { blocks: 1, ..blocks };
        let prefix = Self { scheduled: 2046, ..scheduled };
        let special = Self { prefix: 1, ..prefix };
        let later_release = Self { special: 7, ..special };
        let three_ports = Self { special: 4, ..later_release };
        let two_and_scheduled = Self { ports: 2, ..three_ports };
        let short = Self { scheduled: NONE, ports: 1, ..two_and_scheduled };
        let long = Self { special: 5, ..short };
        [
            (1, all),
            (2, nrb),
            (3, n1),
            (4, mode),
            (5, multiplexing),
            (6, blocks),
            (17, scheduled),
            (19, prefix),
            (19, special),
            (19, later_release),
            (24, three_ports),
            (24, two_and_scheduled),
            (0, short),
            (0, long),
        ]
    }
}

/// The window of an uplink subframe: a refusal, or 0 and M, K in the print's
/// order and its positions in time order, earliest first. What is not of the
/// window is 0.
#[repr(C)]
#[derive(Clone, Copy, Debug, PartialEq, Eq)]
pub struct WindowAnswer {
    pub refusal: u16,
    pub size: u16,
    pub k: [u16; 9],
    pub order: [u16; 9],
}

/// The answer for a downlink subframe: a refusal, or 0 and the uplink subframe
/// that answers for it, `k` subframes later, and its position in the window there.
#[repr(C)]
#[derive(Clone, Copy, Debug, PartialEq, Eq)]
pub struct AnsweredAnswer {
    pub refusal: u16,
    pub n: u16,
    pub k: u16,
    pub position: u16,
}

/// The answer of the resource call: a refusal, or 0 and the resource of the first port,
/// and with two ports that of the second, which is 0 with one.
#[repr(C)]
#[derive(Clone, Copy, Debug, PartialEq, Eq)]
pub struct ResourceAnswer {
    pub refusal: u16,
    pub resource: u16,
    pub second: u16,
}

/// The answer of the inverse: a refusal, or 0 and the position and first CCE.
#[repr(C)]
#[derive(Clone, Copy, Debug, PartialEq, Eq)]
pub struct InverseAnswer {
    pub refusal: u16,
    pub position: u16,
    pub cce: u16,
}

/// The answer of the station's reading: a refusal, or 0 and the position and
/// first CCE, or the position of the scheduled block (`scheduled` 1), with the
/// ACK bits of a bundled reply (kind 1) or the positions delivered by a
/// multiplexed one (kind 2; bit p for position p). What is not of the kind is 0,
/// and a scheduled block has no CCE.
#[repr(C)]
#[derive(Clone, Copy, Debug, PartialEq, Eq)]
pub struct ReadingAnswer {
    pub refusal: u16,
    pub kind: u16,
    pub position: u16,
    pub cce: u16,
    pub b0: u16,
    pub b1: u16,
    pub delivered: u16,
    pub scheduled: u16,
}

/// The answer about the claims of a cell: a refusal (kind 0), with the index of
/// the first bad claim where that is the cause, clean (1), or the index of the
/// first claim that has a resource of an earlier one (2).
#[repr(C)]
#[derive(Clone, Copy, Debug, PartialEq, Eq)]
pub struct ClaimsAnswer {
    pub refusal: u16,
    pub kind: u16,
    pub index: u64,
}

/// What a handset remembers of one subframe, or a record of a trace has: nothing (kind 0), a grant (1) with
/// its results, a scheduled block (2) with its results and no CCE or DAI, or a
/// release (3) with its CCE and DAI and no results. Of the results bit 0 says if
/// the first block was decoded, bit 1 if the second was, bit 2 if two were carried.
#[repr(C)]
#[derive(Clone, Copy, Debug, PartialEq, Eq)]
pub struct Slot {
    pub kind: u8,
    pub cce: u8,
    pub dai: u8,
    pub results: u8,
}

/// A running handset: its settings, the subframe it expects, the modes that stood at
/// the last 13 feeds, bit i at the one i + 1 ago, and what these heard, newest first.
/// Bits 13 to 15 say nothing.
#[repr(C)]
#[derive(Clone, Copy, Debug, PartialEq, Eq)]
pub struct Handset {
    pub settings: Settings,
    pub next: u16,
    pub modes: u16,
    pub past: [Slot; 13],
}

/// The answer of making a handset: a refusal, or 0 and the handset.
#[repr(C)]
#[derive(Clone, Copy, Debug, PartialEq, Eq)]
pub struct Made {
    pub refusal: u16,
    pub handset: Handset,
}

/// The answer of a mode change: a refusal, or 0; and the handset afterwards.
#[repr(C)]
#[derive(Clone, Copy, Debug, PartialEq, Eq)]
pub struct Changed {
    pub refusal: u16,
    pub handset: Handset,
}

/// The answer of a feed: refused (kind 0), a bundled reply (1) or a multiplexed
/// one (2) with its resource and bits, silent (3), taken (4) or no window (5);
/// the resource of the second port of a reply with two ports, else 0; and the handset
/// afterwards.
#[repr(C)]
#[derive(Clone, Copy, Debug, PartialEq, Eq)]
pub struct Fed {
    pub refusal: u16,
    pub kind: u16,
    pub resource: u16,
    pub b0: u16,
    pub b1: u16,
    pub second: u16,
    pub handset: Handset,
}

/// The answer about a silence: what a feed of nothing answers, and beside a silent answer its
/// cause, nothing heard in the window (1) or a miss shown (2), with V and the value expected.
/// Beside any other answer, a refusal too, the cause is 0; V and the value expected are 0 but
/// for a miss.
#[repr(C)]
#[derive(Clone, Copy, Debug, PartialEq, Eq)]
pub struct SilenceAnswer {
    pub fed: Fed,
    pub cause: u16,
    pub v: u16,
    pub expected: u16,
}

/// The answer about the game of a scheduler and the radio: a refusal, or 0 and 1 if the radio
/// can force a reply that hides a loss, 0 if the scheduler can prevent it. Beside a refusal
/// `radio` is 0.
#[repr(C)]
#[derive(Clone, Copy, Debug, PartialEq, Eq)]
pub struct GameAnswer {
    pub refusal: u16,
    pub radio: u16,
}

/// The answer of a command of a register block: a refusal, or 0; 1 if the interrupt line is high
/// afterwards, else 0; and the handset afterwards, which a refusal leaves. Beside a block that has
/// not 16 bytes the line is 0.
#[repr(C)]
#[derive(Clone, Copy, Debug, PartialEq, Eq)]
pub struct CommandAnswer {
    pub refusal: u16,
    pub line: u16,
    pub handset: Handset,
}

/// The answer of a replay: refused before any record (kind 0), done (1), or stopped at
/// the record whose feed is refused (2), with that record's number; and how many
/// windows were written.
#[repr(C)]
#[derive(Clone, Copy, Debug, PartialEq, Eq)]
pub struct ReplayAnswer {
    pub refusal: u16,
    pub kind: u16,
    pub record: u16,
    pub windows: u16,
}

/// The answer of sizing a replay: a refusal, or 0 and how many windows the records of the header
/// complete, and how many bytes of output they take. Beside a refusal both are 0.
#[repr(C)]
#[derive(Clone, Copy, Debug, PartialEq, Eq)]
pub struct ReplaySizeAnswer {
    pub refusal: u16,
    pub windows: u16,
    pub bytes: u32,
}

/// The answer of writing a trace: refused, and by no record (kind 0), done (1), or
/// stopped by the record at which a replay would stop (2), with that record's number; and
/// how many bytes were written.
#[repr(C)]
#[derive(Clone, Copy, Debug, PartialEq, Eq)]
pub struct WriteAnswer {
    pub refusal: u16,
    pub kind: u16,
    pub record: u16,
    pub bytes: u16,
}

/// The answer about a record of a trace: refused (kind 0), the record (1), in which
/// what its kind does not use is 0, or no such record (2).
#[repr(C)]
#[derive(Clone, Copy, Debug, PartialEq, Eq)]
pub struct RecordAnswer {
    pub refusal: u16,
    pub kind: u16,
    pub slot: Slot,
}

/// What was sent at a position of a window: a grant (signalled, with blocks), a release
/// (signalled, without), a scheduled block (not signalled, with blocks) or nothing. Signalled
/// is every number but 0. First CCE and DAI are those of a PDCCH, and each block carried has
/// its I_TBS and N_PRB; what a kind has not is not looked at.
#[repr(C)]
#[derive(Clone, Copy, Debug, PartialEq, Eq)]
pub struct Sent {
    pub signalled: u16,
    pub blocks: u16,
    pub cce: u16,
    pub dai: u16,
    pub itbs0: u16,
    pub nprb0: u16,
    pub itbs1: u16,
    pub nprb1: u16,
}

/// What was sent in a window, by position. Entries that the window has no position for are
/// not looked at.
#[repr(C)]
#[derive(Clone, Copy, Debug, PartialEq, Eq)]
pub struct SentWindow {
    pub at: [Sent; 9],
}

/// An account: the octets credited and what was charged for them, in smallest coins; the
/// price of a million octets, and what is carried on to the next coin, in millionths.
#[repr(C)]
#[derive(Clone, Copy, Debug, PartialEq, Eq)]
pub struct Account {
    pub octets: u64,
    pub charged: u64,
    pub price: u32,
    pub carry: u32,
}

/// The answer of opening an account: a refusal, or 0; and the account, new and at this price.
#[repr(C)]
#[derive(Clone, Copy, Debug, PartialEq, Eq)]
pub struct Opened {
    pub refusal: u16,
    pub account: Account,
}

/// The answer about confirmed blocks: a refusal, or 0 and the positions at which the first
/// block, or the only one, is confirmed, and those at which the second is; bit p for
/// position p.
#[repr(C)]
#[derive(Clone, Copy, Debug, PartialEq, Eq)]
pub struct ConfirmedAnswer {
    pub refusal: u16,
    pub first: u16,
    pub second: u16,
}

/// The answer of a credit: a refusal, or 0 and the octets credited; and the account
/// afterwards, which a refusal leaves as it was.
#[repr(C)]
#[derive(Clone, Copy, Debug, PartialEq, Eq)]
pub struct CreditAnswer {
    pub refusal: u16,
    pub octets: u32,
    pub account: Account,
}

/// What went both ways in a window, as a station knows it: what it sent, and the reply that it
/// heard. These are the arguments of the call for confirmed blocks, and with an account those
/// of a credit.
#[derive(Clone, Copy, Debug, PartialEq, Eq)]
pub struct Exchange {
    pub settings: Settings,
    pub n: u16,
    pub sent: SentWindow,
    pub resource: u16,
    pub b0: u16,
    pub b1: u16,
}

/// A grant as the arguments of a feed name it: raw numbers, of which the feed
/// refuses what is not allowed. A block was decoded unless its number is 0.
#[derive(Clone, Copy, Debug, PartialEq, Eq)]
pub struct Grant {
    pub blocks: u16,
    pub first: u16,
    pub second: u16,
    pub cce: u16,
    pub dai: u16,
}

/// A scheduled block as the arguments of a feed name it: it comes without a PDCCH,
/// and so without CCE and DAI.
#[derive(Clone, Copy, Debug, PartialEq, Eq)]
pub struct Block {
    pub blocks: u16,
    pub first: u16,
    pub second: u16,
}

/// The PDCCH that ends a schedule, as the arguments of a feed name it.
#[derive(Clone, Copy, Debug, PartialEq, Eq)]
pub struct Release {
    pub cce: u16,
    pub dai: u16,
}

/// What a subframe brings to a handset: one feed for each.
#[derive(Clone, Copy, Debug, PartialEq, Eq)]
pub enum Heard {
    Nothing,
    Grant(Grant),
    Block(Block),
    Release(Release),
}

/// One step of a run: a feed, or a mode change between two feeds.
#[derive(Clone, Copy, Debug, PartialEq, Eq)]
pub enum Step {
    Feed(Heard),
    Change(u16),
}

/// Where there is no schedule, a subframe brings a grant or nothing.
impl From<Option<Grant>> for Heard {
    fn from(heard: Option<Grant>) -> Self {
        heard.map_or(Self::Nothing, Self::Grant)
    }
}

impl WindowAnswer {
    pub const fn refused(refusal: u16) -> Self {
        Self { refusal, size: 0, k: [0; 9], order: [0; 9] }
    }

    /// A window of these k, in the print's order, with these positions in time order.
    pub fn of(k: &[u16], order: &[u16]) -> Self {
        let mut answer = Self { size: k.len() as u16, ..Self::refused(0) };
        answer.k[..k.len()].copy_from_slice(k);
        answer.order[..k.len()].copy_from_slice(order);
        answer
    }
}

impl AnsweredAnswer {
    pub const fn refused(refusal: u16) -> Self {
        Self { refusal, n: 0, k: 0, position: 0 }
    }

    pub const fn of(n: u16, k: u16, position: u16) -> Self {
        Self { refusal: 0, n, k, position }
    }
}

impl ResourceAnswer {
    pub fn refused(refusal: u16) -> Self {
        Self { refusal, resource: 0, second: 0 }
    }

    /// With one port.
    pub fn of(resource: u16) -> Self {
        Self { resource, ..Self::refused(0) }
    }

    /// With two ports, by the resources of both.
    pub fn of_two(resource: u16, second: u16) -> Self {
        Self { second, ..Self::of(resource) }
    }
}

impl InverseAnswer {
    pub fn refused(refusal: u16) -> Self {
        let (position, cce) = (0, 0);
        Self { refusal, position, cce }
    }

    pub fn of(position: u16, cce: u16) -> Self {
        let refusal = 0;
        Self { refusal, position, cce }
    }
}

impl ReadingAnswer {
    pub fn refused(refusal: u16) -> Self {
        Self { refusal, kind: 0, position: 0, cce: 0, b0: 0, b1: 0, delivered: 0, scheduled: 0 }
    }

    pub fn bundled(position: u16, cce: u16, b0: u16, b1: u16) -> Self {
        Self { kind: 1, position, cce, b0, b1, ..Self::refused(0) }
    }

    pub fn multiplexed(position: u16, cce: u16, delivered: u16) -> Self {
        Self { kind: 2, position, cce, delivered, ..Self::refused(0) }
    }

    /// The same, read as the scheduled block at the position.
    pub fn as_block(self) -> Self {
        Self { cce: 0, scheduled: 1, ..self }
    }
}

impl ClaimsAnswer {
    pub const CLEAN: Self = Self { refusal: 0, kind: 1, index: 0 };

    pub fn clash(index: usize) -> Self {
        Self { refusal: 0, kind: 2, index: index as u64 }
    }

    pub fn refused(refusal: u16, index: usize) -> Self {
        Self { refusal, kind: 0, index: index as u64 }
    }
}

impl ReplayAnswer {
    pub const REFUSED: u16 = 0;
    pub const DONE: u16 = 1;
    pub const STOPPED: u16 = 2;

    pub fn refused(refusal: u16) -> Self {
        Self { refusal, kind: Self::REFUSED, record: 0, windows: 0 }
    }

    pub fn done(windows: usize) -> Self {
        Self { refusal: 0, kind: Self::DONE, record: 0, windows: windows as u16 }
    }

    pub fn stopped(refusal: u16, record: usize, windows: usize) -> Self {
        Self { refusal, kind: Self::STOPPED, record: record as u16, windows: windows as u16 }
    }
}

impl ReplaySizeAnswer {
    pub const fn refused(refusal: u16) -> Self {
        Self { refusal, windows: 0, bytes: 0 }
    }

    pub const fn of(windows: usize, bytes: usize) -> Self {
        Self { refusal: 0, windows: windows as u16, bytes: bytes as u32 }
    }
}

impl WriteAnswer {
    pub const REFUSED: u16 = 0;
    pub const DONE: u16 = 1;
    pub const STOPPED: u16 = 2;

    pub fn refused(refusal: u16) -> Self {
        Self { refusal, kind: Self::REFUSED, record: 0, bytes: 0 }
    }

    pub fn done(bytes: usize) -> Self {
        Self { refusal: 0, kind: Self::DONE, record: 0, bytes: bytes as u16 }
    }

    pub fn stopped(refusal: u16, record: usize) -> Self {
        Self { refusal, kind: Self::STOPPED, record: record as u16, bytes: 0 }
    }
}

/// I_TBS and N_PRB of the first and of the second block that is sent.
pub type Sizes = [(u16, u16); 2];

impl Sent {
    pub const NOTHING: Self =
        Self { signalled: 0, blocks: 0, cce: 0, dai: 0, itbs0: 0, nprb0: 0, itbs1: 0, nprb1: 0 };

    pub const fn grant(blocks: u16, cce: u16, dai: u16, sizes: Sizes) -> Self {
        Self { signalled: 1, cce, dai, ..Self::block(blocks, sizes) }
    }

    pub const fn block(blocks: u16, sizes: Sizes) -> Self {
        let [(itbs0, nprb0), (itbs1, nprb1)] = sizes;
        Self { blocks, itbs0, nprb0, itbs1, nprb1, ..Self::NOTHING }
    }

    pub const fn release(cce: u16, dai: u16) -> Self {
        Self { signalled: 1, cce, dai, ..Self::NOTHING }
    }
}

impl SentWindow {
    pub const NOTHING: Self = Self { at: [Sent::NOTHING; 9] };

    /// These at the first positions, and nothing behind them.
    pub fn of(sent: &[Sent]) -> Self {
        let mut window = Self::NOTHING;
        window.at[..sent.len()].copy_from_slice(sent);
        window
    }
}

impl Account {
    /// The most octets of an account.
    pub const MOST: u64 = 1_000_000_000_000;

    /// The highest price, and how many parts of a coin are carried on as a whole one.
    pub const DEAREST: u32 = 1_000_000;
    pub const WHOLE: u32 = 1_000_000;

    /// One on which nothing was credited.
    pub const fn new(price: u32) -> Self {
        Self { octets: 0, charged: 0, price, carry: 0 }
    }

    /// One with as many octets, by the equation; its price is at most the highest.
    pub fn with(price: u32, octets: u64) -> Self {
        let product = u128::from(octets) * u128::from(price);
        let whole = u128::from(Self::WHOLE);
        let (charged, carry) = ((product / whole) as u64, (product % whole) as u32);
        Self { octets, charged, price, carry }
    }
}

impl ConfirmedAnswer {
    pub const fn refused(refusal: u16) -> Self {
        Self { refusal, first: 0, second: 0 }
    }

    pub const fn of(first: u16, second: u16) -> Self {
        Self { refusal: 0, first, second }
    }
}

impl CreditAnswer {
    pub const fn refused(refusal: u16, account: Account) -> Self {
        Self { refusal, octets: 0, account }
    }

    pub const fn of(octets: u32, account: Account) -> Self {
        Self { refusal: 0, octets, account }
    }
}

impl RecordAnswer {
    pub const END: Self = Self { refusal: 0, kind: 2, slot: Slot::NOTHING };

    pub fn refused(refusal: u16) -> Self {
        Self { refusal, kind: 0, slot: Slot::NOTHING }
    }

    pub fn read(slot: Slot) -> Self {
        Self { refusal: 0, kind: 1, slot }
    }
}

impl Slot {
    pub const NOTHING: Self = Self { kind: 0, cce: 0, dai: 0, results: 0 };

    pub const GRANT: u8 = 1;
    pub const BLOCK: u8 = 2;
    pub const RELEASE: u8 = 3;

    /// Bits of the results.
    pub const FIRST: u8 = 1;
    pub const SECOND: u8 = 2;
    pub const TWO: u8 = 4;

    pub const fn grant(cce: u8, dai: u8, results: u8) -> Self {
        Self { kind: Self::GRANT, cce, dai, results }
    }

    pub const fn block(results: u8) -> Self {
        Self { kind: Self::BLOCK, cce: 0, dai: 0, results }
    }

    pub const fn release(cce: u8, dai: u8) -> Self {
        Self { kind: Self::RELEASE, cce, dai, results: 0 }
    }
}

impl Handset {
    /// What stands beside a refusal to make one: every byte is 0.
    pub const NONE: Self = Self {
        settings: Settings::plain(0, 0, 0, 0, 0).with_scheduled(0).with_special(0, 0).with_ports(0),
        next: 0,
        modes: 0,
        past: [Slot::NOTHING; 13],
    };

    /// A fresh one, which has heard nothing and expects subframe 0. Before the start
    /// stands the mode that it is made with.
    pub fn fresh(settings: Settings) -> Self {
        let modes = if settings.mode == 1 { Self::ALL_MULTIPLEXING } else { 0 };
        Self { settings, modes, ..Self::NONE }
    }

    /// The 13 modes where all of them are multiplexing.
    pub const ALL_MULTIPLEXING: u16 = 8191;

    /// All that the handset is in memory.
    pub fn bytes(self) -> [u8; 74] {
        // SAFETY: a handset is 74 bytes without padding, and any bytes are numbers.
        unsafe { std::mem::transmute(self) }
    }

    /// The handset of these bytes.
    pub fn from_bytes(bytes: [u8; 74]) -> Self {
        // SAFETY: a handset is 74 bytes of numbers, which may have any value.
        unsafe { std::mem::transmute(bytes) }
    }

    /// The same with another standing mode. All else stays, the modes at the feeds too.
    pub fn in_mode(self, mode: u16) -> Self {
        Self { settings: Settings { mode, ..self.settings }, ..self }
    }
}

impl Changed {
    pub fn refused(refusal: u16, handset: Handset) -> Self {
        Self { refusal, handset }
    }

    pub fn to(handset: Handset) -> Self {
        Self { refusal: 0, handset }
    }
}

impl Fed {
    pub const BUNDLED: u16 = 1;
    pub const MULTIPLEXED: u16 = 2;
    pub const SILENT: u16 = 3;
    pub const TAKEN: u16 = 4;
    pub const NO_WINDOW: u16 = 5;

    pub fn refused(refusal: u16, handset: Handset) -> Self {
        Self { refusal, ..Self::answer(0, handset) }
    }

    /// A reply with one port.
    pub fn reply(kind: u16, resource: u16, bits: (u16, u16), handset: Handset) -> Self {
        Self { refusal: 0, kind, resource, b0: bits.0, b1: bits.1, second: 0, handset }
    }

    /// The same with a resource of the second port.
    pub fn with_second(self, second: u16) -> Self {
        Self { second, ..self }
    }

    /// An answer that is no reply.
    pub fn answer(kind: u16, handset: Handset) -> Self {
        Self::reply(kind, 0, (0, 0), handset)
    }
}

impl SilenceAnswer {
    pub const NOT_SILENT: u16 = 0;
    pub const NOTHING_HEARD: u16 = 1;
    pub const MISS_SHOWN: u16 = 2;

    /// Beside an answer that is not silent, or refused.
    pub fn not_silent(fed: Fed) -> Self {
        Self { fed, cause: Self::NOT_SILENT, v: 0, expected: 0 }
    }

    pub fn nothing_heard(fed: Fed) -> Self {
        Self { fed, cause: Self::NOTHING_HEARD, v: 0, expected: 0 }
    }

    pub fn miss_shown(fed: Fed, v: u16, expected: u16) -> Self {
        Self { fed, cause: Self::MISS_SHOWN, v, expected }
    }

    /// Cause, V and the value expected.
    pub fn told(&self) -> [u16; 3] {
        [self.cause, self.v, self.expected]
    }
}

impl GameAnswer {
    pub const fn refused(refusal: u16) -> Self {
        Self { refusal, radio: 0 }
    }

    /// Whether the radio can force it.
    pub fn of(radio_forces: bool) -> Self {
        Self { refusal: 0, radio: radio_forces.into() }
    }
}

impl CommandAnswer {
    /// Beside a refusal, 0 for none, stands whether the line is high.
    pub fn of(refusal: u16, is_high: bool, handset: Handset) -> Self {
        Self { refusal, line: is_high.into(), handset }
    }
}
