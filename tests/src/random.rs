//! Pseudo-random inputs from fixed seeds, the same in every run.

use crate::every::{mixed_cells, SPECIALS};
use crate::model::{edge, is_short, is_uplink, Model, Window, NRB};
use crate::registers::{Written, CLEAR, FEED, NO_COMMAND, SIZE};
use crate::trace::{put_number, record_of, Trace, FIRST_AT};
use crate::{
    Account, Block, Exchange, Grant, Handset, Heard, Release, Sent, SentWindow, Settings, Slot,
    NONE,
};

/// Numbers that are a limit somewhere, lie beside one, or would be allowed if
/// only their low eight bits were read.
const LIMITS: [u16; 32] = [
    0, 1, 2, 3, 4, 5, 6, 7, 8, 9, 10, 13, 14, 50, 110, 111, 133, 134, 135, 255, 256, 257, 258, 306,
    1206, 2046, 2047, 2048, 3252, 3253, 32768, 65535,
];

/// Ways in which a trace lies in its file: whether the records come first, and the gaps.
const ARRANGEMENTS: [(bool, [&[u8]; 3]); 4] = [
    (false, [&[], &[], &[]]),
    (true, [&[], &[], &[]]),
    (false, [&[9], &[255, 4], &[0, 1, 2]]),
    (true, [&[3, 3, 3], &[], &[200]]),
];

/// A xorshift generator.
pub struct Random(u64);

impl Random {
    /// Each seed gives a sequence of its own.
    pub fn new(seed: u64) -> Self {
        let mut random = Self((seed + 1).wrapping_mul(0x9e37_79b9_7f4a_7c15));
        for _ in 0..8 {
            random.number();
        }
        random
    }

    pub fn number(&mut self) -> u64 {
        self.0 ^= self.0 << 13;
        self.0 ^= self.0 >> 7;
        self.0 ^= self.0 << 17;
        self.0
    }

    /// A number below `end`.
    pub fn below(&mut self, end: usize) -> usize {
        ((self.number() >> 32) % end as u64) as usize
    }

    /// A number below `end`, in 16 bits.
    pub fn below16(&mut self, end: u16) -> u16 {
        self.below(end.into()) as u16
    }

    /// True once in `times` on average.
    pub fn once_in(&mut self, times: usize) -> bool {
        self.below(times) == 0
    }

    pub fn one_of<T: Copy>(&mut self, values: &[T]) -> T {
        values[self.below(values.len())]
    }

    pub fn shuffle<T>(&mut self, values: &mut [T]) {
        for end in (1..values.len()).rev() {
            values.swap(end, self.below(end + 1));
        }
    }

    /// Any 16-bit number, every other time one at a limit.
    pub fn any(&mut self) -> u16 {
        match self.once_in(2) {
            true => self.one_of(&LIMITS),
            false => (self.number() >> 32) as u16,
        }
    }

    /// Any byte, every other time a number at a limit cut to its low eight bits.
    pub fn any_byte(&mut self) -> u8 {
        self.any() as u8
    }

    /// The value, or once in `times` any number instead.
    fn unless_once_in(&mut self, times: usize, value: u16) -> u16 {
        match self.once_in(times) {
            true => self.any(),
            false => value,
        }
    }

    /// Settings that are allowed, as 01 has them: what came later is as before.
    pub fn plain_settings(&mut self) -> Settings {
        let config = self.below16(7);
        let nrb = NRB.start() + self.below16(NRB.count() as u16);
        let n1 = self.below16(2048);
        let mode = if config == 5 { 0 } else { self.below16(2) };
        Settings::plain(config, nrb, n1, mode, 1 + self.below16(2))
    }

    /// The same with a scheduled resource.
    pub fn plain_scheduled_settings(&mut self) -> Settings {
        let n1 = 1 + self.below16(2047);
        let scheduled = self.below16(n1);
        Settings { n1, ..self.plain_settings() }.with_scheduled(scheduled)
    }

    /// Settings that are allowed, with any prefix and special configuration, and once in
    /// four with two ports.
    pub fn settings(&mut self) -> Settings {
        match self.once_in(4) {
            true => self.two_port_settings(),
            false => self.one_port_settings(),
        }
    }

    /// The same with one port.
    pub fn one_port_settings(&mut self) -> Settings {
        let (prefix, special) = self.one_of(&SPECIALS);
        self.plain_settings().with_special(prefix, special)
    }

    /// The same with two ports, and so in mode 0.
    pub fn two_port_settings(&mut self) -> Settings {
        Settings { mode: 0, ..self.one_port_settings() }.with_ports(2)
    }

    /// The same with a scheduled resource, and so with one port.
    pub fn scheduled_settings(&mut self) -> Settings {
        let (prefix, special) = self.one_of(&SPECIALS);
        self.plain_scheduled_settings().with_special(prefix, special)
    }

    /// Settings that are allowed and have one port, as in a trace, mostly with a scheduled
    /// resource.
    pub fn mixed_settings(&mut self) -> Settings {
        match self.once_in(3) {
            true => self.one_port_settings(),
            false => self.scheduled_settings(),
        }
    }

    /// Settings of which each number is once in `times` any number. Every other time
    /// they have a scheduled resource, and of the others one in four has two ports.
    pub fn wild_settings(&mut self, times: usize) -> Settings {
        let settings = match self.once_in(2) {
            true => self.settings(),
            false => self.scheduled_settings(),
        };
        let Settings { config, nrb, n1, mode, blocks, scheduled, prefix, special, ports } =
            settings;
        let config = self.unless_once_in(times, config);
        let nrb = self.unless_once_in(times, nrb);
        let n1 = self.unless_once_in(times, n1);
        let wild_mode = self.once_in(8);
        let mode = if wild_mode { self.below16(2) } else { self.unless_once_in(times, mode) };
        let blocks = self.unless_once_in(times, blocks);
        let scheduled = match self.once_in(times) {
            true => self.near_n1(n1),
            false => scheduled,
        };
        let prefix = if self.once_in(times) { self.near(2) } else { prefix };
        let special = if self.once_in(times) { self.near(9) } else { special };
        let ports = if self.once_in(times) { self.near(3) } else { ports };
        let settings = Settings::plain(config, nrb, n1, mode, blocks);
        settings.with_scheduled(scheduled).with_special(prefix, special).with_ports(ports)
    }

    /// A number up to a limit, or any.
    fn near(&mut self, limit: u16) -> u16 {
        match self.once_in(2) {
            true => self.below16(limit + 1),
            false => self.any(),
        }
    }

    /// A number around N1, or any.
    fn near_n1(&mut self, n1: u16) -> u16 {
        match self.once_in(2) {
            true => n1.wrapping_add(self.below16(4)).wrapping_sub(2),
            false => self.any(),
        }
    }

    /// A window of a configuration.
    pub fn window<'a>(&mut self, model: &'a Model, config: u16) -> &'a Window {
        let of_config = |window: &&Window| window.config == config;
        let number = model.windows().iter().filter(of_config).count();
        let at = self.below(number);
        model.windows().iter().filter(of_config).nth(at).expect("a window")
    }

    /// Mostly a subframe in which the configuration has a window, else any number.
    pub fn wild_n(&mut self, model: &Model, config: u16) -> u16 {
        let n = match config {
            0..=6 => self.window(model, config).n,
            _ => 2,
        };
        self.unless_once_in(16, n)
    }

    /// A grant that is allowed in a subframe with data, its flags any numbers.
    pub fn grant(&mut self, settings: Settings) -> Grant {
        Grant {
            blocks: 1 + self.below16(settings.blocks),
            first: self.flag(),
            second: self.flag(),
            cce: self.below16(edge(settings.nrb, 4)),
            dai: 1 + self.below16(4),
        }
    }

    /// A scheduled block that is allowed in a subframe with data if it is the first
    /// of its window.
    pub fn block(&mut self, settings: Settings) -> Block {
        let Grant { blocks, first, second, .. } = self.grant(settings);
        Block { blocks, first, second }
    }

    /// A release that is allowed in the downlink.
    pub fn release(&mut self, settings: Settings) -> Release {
        let Grant { cce, dai, .. } = self.grant(settings);
        Release { cce, dai }
    }

    /// A decoded flag: 0, or any other number.
    pub fn flag(&mut self) -> u16 {
        match self.below(4) {
            0 => 0,
            1 | 2 => 1,
            _ => self.any(),
        }
    }

    /// A grant of which each number is once in `times` any number.
    pub fn wild_grant(&mut self, settings: Settings, times: usize) -> Grant {
        let cces = edge(settings.nrb.clamp(*NRB.start(), *NRB.end()), 4);
        let Grant { blocks, first, second, cce, dai } =
            self.grant(Settings { nrb: 6, blocks: settings.blocks.clamp(1, 2), ..settings });
        let cce = if self.once_in(4) { cce } else { self.below16(cces) };
        Grant {
            blocks: self.unless_once_in(times, blocks),
            first,
            second,
            cce: self.unless_once_in(times, cce),
            dai: self.unless_once_in(times, dai),
        }
    }

    /// A grant, a scheduled block or a release of which each number is once in
    /// `times` any number.
    pub fn wild_heard(&mut self, settings: Settings, times: usize) -> Heard {
        let grant = self.wild_grant(settings, times);
        let Grant { blocks, first, second, cce, dai } = grant;
        match self.below(4) {
            0 | 1 => Heard::Grant(grant),
            2 => Heard::Block(Block { blocks, first, second }),
            _ => Heard::Release(Release { cce, dai }),
        }
    }

    /// A mode, or once in `times` any number.
    pub fn wild_mode(&mut self, times: usize) -> u16 {
        let mode = self.below16(2);
        self.unless_once_in(times, mode)
    }

    /// Records that a replay takes to the end. What is drawn for a subframe is recorded
    /// if a handset takes it there, else nothing is. DAIs go by the rule, mostly, and what
    /// a record's kind does not use has any value.
    pub fn records(&mut self, model: &Model, settings: Settings, number: usize) -> Vec<Slot> {
        let mut records: Vec<Slot> = Vec::new();
        let mut handset = Handset::fresh(settings);
        for at in 0..number {
            let dai = match self.once_in(8) {
                true => 1 + self.below16(4),
                false => 1 + pdcchs_before(model, settings, &records) % 4,
            };
            let grant = Grant { dai, ..self.grant(settings) };
            let Grant { blocks, first, second, cce, .. } = grant;
            let drawn = match self.below(8) {
                0..4 => Heard::Grant(grant),
                4 => Heard::Block(Block { blocks, first, second }),
                5 => Heard::Release(Release { cce, dai }),
                _ => Heard::Nothing,
            };
            let taken = model.feed(handset, drawn);
            let (heard, fed) = match taken.refusal {
                0 => (drawn, taken),
                _ => (Heard::Nothing, model.feed(handset, Heard::Nothing)),
            };
            assert_eq!(fed.refusal, 0, "record {at} of {settings:?}");
            handset = fed.handset;
            records.push(self.with_unused(record_of(heard)));
        }
        records
    }

    /// A good record with a byte changed, which a replay may refuse.
    pub fn spoilt(&mut self, record: Slot, settings: Settings) -> Slot {
        match self.below(6) {
            0 => Slot { kind: self.below(4) as u8, ..record },
            1 => Slot { kind: Slot::BLOCK, ..record },
            2 => Slot { results: self.any_byte(), ..record },
            3 => Slot { cce: (edge(settings.nrb, 4) + self.below16(2)) as u8, ..record },
            4 => Slot { dai: self.below(6) as u8, ..record },
            _ => Slot { kind: Slot::RELEASE, cce: 0, dai: 1, ..record },
        }
    }

    /// The same record; what its kind does not use has any value.
    pub fn with_unused(&mut self, record: Slot) -> Slot {
        let [cce, dai, results] = [0; 3].map(|_: u8| self.any_byte());
        let Slot { kind, .. } = record;
        // Bit 1 of the results is used only with bit 2.
        let used = if record.results & Slot::TWO != 0 { 7 } else { 5 };
        let results_of_data = results & !used | record.results & used;
        match kind {
            Slot::GRANT => Slot { results: results_of_data, ..record },
            Slot::BLOCK => Slot { kind, cce, dai, results: results_of_data },
            Slot::RELEASE => Slot { results, ..record },
            _ => Slot { kind, cce, dai, results },
        }
    }

    /// A register block of any bytes.
    pub fn register_block(&mut self) -> [u8; SIZE] {
        [(); SIZE].map(|()| self.any_byte())
    }

    /// What is written to a register block before the next command of a good handset: mostly a
    /// feed, else a clear of any flags, none, or another command.
    pub fn written(&mut self, model: &Model, handset: Handset) -> Written {
        let command = match self.below(32) {
            0 => self.any_byte(),
            1 | 2 => NO_COMMAND,
            3..=7 => CLEAR,
            _ => FEED,
        };
        let record = match command {
            FEED => self.next_record(model, handset),
            _ => {
                let dropped = self.any_flags();
                let [cce, dai, results] = [0; 3].map(|_: u8| self.any_byte());
                Slot { kind: dropped, cce, dai, results }
            }
        };
        Written { record, command, mask: self.any_flags() }
    }

    /// Any flags of a register block, once in three in any byte.
    fn any_flags(&mut self) -> u8 {
        match self.once_in(3) {
            true => self.any_byte(),
            false => self.below(8) as u8,
        }
    }

    /// A record for the next subframe of a good handset, mostly one that is taken there, with the
    /// DAI by the rule. What its kind does not use has any value.
    fn next_record(&mut self, model: &Model, handset: Handset) -> Slot {
        let Handset { settings, next, .. } = handset;
        let dai = match self.once_in(8) {
            true => 1 + self.below16(4),
            false => 1 + pdcchs_heard(model, handset) % 4,
        };
        let grant = Grant { dai, ..self.grant(settings) };
        let Grant { blocks, first, second, cce, .. } = grant;
        let drawn = match self.below(8) {
            _ if is_uplink(settings.config, next) && !self.once_in(12) => Heard::Nothing,
            0..4 => Heard::Grant(grant),
            4 => Heard::Block(Block { blocks, first, second }),
            5 => Heard::Release(Release { cce, dai }),
            _ => Heard::Nothing,
        };
        let record = self.with_unused(record_of(drawn));
        match self.below(24) {
            0 => Slot { kind: self.any_byte(), ..record },
            1 => Slot { cce: self.any_byte(), ..record },
            2 => Slot { dai: self.any_byte(), ..record },
            3 => Slot { results: self.any_byte(), ..record },
            _ => record,
        }
    }

    /// Bytes of any value.
    pub fn bytes(&mut self, length: usize) -> Vec<u8> {
        (0..length).map(|_| self.any_byte()).collect()
    }

    /// One of the arrangements of a trace: either order of its parts, and gaps of up to
    /// five bytes or none.
    pub fn arranged(&mut self, trace: Trace) -> Trace {
        let gaps = [0; 3].map(|_: u8| {
            let length = if self.once_in(2) { 0 } else { self.below(6) };
            self.bytes(length)
        });
        let trace = if self.once_in(2) { trace.records_first() } else { trace };
        trace.with_gaps(gaps.each_ref().map(Vec::as_slice))
    }

    /// A trace of up to so many records that a replay takes to the end, arranged in any
    /// way. Where there are no records, their offset is any number.
    pub fn accepted_trace(&mut self, model: &Model, most: usize) -> Vec<u8> {
        let settings = self.mixed_settings();
        let number = self.below(most + 1);
        let records = self.records(model, settings, number);
        let mut trace = self.arranged(Trace::new(settings, &records)).bytes();
        if number == 0 {
            put_number(&mut trace, FIRST_AT, self.any().into());
        }
        trace
    }

    /// A trace of each of the mixed cells that a replay takes to the end, of so many
    /// records or up to nine more. They are arranged in some ways in turn.
    pub fn good_traces(&mut self, model: &Model, records: usize) -> Vec<Vec<u8>> {
        let trace = |(at, settings): (usize, Settings)| {
            let records = self.records(model, settings, records + 7 * at % 10);
            let (records_first, gaps) = ARRANGEMENTS[at % 4];
            let trace = Trace::new(settings, &records).with_gaps(gaps);
            if records_first { trace.records_first() } else { trace }.bytes()
        };
        mixed_cells().into_iter().enumerate().map(trace).collect()
    }

    /// One to three fields of a handset get other values.
    pub fn damage(&mut self, mut handset: Handset) -> Handset {
        for _ in 0..1 + self.below(3) {
            let settings = &mut handset.settings;
            match self.below(30) {
                0 => settings.config = self.any(),
                1 => settings.nrb = self.any(),
                2 => settings.n1 = self.any(),
                3 => settings.mode = self.any(),
                4 => settings.blocks = self.any(),
                5 => settings.scheduled = self.near_n1(settings.n1),
                6 => settings.scheduled = self.one_of(&[0, NONE]),
                7 => settings.config = self.below16(7),
                8 => settings.nrb = NRB.start() + self.below16(NRB.count() as u16),
                9 => handset.next = self.any(),
                10 => handset.next = self.below16(10),
                11 => settings.prefix = self.near(2),
                12 => settings.special = self.near(9),
                13 => (settings.prefix, settings.special) = self.one_of(&SPECIALS),
                14 => settings.mode = self.below16(2),
                15 => handset.modes = self.any(),
                16 => handset.modes ^= 1 << self.below(16),
                17 => settings.ports = self.near(3),
                18 => settings.ports = 1 + self.below16(2),
                _ => self.damage_slot(&mut handset.past),
            }
        }
        handset
    }

    /// One field of one slot gets another value.
    fn damage_slot(&mut self, past: &mut [Slot; 13]) {
        let slot = &mut past[self.below(13)];
        match self.below(9) {
            0 => slot.kind = self.any_byte(),
            1 => slot.kind = 1 - slot.kind.min(1),
            2 => slot.kind = self.below(5) as u8,
            3 => slot.kind = Slot::BLOCK,
            4 | 5 => slot.cce = self.any_byte(),
            6 => slot.dai = self.any_byte(),
            7 => slot.dai = self.below(7) as u8,
            _ => slot.results = self.any_byte(),
        }
    }

    /// What a station sent in a window and the reply that it heard, mostly for something that
    /// was sent. Each number is once in `times` any, and what an entry does not use has any
    /// value always, as have the entries behind the window.
    pub fn exchange(&mut self, model: &Model, times: usize) -> Exchange {
        let settings = self.wild_settings(times);
        let n = self.wild_n(model, settings.config);
        let window = model.window(settings.config, n);
        let size = window.map_or(1, Window::size);
        let cces = edge(settings.nrb.clamp(*NRB.start(), *NRB.end()), 4);
        let is_short = |at: usize| {
            let k = window.map_or(1, |window| window.k[at]);
            settings.config < 7 && is_short(settings, (n % 10 + 20 - k) % 10)
        };
        let mut sent = SentWindow::NOTHING;
        let mut blocks_sent = settings.scheduled == NONE;
        for (at, entry) in sent.at.iter_mut().enumerate() {
            let no_data = at < size.into() && is_short(at) && !self.once_in(times);
            let drawn = self.sent(settings, cces, times);
            let is_block = drawn.signalled == 0 && drawn.blocks > 0;
            let is_second = is_block && blocks_sent && !self.once_in(2 * times);
            *entry = match no_data || is_second {
                true => Sent { blocks: 0, ..drawn },
                false => drawn,
            };
            blocks_sent |= is_block;
        }
        let order = window.map_or(Vec::new(), Window::in_time);
        if !self.once_in(4) {
            let pdcchs = order.iter().filter(|at| sent.at[usize::from(**at)].signalled != 0);
            let pdcchs: Vec<usize> = pdcchs.map(|at| usize::from(*at)).collect();
            for (j, at) in (0..).zip(pdcchs) {
                sent.at[at].dai = self.unless_once_in(8 * times, j % 4 + 1);
            }
        }
        let named = self.below16(size);
        let Sent { signalled, blocks, cce, .. } = sent.at[usize::from(named)];
        let other_cce = signalled == 0 || self.once_in(16);
        let cce = if other_cce { self.below16(cces) } else { cce };
        let resource = match (signalled, blocks) {
            _ if self.once_in(times) => self.any(),
            (0, 1..) => settings.scheduled,
            _ if self.once_in(32) => settings.scheduled,
            _ => model.resource(settings, n, named, cce).resource,
        };
        let [b0, b1] = [1, settings.blocks.wrapping_sub(1) | settings.mode].map(|most| {
            let bit = self.below16(2).max(self.below16(2)) & most;
            self.unless_once_in(2 * times, bit)
        });
        Exchange { settings, n, sent, resource, b0, b1 }
    }

    /// What was sent at a position, of one kind or of none. Of what it uses each number is once
    /// in `times` any, and the rest has any value.
    fn sent(&mut self, settings: Settings, cces: u16, times: usize) -> Sent {
        let blocks = 1 + self.below16(settings.blocks.clamp(1, 2));
        let blocks = self.unless_once_in(times, blocks);
        let (signalled, blocks) = match self.below(8) {
            0 => (0, 0),
            1 => (self.flag().max(1), 0),
            2 => (0, blocks),
            _ => (self.flag().max(1), blocks),
        };
        let cce = self.below16(cces);
        let cce = if signalled != 0 { self.unless_once_in(times, cce) } else { self.any() };
        let dai = 1 + self.below16(4);
        let dai = if signalled != 0 { self.unless_once_in(times, dai) } else { self.any() };
        let (itbs0, nprb0) = self.size(blocks > 0, times);
        let (itbs1, nprb1) = self.size(blocks > 1, times);
        Sent { signalled, blocks, cce, dai, itbs0, nprb0, itbs1, nprb1 }
    }

    /// I_TBS and N_PRB of a block: of the table, but each once in `times` any, and always
    /// where it is not used.
    fn size(&mut self, used: bool, times: usize) -> (u16, u16) {
        if !used {
            return (self.any(), self.any());
        }
        let (itbs, nprb) = (self.below16(27), 1 + self.below16(110));
        (self.unless_once_in(2 * times, itbs), self.unless_once_in(2 * times, nprb))
    }

    /// An account: by the equation, at a price that is allowed and with any octets up to the
    /// most, near the most, or far beyond; once in `times` with another number in one field.
    pub fn account(&mut self, times: usize) -> Account {
        let price = match self.below(4) {
            0 => self.one_of(&[0, 1, 999_999, 1_000_000]),
            _ => self.below(1_000_001) as u32,
        };
        let near = Account::MOST - 200_000 + self.below(250_000) as u64;
        let octets = match self.below(8) {
            0 => near,
            1 => self.number() >> self.below(64),
            2 => 0,
            _ => (self.number() >> self.below(40)) % (Account::MOST + 1),
        };
        let mut account = Account::with(price, octets);
        if self.once_in(times) {
            let any = self.number();
            let step = self.one_of(&[1, u64::MAX, 1_000_000, any]);
            match self.below(6) {
                0 => account.octets = account.octets.wrapping_add(step),
                1 => account.charged = account.charged.wrapping_add(step),
                2 => account.price = account.price.wrapping_add(step as u32),
                3 => account.carry = account.carry.wrapping_add(step as u32),
                4 => account.price = (self.number() >> 32) as u32,
                // The same sum with a whole coin in the carry.
                _ => {
                    account.charged = account.charged.wrapping_sub(1);
                    account.carry += Account::WHOLE;
                }
            }
        }
        account
    }

    /// A handset of any numbers.
    pub fn noise(&mut self) -> Handset {
        let mut handset = Handset::fresh(self.wild_settings(2));
        handset.next = self.any();
        handset.modes = self.any();
        for slot in &mut handset.past {
            let [kind, cce, dai, results] = [0; 4].map(|_: u8| self.any_byte());
            let kind = if self.once_in(2) { self.below(4) as u8 } else { kind };
            *slot = Slot { kind, cce, dai, results };
        }
        handset
    }
}

/// How many PDCCHs there are among the records of the window that the next subframe is
/// in; none in an uplink one.
fn pdcchs_before(model: &Model, settings: Settings, records: &[Slot]) -> u16 {
    let next = records.len();
    let answered = model.answered(settings, (next % 10) as u16);
    let Some(window) = model.window(settings.config, answered.n) else {
        return 0;
    };
    let uplink = next + usize::from(answered.k);
    let subframes = window.k.iter().filter_map(|k| uplink.checked_sub(usize::from(*k)));
    let is_pdcch = |at: usize| {
        let kind = records.get(at).map(|record| record.kind);
        kind == Some(Slot::GRANT) || kind == Some(Slot::RELEASE)
    };
    subframes.filter(|at| is_pdcch(*at)).count() as u16
}

/// How many PDCCHs a handset heard in the window that its next subframe is in; none in an uplink
/// one.
fn pdcchs_heard(model: &Model, handset: Handset) -> u16 {
    let Handset { settings, next, past, .. } = handset;
    let answered = model.answered(settings, next);
    let Some(window) = model.window(settings.config, answered.n) else {
        return 0;
    };
    let ago = window.k.iter().filter(|k| **k > answered.k).map(|k| k - answered.k);
    let is_pdcch = |ago: &u16| {
        let kind = past[usize::from(*ago) - 1].kind;
        kind == Slot::GRANT || kind == Slot::RELEASE
    };
    ago.filter(is_pdcch).count() as u16
}
