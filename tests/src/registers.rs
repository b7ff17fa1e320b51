//! The register block behind which a handset is mapped: where its parts stand, its commands and
//! flags, and what is written to it; and rules by which commands are carried out wrongly, each in
//! one point.

use crate::model::Model;
use crate::{CommandAnswer, Fed, Handset, Heard, Slot};

/// The bytes of a block.
pub const SIZE: usize = 16;

/// A block of zeros.
pub const ZEROS: [u8; SIZE] = [0; SIZE];

/// Where its parts stand. Bytes 0 to 3 are a record as in a trace, of which byte 0 also says which
/// flags a clear drops; from 8 on stands the last reply.
pub const DROPPED: usize = 0;
pub const COMMAND: usize = 4;
pub const FLAGS: usize = 5;
pub const MASK: usize = 6;
pub const NUMBER: usize = 7;
pub const REPLY: usize = 8;

/// The commands.
pub const NO_COMMAND: u8 = 0;
pub const FEED: u8 = 1;
pub const CLEAR: u8 = 2;

/// The flags by the values of their bits.
pub const READY: u8 = 1;
pub const REFUSED: u8 = 2;
pub const OVERWRITTEN: u8 = 4;

/// All of them. The other bits of their byte are no flags.
pub const ALL: u8 = READY | REFUSED | OVERWRITTEN;

/// What is written to a block before a command: bytes 0 to 4, and byte 6.
#[derive(Clone, Copy, Debug, PartialEq, Eq)]
pub struct Written {
    pub record: Slot,
    pub command: u8,
    pub mask: u8,
}

impl Written {
    /// By the six bytes.
    pub const fn of(bytes: [u8; 6]) -> Self {
        let [kind, cce, dai, results, command, mask] = bytes;
        Self { record: Slot { kind, cce, dai, results }, command, mask }
    }

    /// A feed of a record.
    pub const fn feed(record: Slot, mask: u8) -> Self {
        Self { record, command: FEED, mask }
    }

    /// A clear of these flags.
    pub const fn clear(dropped: u8, mask: u8) -> Self {
        Self { record: Slot { kind: dropped, ..Slot::NOTHING }, command: CLEAR, mask }
    }

    /// Neither flags and number nor the reply are written.
    pub fn write(self, block: &mut [u8]) {
        let Slot { kind, cce, dai, results } = self.record;
        block[..FLAGS].copy_from_slice(&[kind, cce, dai, results, self.command]);
        block[MASK] = self.mask;
    }
}

/// Whether a flag and its mask bit are both set.
pub fn is_high(block: &[u8]) -> bool {
    block[FLAGS] & block[MASK] & ALL != 0
}

/// A rule by which a command is carried out: its answer, with what it leaves in the block.
pub type Rule = fn(&Model, Handset, &mut [u8]) -> CommandAnswer;

/// Rules that differ from the papers' in one point.
pub const WRONG: [(&str, Rule); 28] = [
    ("bit 2 judged after bit 0 is set", |model, handset, block| {
        let answer = model.command(handset, block);
        if has_replied(model, handset, block, answer) {
            block[FLAGS] |= OVERWRITTEN;
        }
        judged(answer, block)
    }),
    ("a reply drops bit 2 if bit 0 was clear", |model, handset, block| {
        let was_ready = block.get(FLAGS).is_some_and(|flags| flags & READY != 0);
        let answer = model.command(handset, block);
        if has_replied(model, handset, block, answer) && !was_ready {
            block[FLAGS] &= !OVERWRITTEN;
        }
        judged(answer, block)
    }),
    ("a silent window is no reply", |model, handset, block| {
        let before = block.to_vec();
        let answer = model.command(handset, block);
        if has_replied(model, handset, block, answer) && block[REPLY + 1] == 0 {
            block.copy_from_slice(&before);
        }
        judged(answer, block)
    }),
    ("taken writes a reply", |model, handset, block| {
        let answer = model.command(handset, block);
        if is_fed(block, answer) && !has_replied(model, handset, block, answer) {
            write_reply(block, [handset.next as u8, 0, 0, 0, 0, 0, 0, 0]);
        }
        judged(answer, block)
    }),
    ("n after the feed in byte 8", |model, handset, block| {
        let answer = model.command(handset, block);
        if has_replied(model, handset, block, answer) {
            block[REPLY] = answer.handset.next as u8;
        }
        answer
    }),
    ("the high byte of the resource first", |model, handset, block| {
        let answer = model.command(handset, block);
        if has_replied(model, handset, block, answer) {
            block.swap(REPLY + 2, REPLY + 3);
        }
        answer
    }),
    ("the resource of the second port", |model, handset, block| {
        let answer = model.command(handset, block);
        if has_replied(model, handset, block, answer) {
            let Fed { resource, second, .. } = model.feed(handset, Heard::Nothing);
            let number = if second == 0 { resource } else { second };
            block[REPLY + 2..REPLY + 4].copy_from_slice(&number.to_le_bytes());
        }
        answer
    }),
    ("the kinds of a feed's answer in byte 9", |model, handset, block| {
        let answer = model.command(handset, block);
        if has_replied(model, handset, block, answer) {
            block[REPLY + 1] = model.feed(handset, Heard::Nothing).kind as u8;
        }
        answer
    }),
    ("bit 1 without bit 2 kept", |model, handset, block| {
        let mut answer = model.command(handset, block);
        if is_fed(block, answer) && [Slot::GRANT, Slot::BLOCK].contains(&block[0]) {
            answer.handset.past[0].results |= block[3] & Slot::SECOND;
        }
        answer
    }),
    ("the record remembered as it stands", |model, handset, block| {
        let mut answer = model.command(handset, block);
        if is_fed(block, answer) {
            let [kind, cce, dai, results] = [0, 1, 2, 3].map(|at| block[at]);
            answer.handset.past[0] = Slot { kind, cce, dai, results };
        }
        answer
    }),
    ("success clears byte 7", |model, handset, block| {
        let answer = model.command(handset, block);
        if answer.refusal == 0 {
            block[NUMBER] = 0;
        }
        answer
    }),
    ("success clears bit 1", |model, handset, block| {
        let answer = model.command(handset, block);
        if answer.refusal == 0 {
            block[FLAGS] &= !REFUSED;
        }
        judged(answer, block)
    }),
    ("the command byte cleared", |model, handset, block| {
        let answer = model.command(handset, block);
        if answer.refusal != 29 {
            block[COMMAND] = NO_COMMAND;
        }
        answer
    }),
    ("a refused feed clears the reply", |model, handset, block| {
        let answer = model.command(handset, block);
        if ![0, 28, 29].contains(&answer.refusal) {
            block[REPLY..].fill(0);
        }
        answer
    }),
    ("a refusal drops bit 0", |model, handset, block| {
        let answer = model.command(handset, block);
        if ![0, 29].contains(&answer.refusal) {
            block[FLAGS] &= !READY;
        }
        judged(answer, block)
    }),
    ("a refused feed goes on by a subframe", |model, handset, block| {
        let mut answer = model.command(handset, block);
        if ![0, 8, 28, 29].contains(&answer.refusal) {
            answer.handset = model.feed(handset, Heard::Nothing).handset;
        }
        answer
    }),
    ("clear by byte 6", |model, handset, block| match is_command(block, CLEAR) {
        true => {
            block[FLAGS] &= !(block[MASK] & ALL);
            judged(CommandAnswer::of(0, false, handset), block)
        }
        false => model.command(handset, block),
    }),
    ("clear drops bits 3 to 7", |model, handset, block| {
        let answer = model.command(handset, block);
        if is_command(block, CLEAR) {
            block[FLAGS] &= !block[DROPPED];
        }
        answer
    }),
    ("clear drops every flag", |model, handset, block| {
        let answer = model.command(handset, block);
        if is_command(block, CLEAR) {
            block[FLAGS] &= !ALL;
        }
        judged(answer, block)
    }),
    ("clear of bit 1 clears byte 7", |model, handset, block| {
        let answer = model.command(handset, block);
        if is_command(block, CLEAR) && block[DROPPED] & REFUSED != 0 {
            block[NUMBER] = 0;
        }
        answer
    }),
    ("none answers 8 on a bad state", |model, handset, block| {
        match is_command(block, NO_COMMAND) && is_bad(model, handset) {
            true => refused(8, handset, block),
            false => model.command(handset, block),
        }
    }),
    ("clear answers 8 on a bad state", |model, handset, block| {
        match is_command(block, CLEAR) && is_bad(model, handset) {
            true => refused(8, handset, block),
            false => model.command(handset, block),
        }
    }),
    ("the line over all eight bits", |model, handset, block| {
        let answer = model.command(handset, block);
        match answer.refusal {
            29 => answer,
            _ => CommandAnswer { line: (block[FLAGS] & block[MASK] != 0).into(), ..answer },
        }
    }),
    ("the line judged before the command", |model, handset, block| {
        let was_high = block.len() == SIZE && is_high(block);
        let answer = model.command(handset, block);
        CommandAnswer { line: was_high.into(), ..answer }
    }),
    ("28 before 29", |model, handset, block| {
        match block.get(COMMAND).is_some_and(|command| *command > CLEAR) {
            true => CommandAnswer { refusal: 28, ..model.command(handset, block) },
            false => model.command(handset, block),
        }
    }),
    ("a kind over 3 as 28", |model, handset, block| {
        let answer = model.command(handset, block);
        match answer.refusal {
            22 => refused(28, handset, block),
            _ => answer,
        }
    }),
    ("22 before 28", |model, handset, block| {
        let answer = model.command(handset, block);
        match answer.refusal == 28 && block[0] > Slot::RELEASE {
            true => refused(22, handset, block),
            false => answer,
        }
    }),
    ("8 before 22", |model, handset, block| {
        let answer = model.command(handset, block);
        match answer.refusal == 22 && is_bad(model, handset) {
            true => refused(8, handset, block),
            false => answer,
        }
    }),
];

/// Whether a block has 16 bytes and this command.
fn is_command(block: &[u8], command: u8) -> bool {
    block.len() == SIZE && block[COMMAND] == command
}

/// Whether a feed is refused for its handset.
fn is_bad(model: &Model, handset: Handset) -> bool {
    model.feed(handset, Heard::Nothing).refusal == 8
}

/// Whether a feed was not refused.
fn is_fed(block: &[u8], answer: CommandAnswer) -> bool {
    is_command(block, FEED) && answer.refusal == 0
}

/// Whether it also answered a window, by which a reply came: this is so in the subframes that
/// have one.
fn has_replied(model: &Model, before: Handset, block: &[u8], answer: CommandAnswer) -> bool {
    is_fed(block, answer) && model.window(before.settings.config, before.next).is_some()
}

/// A reply that came.
fn write_reply(block: &mut [u8], reply: [u8; 8]) {
    if block[FLAGS] & READY != 0 {
        block[FLAGS] |= OVERWRITTEN;
    }
    block[FLAGS] |= READY;
    block[REPLY..].copy_from_slice(&reply);
}

/// The same answer with the line of the block as it is now.
fn judged(answer: CommandAnswer, block: &[u8]) -> CommandAnswer {
    match answer.refusal {
        29 => answer,
        _ => CommandAnswer { line: is_high(block).into(), ..answer },
    }
}

/// A refusal of a block of 16 bytes.
fn refused(refusal: u16, handset: Handset, block: &mut [u8]) -> CommandAnswer {
    block[FLAGS] |= REFUSED;
    block[NUMBER] = refusal as u8;
    CommandAnswer::of(refusal, is_high(block), handset)
}

/// How many answers were held to the papers' rule, and for each wrong one how many of them it
/// gives otherwise.
#[derive(Default)]
pub struct Found {
    answers: u64,
    otherwise: [u64; WRONG.len()],
}

impl Found {
    /// Tries the wrong rules on a block and handset as they were lent, beside what is due.
    pub fn hold(
        &mut self,
        model: &Model,
        handset: Handset,
        block: &[u8],
        due: (CommandAnswer, &[u8]),
    ) {
        self.answers += 1;
        for ((_, wrong), otherwise) in WRONG.iter().zip(&mut self.otherwise) {
            let mut left = block.to_vec();
            let given = wrong(model, handset, &mut left);
            *otherwise += u64::from((given, &left[..]) != due);
        }
    }

    /// Shows how many answers each rule gives otherwise, and holds the rules that give all right
    /// to be these.
    pub fn assert_caught_all_but(&self, right_here: &[&str]) {
        println!("{} answers", self.answers);
        for ((name, _), otherwise) in WRONG.iter().zip(self.otherwise) {
            println!("{name}: {otherwise} otherwise");
            assert_eq!(otherwise == 0, right_here.contains(name), "{name}");
        }
    }
}
