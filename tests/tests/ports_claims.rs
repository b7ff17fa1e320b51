//! Claims with two ports, in both forms: each has its resource and the one above, and two
//! claims clash when any of their resources coincide. All neighbours in every window; lists
//! that are made so that the answer is known; lists and scratch flush with pages that are not
//! mapped; and lists that overlap the scratch.

use feedback_tests::compare::{Comparison, Lent, Shown, BANDWIDTHS, CCES, POSITIONS, WINDOWS};
use feedback_tests::every;
use feedback_tests::form::{Form, FORMS};
use feedback_tests::guarded::{Flush, Guarded, BOTH};
use feedback_tests::model::{edge, Model, Window, NRB};
use feedback_tests::random::Random;
use feedback_tests::{claims, claims_bits, ClaimsAnswer, Settings};
use std::ops::Range;

/// Every claim of a window in the order of its resource: that at place t has t + N1.
fn in_order(model: &Model, settings: Settings, window: &Window) -> Vec<u16> {
    let claim = |t: u16| {
        let pair = model.inverse(settings, window.n, settings.n1 + t);
        pair.position * 256 + pair.cce
    };
    (0..window.size() * edge(settings.nrb, 4)).map(claim).collect()
}

/// The bytes of scratch that so many claims need: each has its resource, and with two ports
/// the last one has the next resource too.
fn need(form: Form, claims: usize, ports: u16) -> usize {
    form.need(claims + usize::from(ports - 1))
}

/// Marks a resource, or takes the mark away.
fn set(form: Form, scratch: &mut [u8], t: usize, marked: bool) {
    let (byte, weight) = match form {
        Form::Bytes => (&mut scratch[t], 1),
        Form::Bits => (&mut scratch[t / 8], 2u8.pow((t % 8) as u32)),
    };
    *byte = if marked { *byte | weight } else { *byte & !weight };
}

/// Scratch in which these claims, by their places, are marked, and nothing else is.
fn marked(form: Form, places: &[usize], ports: u16, length: usize) -> Vec<u8> {
    let mut scratch = vec![0; length];
    for t in places.iter().flat_map(|t| *t..*t + usize::from(ports)) {
        set(form, &mut scratch, t, true);
    }
    scratch
}

/// The pairs of claims that are tried in one window, one form and with one number of ports.
struct Pairs<'a> {
    form: Form,
    settings: Settings,
    n: u16,
    /// The claims by their places.
    claims: &'a [u16],
    /// The scratch that is lent; and one in which only what is due is marked, and that ends
    /// as the lent one does.
    scratch: Vec<u8>,
    due: Vec<u8>,
    clean: u64,
    clashes: u64,
}

/// Stands beyond what the scratch needs, and is left.
const BEYOND: u8 = 0x5a;

impl<'a> Pairs<'a> {
    fn new(form: Form, settings: Settings, n: u16, claims: &'a [u16]) -> Self {
        let need = need(form, claims.len(), settings.ports);
        let mut due = vec![0; need];
        due.push(BEYOND);
        let scratch = vec![0; need + 1];
        Self { form, settings, n, claims, scratch, due, clean: 0, clashes: 0 }
    }

    /// Marks what a claim has in the scratch that is due, or takes the marks away.
    fn mark(&mut self, t: usize, marked: bool) {
        for t in t..t + usize::from(self.settings.ports) {
            set(self.form, &mut self.due, t, marked);
        }
    }

    /// Two claims in this order, by their places, in scratch of any values.
    fn hold(&mut self, first: usize, second: usize) {
        let list = [self.claims[first], self.claims[second]];
        let clash = first.abs_diff(second) < usize::from(self.settings.ports);
        let dirt = (first + 3 * second) as u8 | 4;
        let (lent, beyond) = self.scratch.split_at_mut(self.due.len() - 1);
        lent.fill(dirt);
        beyond.fill(BEYOND);
        let given = self.form.claims(self.settings, self.n, &list, &mut self.scratch);
        let answer = if clash { ClaimsAnswer::clash(1) } else { ClaimsAnswer::CLEAN };
        self.mark(first, true);
        if !clash {
            self.mark(second, true);
        }
        assert!(
            given == answer && self.scratch == self.due,
            "{}({:?}, n {}, {list:?}), resources {first} and {second} above N1: the engine gives \
             {given:?}, leaves {:?}, and due is {answer:?}, {:?}",
            self.form,
            self.settings,
            self.n,
            self.scratch,
            self.due
        );
        self.mark(first, false);
        if !clash {
            self.mark(second, false);
        }
        self.clashes += u64::from(clash);
        self.clean += u64::from(!clash);
    }
}

/// All pairs of claims whose resources are none, one or two apart, in both orders, in every
/// window with every bandwidth: with two ports they clash if they are at most one apart, with
/// one port if they are equal. Every byte of the scratch is compared.
#[test]
fn neighbours_in_every_window() {
    let model = Model::new();
    let (mut clean, mut clashes) = ([0; 2], [0; 2]);
    for (settings, window) in every::window(&model, NRB, &[10], &[(0, 1)]) {
        let every = in_order(&model, settings, window);
        for (form, ports) in FORMS.into_iter().flat_map(|form| [(form, 1), (form, 2)]) {
            let mut pairs = Pairs::new(form, settings.with_ports(ports), window.n, &every);
            for first in 0..every.len() {
                for second in first.saturating_sub(2)..every.len().min(first + 3) {
                    pairs.hold(first, second);
                }
            }
            clean[usize::from(ports - 1)] += pairs.clean;
            clashes[usize::from(ports - 1)] += pairs.clashes;
        }
    }
    println!("by ports {clean:?} clean, {clashes:?} clashes");
    // Of so many resources, one less have a next one, and two less one behind that.
    let (resources, windows) = (POSITIONS * CCES, WINDOWS * BANDWIDTHS);
    let (neighbours, two_apart) = (resources - windows, resources - 2 * windows);
    assert_eq!(clashes, [2 * resources, 2 * (resources + 2 * neighbours)]);
    assert_eq!(clean, [2 * 2 * (neighbours + two_apart), 2 * 2 * two_apart]);
}

/// The case that 02 prints: with N_RB 50, M = 2 and N1 10, (0, 10) takes 20 and 21, and (1, 0)
/// takes 21 and 22. Around it claims that do not clash.
#[test]
fn neighbours_by_hand() {
    let settings = Settings::plain(1, 50, 10, 0, 1).with_ports(2);
    let bytes = |marks: &[usize]| marked(Form::Bytes, marks, 1, 123);
    let bits = |marks: &[usize]| marked(Form::Bits, marks, 1, 16);
    // The list, the index of the clash, and the resources less 10 that are marked.
    let cases: [(&[u16], Option<usize>, &[usize]); 12] = [
        (&[10, 256], Some(1), &[10, 11]),
        (&[256, 10], Some(1), &[11, 12]),
        (&[10, 257], None, &[10, 11, 12, 13]),
        (&[9, 256], None, &[9, 10, 11, 12]),
        (&[9, 10], Some(1), &[9, 10]),
        (&[0, 2, 4, 3, 4], Some(3), &[0, 1, 2, 3, 4, 5]),
        (&[0, 2, 4, 2], Some(3), &[0, 1, 2, 3, 4, 5]),
        // (1, 10) takes 31 and 32, and (0, 11) 32 and 33: the next region begins.
        (&[266, 11], Some(1), &[21, 22]),
        (&[265, 11], None, &[20, 21, 22, 23]),
        // (1, 60) takes the last two.
        (&[316, 315], Some(1), &[121, 122]),
        (&[314, 316], None, &[119, 120, 121, 122]),
        (&[], None, &[]),
    ];
    for (list, clash, marks) in cases {
        let due = clash.map_or(ClaimsAnswer::CLEAN, ClaimsAnswer::clash);
        let mut scratch = [9; 125];
        assert_eq!(claims(settings, 2, list, &mut scratch), due, "{list:?}");
        assert_eq!(scratch[..123], bytes(marks), "{list:?}");
        assert_eq!(scratch[123..], [9; 2], "{list:?}");
        let mut scratch = [9; 18];
        assert_eq!(claims_bits(settings, 2, list, &mut scratch), due, "{list:?}");
        assert_eq!(scratch[..16], bits(marks), "{list:?}");
        assert_eq!(scratch[16..], [9; 2], "{list:?}");
    }
    // With one port 20 and 21 are two.
    let one_port = settings.with_ports(1);
    assert_eq!(claims(one_port, 2, &[10, 256], &mut [9; 122]), ClaimsAnswer::CLEAN);
    assert_eq!(claims_bits(one_port, 2, &[10, 256], &mut [9; 16]), ClaimsAnswer::CLEAN);
    // One resource more: 123 bytes, or bits, for which 16 bytes still do.
    let mut scratch = [9; 122];
    assert_eq!(claims(settings, 2, &[0], &mut scratch), ClaimsAnswer::refused(15, 0));
    assert_eq!(claims_bits(settings, 2, &[0], &mut scratch[..15]), ClaimsAnswer::refused(15, 0));
    assert_eq!(claims(settings, 2, &[10, 256, 61], &mut [9; 123]), ClaimsAnswer::refused(16, 2));
    assert_eq!(scratch, [9; 122]);
}

/// Where M × N_4 is a whole number of bytes, the bit form needs one more: configuration 2 with
/// N_RB 10 has 4 × 12 resources.
#[test]
fn one_byte_more_by_bits() {
    let one_port = Settings::plain(2, 10, 10, 0, 1);
    let settings = one_port.with_ports(2);
    let last = 3 * 256 + 11;
    let mut scratch = [9; 8];
    assert_eq!(claims_bits(one_port, 2, &[last], &mut scratch[..6]), ClaimsAnswer::CLEAN);
    assert_eq!(scratch, [0, 0, 0, 0, 0, 0b1000_0000, 9, 9]);
    let mut scratch = [9; 8];
    assert_eq!(claims_bits(settings, 2, &[last], &mut scratch[..6]), ClaimsAnswer::refused(15, 0));
    assert_eq!(scratch, [9; 8]);
    assert_eq!(claims_bits(settings, 2, &[last], &mut scratch[..7]), ClaimsAnswer::CLEAN);
    assert_eq!(scratch, [0, 0, 0, 0, 0, 0b1000_0000, 0b0000_0001, 9]);
}

/// The widest window takes 1,207 bytes, and by bits 151. Every other claim of it, 603 of
/// them, has all resources but one: the last, or the first.
#[test]
fn the_widest_window() {
    let model = Model::new();
    let window = model.window(5, 2).expect("a window");
    let settings = Settings::plain(5, 110, 2047, 0, 2).with_ports(2);
    let every = in_order(&model, settings, window);
    let other = |from: usize| every[from..].iter().copied().step_by(2).collect::<Vec<u16>>();
    let mut bytes = [9; 1207];
    assert_eq!(claims(settings, 2, &other(0), &mut bytes[..1206]), ClaimsAnswer::refused(15, 0));
    assert_eq!(bytes, [9; 1207]);
    assert_eq!(claims(settings, 2, &other(0), &mut bytes), ClaimsAnswer::CLEAN);
    assert_eq!((bytes[..1206].to_vec(), bytes[1206]), (vec![1; 1206], 0));
    assert_eq!(claims(settings, 2, &other(1), &mut bytes), ClaimsAnswer::CLEAN);
    assert_eq!((bytes[0], bytes[1..].to_vec()), (0, vec![1; 1206]));

    let mut bits = [9; 151];
    let refused = claims_bits(settings, 2, &other(0), &mut bits[..150]);
    assert_eq!((refused, bits), (ClaimsAnswer::refused(15, 0), [9; 151]));
    assert_eq!(claims_bits(settings, 2, &other(0), &mut bits), ClaimsAnswer::CLEAN);
    assert_eq!((bits[0], bits[149], bits[150]), (0xff, 0xff, 0b0011_1111));
    assert_eq!(claims_bits(settings, 2, &other(1), &mut bits), ClaimsAnswer::CLEAN);
    assert_eq!((bits[0], bits[149], bits[150]), (0b1111_1110, 0xff, 0b0111_1111));

    // Any further claim clashes.
    for claim in &every {
        let list = [other(0), vec![*claim]].concat();
        for form in FORMS {
            let given = form.claims(settings, 2, &list, &mut bytes);
            assert_eq!(given, ClaimsAnswer::clash(603), "{form}, {claim}");
        }
    }
}

/// What a list of claims has in it.
#[derive(Clone, Copy, Debug, PartialEq, Eq)]
enum Content {
    /// Claims at least two apart, in random order.
    Apart,
    /// The same, but one has a resource of an earlier one: the same two, or one of them.
    Clash,
    /// A clash, and a bad claim before it.
    BadThenClash,
    /// A clash, and a bad claim after it.
    ClashThenBad,
    /// Claims at least two apart, but the last is bad.
    LastBad,
    /// Allowed claims as they come.
    AtRandom,
}

const CONTENTS: [Content; 6] = [
    Content::Apart,
    Content::Clash,
    Content::BadThenClash,
    Content::ClashThenBad,
    Content::LastBad,
    Content::AtRandom,
];

/// Places that are at least two apart, in random order: as many as still fit, but no more than
/// asked for.
fn apart(places: usize, most: usize, random: &mut Random) -> Vec<usize> {
    let mut order: Vec<usize> = (0..places).collect();
    random.shuffle(&mut order);
    let mut taken = vec![false; places + 2];
    let mut chosen = Vec::new();
    for t in order {
        // One further on, so that there is a place before the first.
        if chosen.len() < most && !taken[t] && !taken[t + 1] && !taken[t + 2] {
            taken[t + 1] = true;
            chosen.push(t);
        }
    }
    chosen
}

/// Puts a claim in place of the one at an index that is not the first, beside an earlier one
/// or equal to it.
fn clash(places: &mut [usize], end: usize, random: &mut Random) -> usize {
    let index = 1 + random.below(places.len() - 1);
    let earlier = places[random.below(index)];
    places[index] = match random.below(3) {
        0 if earlier > 0 => earlier - 1,
        1 if earlier + 1 < end => earlier + 1,
        _ => earlier,
    };
    index
}

/// A list and the answer that its making shows to be due with two ports, with the places of
/// the claims that are marked; or nothing, where the list is as it comes.
type List = (Vec<u16>, Option<(ClaimsAnswer, Vec<usize>)>);

fn list(content: Content, length: usize, every: &[u16], random: &mut Random) -> List {
    let claims = |places: &[usize]| places.iter().map(|t| every[*t]).collect::<Vec<u16>>();
    let mut places = apart(every.len(), length, random);
    let is_long = places.len() > 1;
    let due = match content {
        Content::AtRandom => {
            let list = (0..length).map(|_| random.one_of(every)).collect();
            return (list, None);
        }
        Content::Clash | Content::BadThenClash | Content::ClashThenBad if is_long => {
            let index = clash(&mut places, every.len(), random);
            (ClaimsAnswer::clash(index), places[..index].to_vec())
        }
        _ => (ClaimsAnswer::CLEAN, places.clone()),
    };
    let mut list = claims(&places);
    let bad_at = match content {
        Content::BadThenClash if is_long => Some(random.below(due.0.index as usize)),
        Content::ClashThenBad if is_long => {
            list.push(0);
            let after = due.0.index as usize + 1;
            Some(after + random.below(list.len() - after))
        }
        Content::LastBad => {
            list.push(0);
            Some(list.len() - 1)
        }
        _ => None,
    };
    let Some(index) = bad_at else { return (list, Some(due)) };
    list[index] = bad_claim(every, random);
    (list, Some((ClaimsAnswer::refused(16, index), vec![])))
}

/// A number that is no claim of the window.
fn bad_claim(every: &[u16], random: &mut Random) -> u16 {
    loop {
        let number = random.any();
        if !every.contains(&number) {
            return number;
        }
    }
}

/// Every window with lists of every content and of some lengths, in scratch of every length
/// around the one that is needed, and of any bytes. What is known from the making of the list
/// is held to it, and all to the model.
#[test]
fn lists_of_every_content() {
    let model = Model::new();
    let mut comparison = Comparison::with(&model);
    let mut random = Random::new(1);
    let mut lent = Lent::new(1300);
    let (mut known, mut scratches) = ([0; 3], 0);
    for (settings, window) in every::window(&model, [6, 50, 110], &[10], &[(0, 2)]) {
        let settings = settings.with_ports(2);
        let every = in_order(&model, settings, window);
        for content in CONTENTS {
            for length in [0, 1, 2, 5, 40, 1300] {
                let (list, due) = list(content, length, &every, &mut random);
                for form in FORMS {
                    let need = need(form, every.len(), 2);
                    for room in [0, need - 1, need, need + 1, need + 50] {
                        let scratch = random.bytes(room);
                        let answer =
                            comparison.claims(form, &mut lent, settings, window.n, &list, &scratch);
                        scratches += 1;
                        if room < need {
                            assert_eq!(
                                answer,
                                ClaimsAnswer::refused(15, 0),
                                "{form}, {settings:?}"
                            );
                            continue;
                        }
                        let Some((due, places)) = &due else { continue };
                        assert_eq!(answer, *due, "{form}, {settings:?}, {content:?}, {list:?}");
                        known[usize::from(due.kind)] += 1;
                        if due.refusal == 0 {
                            let mut left = scratch.clone();
                            form.claims(settings, window.n, &list, &mut left);
                            let marks = marked(form, places, 2, need);
                            assert_eq!(left[..need], marks, "{form}, {settings:?}, {list:?}");
                            assert_eq!(left[need..], scratch[need..], "{form}, {settings:?}");
                        }
                    }
                }
            }
        }
    }
    println!("{known:?} answers known from the making of the list, by kind");
    assert_eq!(scratches, WINDOWS * 3 * 6 * 6 * 2 * 5);
    comparison.finish_with(2 * scratches, &[0, 15, 16], &[0, 1, 2]);
    assert_eq!(comparison.refused(15), WINDOWS * 3 * 6 * 6 * 2 * 2 * 2);
    assert!(known.iter().all(|number| *number > 1_000));
}

/// Random lists for random cells, with one port and with two, in both forms.
#[test]
fn random_lists() {
    let model = Model::new();
    let mut comparison = Comparison::with(&model);
    let mut random = Random::new(2);
    let mut lent = Lent::new(200);
    let mut by_ports = [[0; 3]; 2];
    for _ in 0..8_000 {
        let settings = random.two_port_settings();
        let window = random.window(&model, settings.config);
        let every = in_order(&model, settings, window);
        let most = random.one_of(&[3, 10, 10, 40, 200]);
        let (list, _) = list(random.one_of(&CONTENTS), random.below(most), &every, &mut random);
        for (form, ports) in FORMS.into_iter().flat_map(|form| [(form, 1), (form, 2)]) {
            let need = need(form, every.len(), ports);
            let room = (need + random.below(8)).saturating_sub(random.below(3));
            let scratch = random.bytes(room);
            let settings = settings.with_ports(ports);
            let answer = comparison.claims(form, &mut lent, settings, window.n, &list, &scratch);
            by_ports[usize::from(ports - 1)][usize::from(answer.kind)] += 1;
        }
    }
    println!("by ports and kind {by_ports:?}");
    comparison.finish_with(8_000 * 4 * 2, &[0, 15, 16], &[0, 1, 2]);
    assert!(by_ports.as_flattened().iter().all(|number| *number > 1_000));
    let [[_, clean_with_one, _], [_, clean_with_two, _]] = by_ports;
    assert!(clean_with_one > clean_with_two);
}

/// The last claims of every window with every bandwidth, in scratch of exactly the bytes that
/// are needed, flush with a guard at its start and at its end: the second resource of the last
/// one is the last byte, or in it. With one byte less 15 is given, and nothing is written.
#[test]
fn the_last_claim_at_a_guard() {
    let model = Model::new();
    let mut comparison = Comparison::with(&model);
    let mut lent = Lent::new(3);
    let mut random = Random::new(3);
    for (settings, window) in every::window(&model, NRB, &[2047], &[(0, 1)]) {
        let every = in_order(&model, settings, window);
        let settings = settings.with_ports(2);
        let last = every.len() - 1;
        let lists: [(&[usize], Option<usize>); 5] = [
            (&[last], None),
            (&[last, last], Some(1)),
            (&[last - 1, last], Some(1)),
            (&[last - 2, last], None),
            (&[0, last, last - 1], Some(2)),
        ];
        for form in FORMS {
            let need = need(form, every.len(), 2);
            for (places, clash) in lists {
                let list: Vec<u16> = places.iter().map(|t| every[*t]).collect();
                let scratch = random.bytes(need);
                comparison.claims(form, &mut lent, settings, window.n, &list, &scratch[1..]);
                comparison.claims(form, &mut lent, settings, window.n, &list, &scratch);
                for flush in BOTH {
                    let (given, _, left) =
                        lent.call(form, settings, window.n, &list, &scratch, flush);
                    let due = clash.map_or(ClaimsAnswer::CLEAN, ClaimsAnswer::clash);
                    let marks = marked(form, &places[..clash.unwrap_or(places.len())], 2, need);
                    assert!(
                        given == due && left == marks,
                        "{form}({settings:?}, n {}, {list:?}), flush at the {flush:?}: the engine \
                         gives {given:?}, leaves {}, and due is {due:?}, {}",
                        window.n,
                        Shown(left),
                        Shown(&marks)
                    );
                }
            }
        }
    }
    let lists = WINDOWS * BANDWIDTHS * 2 * 5 * 2;
    comparison.finish(2 * lists, lists);
    assert_eq!(comparison.refused(15), lists);
}

/// A window of each size, M 1, 2, 3, 4 and 9: its configuration and n.
const EACH_SIZE: [(u16, u16); 5] = [(0, 2), (1, 2), (3, 2), (2, 2), (5, 2)];

/// Every 16-bit number as a claim, alone and behind a clash of two neighbours, for a window
/// of each size.
#[test]
fn every_number_as_a_claim() {
    let model = Model::new();
    let mut comparison = Comparison::with(&model);
    let mut lent = Lent::new(3);
    let mut refused = 0;
    for ((config, n), form) in EACH_SIZE.into_iter().flat_map(|at| FORMS.map(|form| (at, form))) {
        let settings = Settings::plain(config, 50, 10, 0, 1).with_ports(2);
        let size = model.window(config, n).expect("a window").size();
        let before = vec![7; need(form, usize::from(61 * size), 2)];
        let mut scratch = before.clone();
        for any in 0..=65535 {
            for list in [&[any][..], &[0, 1, any]] {
                if any / 256 < size && any % 256 < 61 {
                    comparison.claims(form, &mut lent, settings, n, list, &before);
                    continue;
                }
                let given = form.claims(settings, n, list, &mut scratch);
                assert!(
                    given == ClaimsAnswer::refused(16, list.len() - 1) && scratch == before,
                    "{form}({settings:?}, n {n}, {list:?}): the engine gives {given:?}, leaves \
                     {scratch:?}, and the last claim is bad"
                );
                refused += 1;
            }
        }
    }
    println!("{refused} refused");
    let allowed = (1 + 2 + 3 + 4 + 9) * 61;
    assert_eq!(refused, 2 * 2 * (5 * 65536 - allowed));
    comparison.finish(2 * 2 * 2 * allowed, 2 * 2 * 2 * allowed);
}

/// All sets of the first places.
fn sets(places: usize) -> Vec<Vec<usize>> {
    let of_number = |set: usize| (0..places).filter(|place| set >> place & 1 == 1).collect();
    (0..1 << places).map(of_number).collect()
}

/// The sets of places in a range that have no two neighbours.
fn sets_apart(places: Range<usize>) -> Vec<Vec<usize>> {
    let mut sets = vec![vec![]];
    for place in places {
        let is_free = |set: &&Vec<usize>| set.last().is_none_or(|last| last + 1 < place);
        let with_place = |set: &Vec<usize>| [&set[..], &[place]].concat();
        let more: Vec<_> = sets.iter().filter(is_free).map(with_place).collect();
        sets.extend(more);
    }
    sets
}

/// A list that ends in the scratch: when its last claim is read to be marked, it has become
/// what the marks of the others before make of it.
#[derive(Clone, Copy)]
struct Ending {
    form: Form,
    settings: Settings,
    n: u16,
    /// Where in the scratch the last claim begins; −1 if only its second byte lies there.
    offset: isize,
    need: usize,
}

impl Ending {
    /// Makes the call on claims that lie before the scratch, and a last one. Nothing is written
    /// but in the scratch that is needed. Shows the two bytes of the last claim afterwards.
    fn call(&self, memory: &mut Guarded, flush: Flush, claims: &[u16], last: u16) -> [u8; 2] {
        let Self { form, settings, n, offset, need } = *self;
        let list = [claims, &[last]].concat();
        let bytes: Vec<u8> = list.iter().flat_map(|claim| claim.to_ne_bytes()).collect();
        let last_at = bytes.len() - 2;
        let scratch_at = (last_at as isize - offset) as usize;
        // A list begins at an even address, so that a byte may be left before the guard.
        let stretch = bytes.len().max(scratch_at + need);
        let start = match flush {
            Flush::Start => 0,
            Flush::End => (memory.all().len() - stretch) / 2 * 2,
        };
        let all = memory.all();
        all[start..][..bytes.len()].copy_from_slice(&bytes);
        let end = all.len().min(start + stretch + 8);
        let before = all[start..end].to_vec();
        let at = all[start..].as_mut_ptr();
        // SAFETY: both lie within the memory, which nothing else uses meanwhile.
        unsafe {
            form.call()(settings, n, at.cast(), list.len(), at.add(scratch_at), need);
        }
        let after = &memory.all()[start..end];
        let may_change = scratch_at..scratch_at + need;
        assert!(
            after[..may_change.start] == before[..may_change.start]
                && after[may_change.end..] == before[may_change.end..],
            "{form}({settings:?}, n {n}, {list:?}), flush at the {flush:?}, scratch of {need} at \
             byte {scratch_at} of the list: wrote beyond"
        );
        [after[last_at], after[last_at + 1]]
    }
}

/// Lists that end in the scratch: the claims before the last by their places, in each of these
/// sets, and the last one with each of these CCEs.
struct Way {
    nrb: u16,
    form: Form,
    ports: u16,
    offset: isize,
    sets: Vec<Vec<usize>>,
    last: Range<u16>,
}

/// A claim in the scratch becomes every number that marks can make, and is then read. By bits
/// with one port that is every 16-bit number, and with two ports every one whose ones come in
/// pairs, but at its ends; in bytes there are four. Where only its second byte lies in the
/// scratch, the first has any CCE. Whatever it becomes, nothing is touched outside.
#[test]
fn claims_made_of_marks() {
    // N_RB 110 has N_1 24: the first places are those of position 0, so that a claim of them
    // whose second byte lies in the scratch keeps its 0. N_RB 6 has N_4 7, and so one byte of
    // scratch by bits where M is 1: there the last claim's second byte lies beyond.
    let way = |nrb, form, ports, offset, sets, last| Way { nrb, form, ports, offset, sets, last };
    let ways = [
        way(110, Form::Bits, 1, 0, sets(16), 0..1),
        way(110, Form::Bytes, 1, 0, sets(2), 0..1),
        way(110, Form::Bits, 2, 1, sets_apart(7..24), 0..1),
        way(110, Form::Bytes, 2, 1, sets_apart(0..3), 0..1),
        way(110, Form::Bits, 1, -1, sets(8), 0..134),
        way(110, Form::Bytes, 1, -1, sets(1), 0..134),
        way(110, Form::Bits, 2, -1, sets_apart(0..8), 0..134),
        way(110, Form::Bytes, 2, -1, sets_apart(0..1), 0..134),
        way(6, Form::Bits, 1, 0, sets(7), 0..1),
        way(6, Form::Bits, 2, 0, sets_apart(0..7), 0..1),
    ];
    let model = Model::new();
    let mut memory = Guarded::new(1);
    let mut calls = 0;
    for (config, n) in EACH_SIZE {
        let window = model.window(config, n).expect("a window");
        for Way { nrb, form, ports, offset, sets, last } in &ways {
            let (form, ports) = (*form, *ports);
            let settings = Settings::plain(config, *nrb, 10, 0, 1).with_ports(ports);
            let every = in_order(&model, settings, window);
            let need = need(form, every.len(), ports);
            for places in sets {
                // The lowest place is marked last: its first mark may lie in its own claim.
                let list: Vec<u16> = places.iter().rev().map(|t| every[*t]).collect();
                let marks = marked(form, places, ports, need);
                // Without a claim before it, the last one lies at the start of the scratch.
                let offset = if list.is_empty() { (*offset).min(0) } else { *offset };
                let made = [offset, offset + 1]
                    .map(|at| usize::try_from(at).ok().and_then(|at| marks.get(at)));
                let ending = Ending { form, settings, n, offset, need };
                for (last, flush) in last.clone().flat_map(|last| BOTH.map(|flush| (last, flush))) {
                    let left = ending.call(&mut memory, flush, &list, last);
                    // The marks of the claims before the last one are there.
                    let is_there = |(left, made): (u8, Option<&u8>)| {
                        made.is_none_or(|made| left & made == *made)
                    };
                    assert!(
                        left.into_iter().zip(made).all(is_there),
                        "{form}({settings:?}, n {n}, {list:?} and {last}): {left:?}, {made:?}"
                    );
                    calls += 1;
                }
            }
        }
    }
    println!("{calls} calls");
    // The sets without neighbours are 4,181 of 17 places, 55 of eight, 34 of seven, five of
    // three and two of one.
    let whole = 65536 + 4 + 4181 + 5;
    let halves = (256 + 2 + 55 + 2) * 134;
    assert_eq!(calls, 5 * 2 * (whole + halves + 128 + 34));
}
