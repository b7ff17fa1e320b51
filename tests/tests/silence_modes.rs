//! The cause of a silence in windows while the mode changes: no change, one and two at every
//! place, in every window with every pattern of nothing sent, lost and heard. What is told goes
//! by the mode that stood when the window's earliest subframe was fed.

use feedback_tests::compare::Comparison;
use feedback_tests::model::{bundles, Model, Window};
use feedback_tests::silences::{Found, Listener};
use feedback_tests::{change_mode, feed, make, Fed, Grant, Handset, Heard, Settings, Slot};

/// A cell of a configuration that is made in a mode.
fn cell(config: u16, made: u16) -> Settings {
    Settings::plain(config, 50, 10, made, 1)
}

/// The windows of configurations that have both modes.
fn windows(model: &Model) -> Vec<&Window> {
    let windows: Vec<&Window> =
        model.windows().iter().filter(|window| window.config != 5).collect();
    assert_eq!(windows.len(), 20);
    windows
}

/// A pattern of a window by its number: what is heard k subframes before the answer, at k, and
/// how many grants are lost before the last heard one. The digits in time order are 0 for nothing
/// sent, 1 for a grant that is lost and 2 for one that is heard; the j-th has DAI
/// ((j − 1) mod 4) + 1.
fn pattern(window: &Window, number: u32) -> ([Heard; 14], u16) {
    let mut heard = [Heard::Nothing; 14];
    let (mut sent, mut lost, mut lost_before_the_last) = (0, 0, 0);
    for (at, position) in (0..).zip(window.in_time()) {
        let digit = number / 3u32.pow(at) % 3;
        let dai = sent % 4 + 1;
        if digit == 2 {
            let grant = Grant { blocks: 1, first: 1, second: 0, cce: position, dai };
            heard[usize::from(window.k[usize::from(position)])] = Heard::Grant(grant);
            lost_before_the_last = lost;
        }
        lost += u16::from(digit == 1);
        sent += u16::from(digit > 0);
    }
    (heard, lost_before_the_last)
}

/// No place, each and each two of so many.
fn up_to_two(places: usize) -> Vec<Vec<usize>> {
    let one = (0..places).map(|place| vec![place]);
    let two = (0..places).flat_map(|one| (0..one).map(move |other| vec![other, one]));
    [vec![]].into_iter().chain(one).chain(two).collect()
}

/// The handset that answers a window next, after changes to the other mode: before the feeds of
/// the subframes so long ago, 0 for the answer's own. Shown with the window's own mode.
fn heard_with_changes(
    before: Handset,
    window: &Window,
    heard: &[Heard; 14],
    changes: &[usize],
) -> (Handset, u16) {
    let longest = usize::from(*window.k.iter().max().expect("a window has subframes"));
    let (mut handset, mut own) = (before, before.settings.mode);
    for ago in (0..=longest + 1).rev() {
        if changes.contains(&ago) {
            let changed = change_mode(handset, 1 - handset.settings.mode);
            assert_eq!(changed.refusal, 0, "{handset:?}");
            handset = changed.handset;
        }
        if ago == longest {
            own = handset.settings.mode;
        }
        if ago > 0 {
            let brought = if ago <= longest { heard[ago] } else { Heard::Nothing };
            let fed = feed(handset, brought);
            assert_eq!(fed.refusal, 0, "{handset:?}, {brought:?}");
            handset = fed.handset;
        }
    }
    (handset, own)
}

/// A window fed in mode 0 shows a miss though mode 1 stands, and one fed in mode 1 replies though
/// mode 0 stands, as often as the places of the changes say: three times the longest k.
#[test]
fn up_to_two_changes_at_every_place() {
    let model = Model::new();
    let mut comparison = Comparison::with(&model);
    let mut found = Found::default();
    let (mut silent, mut replies, mut due) = (0, 0, 0);
    for window in windows(&model) {
        let listener = Listener::new(window);
        let size = u32::from(window.size());
        for made in [0, 1] {
            let mut before = make(cell(window.config, made)).handset;
            for _ in 0..19 + usize::from(window.n) - listener.longest() {
                before = feed(before, None).handset;
            }
            for changes in up_to_two(listener.longest() + 2) {
                for number in 0..3u32.pow(size) {
                    let (heard, lost) = pattern(window, number);
                    let (handset, own) = heard_with_changes(before, window, &heard, &changes);
                    let given = comparison.silence(handset);
                    found.hold(&listener, handset, given);
                    let settings = Settings { mode: own, ..handset.settings };
                    let is_miss = bundles(settings, window.size()) && lost > 0;
                    let told = is_miss.then(|| given.v - given.expected);
                    assert_eq!(
                        (listener.heard(handset, given.fed).own_mode(), told),
                        (own, is_miss.then_some(lost)),
                        "{handset:?}, changes {changes:?}, {lost} lost before the last heard one: \
                         {given:?}"
                    );
                    if lost > 0 && own != handset.settings.mode {
                        let kinds = [Fed::SILENT, Fed::MULTIPLEXED];
                        assert_eq!(given.fed.kind, kinds[usize::from(own)], "{handset:?}");
                        silent += u64::from(own == 0);
                        replies += u64::from(own == 1);
                    }
                }
            }
        }
        let misses = [0, 0, 1, 7, 33][window.k.len()];
        due += 3 * listener.longest() as u64 * misses;
    }
    println!("{silent} silent while mode 1 stands, {replies} replies while mode 0 stands");
    assert_eq!((silent, replies), (due, due));
    found.assert_caught_all_but(&[
        "the value expected without mod 4",
        "a miss only if V is the greater",
        "a lone scheduled block is nothing heard",
        "the scheduled block counted in U",
        "releases not counted",
        "all that is remembered for the window",
        "a miss told in configuration 0",
    ]);
    comparison.finish(52_830, 52_830);
}

/// Each bit of the remembered modes alone, and all but one: where a PDCCH with DAI 2 is all that
/// was heard, only the bit of the largest k decides. In windows of one the DAI is read in both
/// modes, but in configuration 0 in none.
#[test]
fn each_bit_of_every_window() {
    let model = Model::new();
    let mut comparison = Comparison::with(&model);
    for window in windows(&model) {
        let listener = Listener::new(window);
        let latest = usize::from(*window.k.iter().min().expect("a window has subframes"));
        for mode in [0, 1] {
            let settings = cell(window.config, mode);
            let mut state = Handset { next: window.n, ..Handset::fresh(settings) };
            state.past[latest - 1] = Slot::grant(3, 2, 1);
            for bit in 0..16 {
                let decides = bit + 1 == listener.longest();
                for (modes, multiplexes) in [(1 << bit, decides), (!(1 << bit), !decides)] {
                    let handset = Handset { modes, ..state };
                    let given = comparison.silence(handset);
                    let replies = window.config == 0 || multiplexes && window.size() > 1;
                    let due = if replies { [0, 0, 0] } else { [2, 2, 1] };
                    assert_eq!(given.told(), due, "{handset:?}: {given:?}");
                    assert_eq!(given.fed.handset.modes, modes % 4096 * 2 + mode, "{handset:?}");
                }
            }
        }
    }
    comparison.finish(20 * 2 * 16 * 2, 20 * 2 * 16 * 2);
}
