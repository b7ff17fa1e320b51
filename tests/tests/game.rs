//! The game of a scheduler and the radio. Every game is answered as by its whole tree, by lists of
//! whole plays and by the papers' closed form; all other numbers are refused 27. Every play of a
//! window is also heard by the engine's handset, whose replies decide the same games; and what
//! wins by the tree is played out against all that the other side may do.

use feedback_tests::compare::Comparison;
use feedback_tests::every;
use feedback_tests::fates::{Cell, Fate, DECODED, LOST};
use feedback_tests::model::{
    bundles, grants_of, hides_a_loss, lost_before_the_last_heard, replies, Game, Granted, Model,
    Turn, Window,
};
use feedback_tests::random::Random;
use feedback_tests::{feed_nothing, game, Fed, GameAnswer, Settings, Slot};
use std::collections::{BTreeMap, HashMap, HashSet};

/// The games, and those of them that the radio wins: by size 5 to 9 one to five numbers of grants,
/// each with six of losses.
const GAMES: u64 = 10 * (2 + 3 + 4 + 5 + 6 + 7 + 8 + 9 + 10);
const OF_THE_RADIO: u64 = 6 * (1 + 2 + 3 + 4 + 5);

/// What the call answers about a game.
fn answer_of(Game { size, grants, losses }: Game) -> GameAnswer {
    game(size, grants, losses)
}

#[test]
fn every_game() {
    let model = Model::new();
    let mut comparison = Comparison::with(&model);
    let mut of_the_radio = 0;
    for Game { size, grants, losses } in Game::all() {
        of_the_radio += u64::from(comparison.game(size, grants, losses).radio);
    }
    comparison.finish(GAMES, GAMES);
    assert_eq!(of_the_radio, OF_THE_RADIO);
}

/// "The radio wins exactly when G is at least 5 and L at least 4."
#[test]
fn the_radio_wins_from_five_grants_and_four_losses_on() {
    let mut games = 0;
    for size in 1..=9 {
        for grants in 0..=size {
            for losses in 0..=9 {
                let radio = if grants >= 5 && losses >= 4 { 1 } else { 0 };
                let due = GameAnswer { refusal: 0, radio };
                assert_eq!(game(size, grants, losses), due, "{size}, {grants}, {losses}");
                games += 1;
            }
        }
    }
    assert_eq!(games, GAMES);
}

/// Few numbers of each kind: the limits, one past them, what would be allowed if only the low
/// eight bits were read, and the greatest.
const SIZES: [u16; 7] = [0, 1, 5, 9, 10, 257, 65535];
const GRANTS: [u16; 7] = [0, 1, 5, 9, 10, 256, 65535];
const LOSSES: [u16; 6] = [0, 4, 9, 10, 256, 65535];

/// Every number of one list with every number of another.
fn pairs<'a>(one: &'a [u16], other: &'a [u16]) -> impl Iterator<Item = (u16, u16)> + 'a {
    one.iter().flat_map(|first| other.iter().map(|second| (*first, *second)))
}

/// Each of the three numbers with every value, and the others with a few.
#[test]
fn refused_27_exactly_outside() {
    let model = Model::new();
    let mut by_size = Comparison::with(&model);
    let mut by_grants = Comparison::with(&model);
    let mut by_losses = Comparison::with(&model);
    for any in 0..=65535 {
        for (grants, losses) in pairs(&GRANTS, &LOSSES) {
            by_size.game(any, grants, losses);
        }
        for (size, losses) in pairs(&SIZES, &LOSSES) {
            by_grants.game(size, any, losses);
        }
        for (size, grants) in pairs(&SIZES, &GRANTS) {
            by_losses.game(size, grants, any);
        }
    }
    // No grant and one are of nine sizes each, five are of five, and nine of one; three numbers of
    // losses are allowed.
    by_size.finish(65536 * 7 * 6, (9 + 9 + 5 + 1) * 3);
    // Of the sizes one, five and nine are allowed.
    by_grants.finish(65536 * 7 * 6, (2 + 6 + 10) * 3);
    by_losses.finish(65536 * 7 * 7, (2 + 3 + 4) * 10);
    for comparison in [by_size, by_grants, by_losses] {
        assert_eq!(comparison.refused(27), comparison.total() - comparison.refused(0));
    }
}

/// Three numbers at random, half of them small. What is a game is answered by the tree, and all
/// else is refused.
#[test]
fn any_three_numbers() {
    let answers: HashMap<[u16; 3], GameAnswer> = Game::all()
        .map(|game| ([game.size, game.grants, game.losses], GameAnswer::of(game.is_forced(&[]))))
        .collect();
    let mut random = Random::new(12);
    let (mut met, mut refused) = (HashSet::new(), 0);
    for _ in 0..1_000_000 {
        let numbers = match random.once_in(2) {
            true => [0; 3].map(|_| random.below16(12)),
            false => [0; 3].map(|_| random.any()),
        };
        let due = answers.get(&numbers);
        let [size, grants, losses] = numbers;
        let given = game(size, grants, losses);
        assert_eq!(given, *due.unwrap_or(&GameAnswer::refused(27)), "{numbers:?}");
        match due {
            Some(_) => _ = met.insert(numbers),
            None => refused += 1,
        }
    }
    println!("{} games met, {refused} refused", met.len());
    assert_eq!(met.len() as u64, GAMES);
    assert!(refused > 500_000);
}

/// A play by letters: `.` held, `P` passed, `L` lost.
fn play_of(letters: &str) -> Vec<Turn> {
    let turn = |letter| match letter {
        '.' => Turn::Held,
        'P' => Turn::Passed,
        'L' => Turn::Lost,
        _ => panic!("a letter of a play: {letter}"),
    };
    letters.chars().map(turn).collect()
}

/// Plays worked by hand: whether a reply is sent, and how many grants before the last heard one
/// were lost.
#[test]
fn plays_by_hand() {
    let plays = [
        // Nothing is heard.
        (".........", false, 0),
        ("LLLLLLLLL", false, 0),
        ("....L....", false, 0),
        // Nothing is lost before the last heard one.
        ("P........", true, 0),
        ("P.P.P.P.P", true, 0),
        ("PPPPPLLLL", true, 0),
        // U is 1, and V 2, 3, 4.
        ("LP.......", false, 1),
        ("LLP......", false, 2),
        ("LLLP.....", false, 3),
        // U is 1, and V is 1 again; with a fifth lost it is 2.
        ("LLLLP....", true, 4),
        ("L.L.L.L.P", true, 4),
        ("LLLLLP...", false, 5),
        ("LLLLLLLLP", true, 8),
        // U is 2, and V is 3; U is 2, and V is 2.
        ("PLP......", false, 1),
        ("PLLLLP...", true, 4),
        ("LPLLLP...", true, 4),
        // U is 5, and V is 1.
        ("LLLLPPPPP", true, 4),
    ];
    for (letters, reply_due, lost_due) in plays {
        let play = play_of(letters);
        assert_eq!(replies(&play), reply_due, "{letters}");
        assert_eq!(lost_before_the_last_heard(&play), lost_due, "{letters}");
        assert_eq!(hides_a_loss(&play), reply_due && lost_due > 0, "{letters}");
        assert_eq!(kept_along_the_way(&play), reply_due && lost_due > 0, "{letters}");
    }
    let heard = |subframe, dai| Granted { subframe, dai, is_heard: true };
    let lost = |subframe, dai| Granted { subframe, dai, is_heard: false };
    let due = [lost(0, 1), heard(2, 2), lost(3, 3), heard(5, 4), heard(6, 1), lost(8, 2)];
    assert_eq!(grants_of(&play_of("L.PL.PP.L")), due);
}

/// What the two may do: the scheduler is forced at the end, and the radio has no more to lose.
#[test]
fn moves_by_hand() {
    let game = Game { size: 3, grants: 2, losses: 1 };
    let (held, passed) = (vec![Turn::Held], vec![Turn::Passed]);
    let any = vec![Turn::Passed, Turn::Lost];
    for (letters, due) in [
        ("", vec![held.clone(), any.clone()]),
        (".", vec![any.clone()]),
        ("P", vec![held.clone(), any]),
        ("L", vec![held.clone(), passed.clone()]),
        (".L", vec![passed.clone()]),
        ("PL", vec![held.clone()]),
        ("L.", vec![passed]),
        ("PP", vec![held]),
    ] {
        assert_eq!(game.moves(&play_of(letters)), due, "{letters}");
    }
}

/// Every play of so many subframes.
fn every_play(size: u16, mut each: impl FnMut(&[Turn])) {
    for number in 0..3usize.pow(size.into()) {
        let digits = (0..size).map(|at| number / 3usize.pow(at.into()) % 3);
        let turns = [Turn::Held, Turn::Passed, Turn::Lost];
        let play: Vec<Turn> = digits.map(|digit| turns[digit]).collect();
        each(&play);
    }
}

/// Whether the radio has won a play, by numbers that are kept from subframe to subframe: the last
/// DAI that was sent, U, V, and how many were lost, in all and before the last heard one.
fn kept_along_the_way(play: &[Turn]) -> bool {
    let (mut dai, mut u, mut v, mut lost, mut lost_before) = (0, 0, 0, 0, 0);
    for turn in play {
        if *turn != Turn::Held {
            dai = dai % 4 + 1;
        }
        match turn {
            Turn::Held => {}
            Turn::Passed => (u, v, lost_before) = (u + 1, dai, lost),
            Turn::Lost => lost += 1,
        }
    }
    u > 0 && v == (u - 1) % 4 + 1 && lost_before > 0
}

/// A plan of the radio: of so many grants it loses those with these numbers, bit j for the one
/// that has j before it, whatever the subframes are.
type Plan = (u16, u16);

/// For each plan in how many plays it is followed, and in how many of them the radio wins.
fn plans(size: u16) -> BTreeMap<Plan, (u64, u64)> {
    let mut plans = BTreeMap::new();
    every_play(size, |play| {
        let granted: Vec<&Turn> = play.iter().filter(|turn| **turn != Turn::Held).collect();
        let numbered = (0..).zip(&granted).filter(|(_, turn)| ***turn == Turn::Lost);
        let lost: u16 = numbered.map(|(j, _)| 1 << j).sum();
        let (followed, won) = plans.entry((granted.len() as u16, lost)).or_insert((0, 0));
        *followed += 1;
        *won += u64::from(kept_along_the_way(play));
    });
    plans
}

/// How many plays the moves of a game lead to.
fn plays_from(game: Game, played: &[Turn]) -> u64 {
    if game.is_over(played) {
        return 1;
    }
    let turns = game.moves(played).concat();
    turns.into_iter().map(|turn| plays_from(game, &[played, &[turn]].concat())).sum()
}

/// All 3^size plays are listed. Either the radio wins none of those of a game, and so the
/// scheduler can do what it likes, or the radio has a plan that wins wherever the grants stand.
/// This decides every game, as the tree does.
#[test]
fn lists_of_plays_decide_as_the_tree_does() {
    let mut plays = 0;
    for size in 1..=9 {
        let plans = plans(size);
        let followed: u64 = plans.values().map(|(followed, _)| followed).sum();
        assert_eq!((plans.len(), followed), ((1 << (size + 1)) - 1, 3u64.pow(size.into())));
        for game in Game::all().filter(|game| game.size == size) {
            let Game { grants, losses, .. } = game;
            let is_of_game =
                |(number, lost): &Plan| *number == grants && lost.count_ones() <= losses.into();
            let of_game = || plans.iter().filter(|(plan, _)| is_of_game(plan)).map(|(_, is)| is);
            let none_is_won = of_game().all(|(_, won)| *won == 0);
            let has_a_plan = of_game().any(|(followed, won)| won == followed);
            assert_ne!(none_is_won, has_a_plan, "{game:?}");
            assert_eq!(game.is_forced(&[]), has_a_plan, "{game:?}");
            assert_eq!(answer_of(game), GameAnswer::of(has_a_plan), "{game:?}");
            let of_moves = plays_from(game, &[]);
            assert_eq!(of_moves, of_game().map(|(followed, _)| followed).sum(), "{game:?}");
            plays += of_moves;
        }
    }
    println!("{plays} plays of {GAMES} games");
}

/// A rule by which a play is won.
type Rule = fn(&[Turn]) -> bool;

/// The games with two grants or more and at least a loss: of the sizes 2 to 9.
const FROM_TWO_ON: u64 = 9 * (1 + 2 + 3 + 4 + 5 + 6 + 7 + 8);

/// Rules that differ from the papers' in one point, and how many games they answer otherwise.
const WRONG: [(&str, Rule, u64); 5] = [
    (
        "the DAI is not read",
        |play| lost_before_the_last_heard(play) > 0,
        FROM_TWO_ON - OF_THE_RADIO,
    ),
    (
        "lost grants are not counted in the DAI",
        |play| {
            let not_lost: Vec<Turn> =
                play.iter().copied().filter(|turn| *turn != Turn::Lost).collect();
            replies(&not_lost) && lost_before_the_last_heard(play) > 0
        },
        FROM_TWO_ON - OF_THE_RADIO,
    ),
    (
        "losses behind the last heard grant are hidden too",
        |play| replies(play) && play.contains(&Turn::Lost),
        FROM_TWO_ON - OF_THE_RADIO,
    ),
    // Four losses of nine grants leave five that are heard.
    (
        "the value expected without mod 4",
        |play| {
            let heard = play.iter().filter(|turn| **turn == Turn::Passed).count();
            heard <= 4 && hides_a_loss(play)
        },
        1,
    ),
    // Eight losses of nine grants hide.
    ("the DAI goes to 8", |play| lost_before_the_last_heard(play) == 8, OF_THE_RADIO - 2),
];

#[test]
fn rules_that_differ_in_one_point_answer_otherwise() {
    for (name, rule, due) in WRONG {
        let differs =
            |game: &Game| GameAnswer::of(game.is_forced_by(&rule, &[])) != answer_of(*game);
        let otherwise = Game::all().filter(differs).count() as u64;
        println!("{name}: {otherwise} otherwise");
        assert_eq!(otherwise, due, "{name}");
    }
}

/// A window with the play in its last subframes, or in all of them: what is before is held. By
/// position, as the handset's cell takes it.
fn pattern(window: &Window, play: &[Turn]) -> Vec<Fate> {
    let in_time = window.in_time();
    let mut pattern = vec![Fate::Nothing; in_time.len()];
    let last = &in_time[in_time.len() - play.len()..];
    for (position, turn) in last.iter().zip(play) {
        pattern[usize::from(*position)] = match turn {
            Turn::Held => Fate::Nothing,
            Turn::Passed => DECODED,
            Turn::Lost => LOST,
        };
    }
    pattern
}

/// What the engine's handset answers for the window of a play. In the window it remembers the
/// heard grants alone, with the DAIs that they have in the play.
fn answered(cell: &Cell, play: &[Turn]) -> Fed {
    let Cell { settings, window, .. } = *cell;
    let handset = cell.hear(&pattern(window, play));
    let in_time = window.in_time();
    let mut dais = vec![0; in_time.len()];
    for Granted { subframe, dai, .. } in grants_of(play).into_iter().filter(|grant| grant.is_heard)
    {
        dais[in_time.len() - play.len() + subframe] = dai;
    }
    for (position, dai) in in_time.into_iter().zip(dais) {
        let slot = handset.past[usize::from(window.k[usize::from(position)]) - 1];
        let kind = if dai == 0 { 0 } else { Slot::GRANT };
        let remembered = (slot.kind, u16::from(slot.dai));
        assert_eq!(remembered, (kind, dai), "{settings:?}, {window:?}, {play:?}");
    }
    feed_nothing(handset)
}

/// A bundled reply, with an ACK where all that was heard is decoded; or silence.
fn is_reply(fed: Fed) -> bool {
    let Fed { refusal, kind, b0, b1, .. } = fed;
    match [refusal, kind, b0, b1] {
        [0, Fed::BUNDLED, 1, 0] => true,
        [0, Fed::SILENT, 0, 0] => false,
        _ => panic!("{fed:?}"),
    }
}

/// The bundled windows of configurations 1 to 6, in both modes where they have them; the cells
/// carry one block at most.
fn bundled_windows(model: &Model) -> Vec<(Settings, &Window)> {
    let all = every::window(model, [50], &[10], &[(0, 1), (1, 1)]);
    let is_bundled = |(settings, window): &(Settings, &Window)| {
        window.config != 0 && bundles(*settings, window.size())
    };
    all.filter(is_bundled).collect()
}

/// The ways to choose so many places of some.
fn choose(places: u64, chosen: u64) -> u64 {
    (0..chosen).map(|c| places - c).product::<u64>() / (1..=chosen).product::<u64>()
}

/// The plays of so many subframes in which a grant is heard, counted by the place i of the last
/// one: of the subframes before it some are lost, as many as fit, and the others held or passed;
/// those behind it are held or lost.
fn plays_with(size: u64, fits: impl Fn(u64) -> bool) -> u64 {
    let up_to = |i: u64| (0..=i).filter(|lost| fits(*lost)).map(move |lost| (i, lost));
    let plays = (0..size).flat_map(up_to).map(|(i, lost)| {
        choose(i, lost) * 2u64.pow((i - lost) as u32) * 2u64.pow((size - 1 - i) as u32)
    });
    plays.sum()
}

/// Every play of every bundled window is heard by a handset, which replies exactly where the game
/// says so. By its replies the games of that size are decided anew, on the whole tree: so they are
/// answered. No window but that of nine hides a loss, and that one with five grants and four losses
/// at least.
#[test]
fn every_play_is_heard_by_a_handset() {
    let model = Model::new();
    let windows = bundled_windows(&model);
    // 17 in mode 0, and seven of one subframe in mode 1.
    assert_eq!(windows.len(), 17 + 7);
    let (mut of_nine, mut games, mut fewest) = (0, 0, (9, 9));
    for (settings, window) in windows {
        let cell = Cell::new(settings, window);
        let (mut plays, mut hiding) = (0, 0);
        let mut replied = HashSet::new();
        every_play(window.size(), |play| {
            let is_reply = is_reply(answered(&cell, play));
            assert_eq!(is_reply, replies(play), "{settings:?}, {window:?}, {play:?}");
            let pattern = pattern(window, play);
            let lost = cell.lost_before_the_last(&pattern);
            assert_eq!(lost, lost_before_the_last_heard(play), "{window:?}, {play:?}");
            assert_eq!(hides_a_loss(play), is_reply && lost > 0, "{window:?}, {play:?}");
            if hides_a_loss(play) {
                let granted = grants_of(play).len();
                let all_lost = grants_of(play).iter().filter(|grant| !grant.is_heard).count();
                fewest = fewest.min((granted, all_lost));
                assert!(granted >= 5 && all_lost >= 4, "{window:?}, {play:?}");
                assert!(lost == 4 || lost == 8, "{window:?}, {play:?}");
                hiding += 1;
            }
            plays += 1;
            if is_reply {
                replied.insert(play.to_vec());
            }
        });
        let size = u64::from(window.size());
        assert_eq!(plays, 3u64.pow(size as u32), "{window:?}");
        assert_eq!(replied.len() as u64, plays_with(size, |lost| lost % 4 == 0), "{window:?}");
        assert_eq!(hiding, plays_with(size, |lost| lost == 4 || lost == 8), "{window:?}");
        assert_eq!(hiding > 0, size == 9, "{window:?}");
        let hidden = |play: &[Turn]| replied.contains(play) && lost_before_the_last_heard(play) > 0;
        for game in Game::all().filter(|game| u64::from(game.size) == size) {
            let due = GameAnswer::of(game.is_forced_by(&hidden, &[]));
            assert_eq!(answer_of(game), due, "{settings:?}, {window:?}, {game:?}");
            games += 1;
        }
        of_nine += u64::from(size == 9);
        println!("{window:?}: {plays} plays, {} replies, {hiding} hide a loss", replied.len());
    }
    assert_eq!(fewest, (5, 4));
    // By size one, two, three, four and nine: so many windows, each with its games.
    assert_eq!((of_nine, games), (1, 14 * 20 + 4 * 30 + 40 + 4 * 50 + 100));
}

/// Every play of a game in which the radio answers by the tree.
fn against_the_radio(game: Game, played: &[Turn], each: &mut dyn FnMut(&[Turn])) {
    if game.is_over(played) {
        return each(played);
    }
    for answers in game.moves(played) {
        let turn = game.best_of_the_radio(played, &answers);
        against_the_radio(game, &[played, &[turn]].concat(), each);
    }
}

/// Every play of a game in which the scheduler moves by the tree.
fn against_the_scheduler(game: Game, played: &[Turn], each: &mut dyn FnMut(&[Turn])) {
    if game.is_over(played) {
        return each(played);
    }
    for turn in game.best_of_the_scheduler(played) {
        against_the_scheduler(game, &[played, &[turn]].concat(), each);
    }
}

/// The window of nine of configuration 5.
fn nine(model: &Model) -> Cell<'_> {
    Cell::new(Settings::plain(5, 50, 10, 0, 1), model.window(5, 2).expect("a window"))
}

/// Whether the handset of a window of nine sends an ACK at the end of a play, which may be of
/// fewer subframes, though a grant before the last heard one was lost.
fn is_hidden_from(cell: &Cell, play: &[Turn]) -> bool {
    let lost = cell.lost_before_the_last(&pattern(cell.window, play));
    is_reply(answered(cell, play)) && lost > 0
}

/// The radio, by the tree, against every scheduler, in all games that it wins: each ends in a
/// reply of the engine's handset that hides a loss.
#[test]
fn the_radio_by_the_tree_wins_against_every_scheduler() {
    let model = Model::new();
    let cell = nine(&model);
    let (mut games, mut plays) = (0, 0);
    for game in Game::all().filter(|game| game.grants >= 5 && game.losses >= 4) {
        let mut of_game = 0;
        against_the_radio(game, &[], &mut |play| {
            let lost = play.iter().filter(|turn| **turn == Turn::Lost).count();
            let granted = play.iter().filter(|turn| **turn != Turn::Held).count();
            let is_of_game = (play.len(), granted) == (game.size.into(), game.grants.into());
            assert!(is_of_game && lost <= game.losses.into(), "{game:?}, {play:?}");
            assert!(is_hidden_from(&cell, play), "{game:?}, {play:?}");
            of_game += 1;
        });
        // Each scheduler comes to one of the ways to grant so often.
        assert_eq!(of_game, choose(game.size.into(), game.grants.into()), "{game:?}");
        (games, plays) = (games + 1, plays + of_game);
    }
    println!("{games} games, {plays} plays");
    assert_eq!(games, OF_THE_RADIO);
}

/// The scheduler, by the tree, against every radio, in all other games: none ends in such a
/// reply.
#[test]
fn the_scheduler_by_the_tree_prevents_it_against_every_radio() {
    let model = Model::new();
    let cell = nine(&model);
    let (mut games, mut plays, mut replies) = (0, 0, 0);
    for game in Game::all().filter(|game| game.grants < 5 || game.losses < 4) {
        against_the_scheduler(game, &[], &mut |play| {
            let lost = play.iter().filter(|turn| **turn == Turn::Lost).count();
            let granted = play.iter().filter(|turn| **turn != Turn::Held).count();
            let is_of_game = (play.len(), granted) == (game.size.into(), game.grants.into());
            assert!(is_of_game && lost <= game.losses.into(), "{game:?}, {play:?}");
            assert!(!is_hidden_from(&cell, play), "{game:?}, {play:?}");
            plays += 1;
            replies += u64::from(is_reply(answered(&cell, play)));
        });
        games += 1;
    }
    println!("{games} games, {plays} plays, {replies} replies");
    assert_eq!(games, GAMES - OF_THE_RADIO);
    assert!(replies > 0 && replies < plays);
}
