//! The pairs of a window and its resources, one to one, through both C calls.
//! The answers are held to each other and to the range, not to the model, which
//! gives the windows and N_4 only.

use feedback_tests::compare::{CCES, POSITIONS};
use feedback_tests::every;
use feedback_tests::model::{edge, Model, NRB};
use feedback_tests::{inverse, resource, InverseAnswer, ResourceAnswer, Settings};

const N1: [u16; 6] = [0, 1, 10, 1023, 2046, 2047];

/// Calls `each` for every window, bandwidth and N1, with M and N_4, and adds up
/// what it counts.
fn for_every_window(each: fn(Settings, u16, u16, u16) -> u64) -> u64 {
    let model = Model::new();
    every::window(&model, NRB, &N1, &[(0, 2)])
        .map(|(settings, window)| each(settings, window.n, window.size(), edge(settings.nrb, 4)))
        .sum()
}

/// Every pair of one window: its resource is one of the window's, no other pair
/// has it, and it leads back to the pair. All resources are used.
fn pairs_lead_there_and_back(settings: Settings, n: u16, size: u16, cces: u16) -> u64 {
    let mut taken = vec![false; usize::from(size * cces)];
    for position in 0..size {
        for cce in 0..cces {
            let there = resource(settings, n, position, cce);
            let place = there.resource.wrapping_sub(settings.n1);
            let free = taken.get(usize::from(place)) == Some(&false);
            assert!(
                there.refusal == 0 && free,
                "{settings:?}, n {n}, position {position}, cce {cce}: {there:?} is not a \
                 resource of the window, or was that of an earlier pair"
            );
            taken[usize::from(place)] = true;
            let back = inverse(settings, n, there.resource);
            assert!(
                back == InverseAnswer::of(position, cce),
                "{settings:?}, n {n}: ({position}, {cce}) leads to {there:?}, and that to {back:?}"
            );
        }
    }
    assert!(taken.iter().all(|each| *each), "{settings:?}, n {n}: a resource of no pair");
    taken.len() as u64
}

/// Every resource of one window: it is that of a pair of the window, and the
/// pair leads back to it.
fn resources_lead_there_and_back(settings: Settings, n: u16, size: u16, cces: u16) -> u64 {
    let resources = settings.n1..=settings.n1 + size * cces - 1;
    for number in resources.clone() {
        let there = inverse(settings, n, number);
        assert!(
            there.refusal == 0 && there.position < size && there.cce < cces,
            "{settings:?}, n {n}, resource {number}: {there:?} is not a pair of the window"
        );
        let back = resource(settings, n, there.position, there.cce);
        assert!(
            back == ResourceAnswer::of(number),
            "{settings:?}, n {n}: resource {number} leads to {there:?}, and that to {back:?}"
        );
    }
    resources.count() as u64
}

#[test]
fn every_pair_has_its_own_resource_and_comes_back() {
    let pairs = for_every_window(pairs_lead_there_and_back);
    println!("{pairs} pairs");
    assert_eq!(pairs, POSITIONS * CCES * 6);
}

#[test]
fn every_resource_has_its_own_pair_and_comes_back() {
    let resources = for_every_window(resources_lead_there_and_back);
    println!("{resources} resources");
    assert_eq!(resources, POSITIONS * CCES * 6);
}
