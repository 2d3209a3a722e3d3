//! What an institute's steps take, in other words, with nothing shared: who is there for use is found by trying every set.

use second::choice::Offer;
use second::reading::Round;

/// What a step takes, as merit places from 0, best first.
#[derive(Debug, Default, PartialEq, Eq)]
pub struct Tried {
    pub for_use: Vec<usize>,
    pub by_merit: Vec<usize>,
}

/// What the six steps of an institute take from a set of offers to it.
pub fn by_trying(round: &Round, institute: usize, offers: &[Offer]) -> [Tried; 6] {
    let own = &round.institutes[institute];
    let merit = &round.merit[institute];
    let mut tried: [Tried; 6] = Default::default();
    let mut gone: Vec<usize> = Vec::new();
    let mut vacant = 0;
    for (step, category) in [0, 1, 2, 3, 4, 0].into_iter().enumerate() {
        let mut positions = own.positions[category];
        let mut reserved = own.reserved[category].clone();
        if step == 5 {
            positions = if round.policy == 1 { vacant } else { 0 };
            reserved.fill(0);
        }
        let places: Vec<usize> = (0..merit.len())
            .filter(|&place| {
                let offer = Offer {
                    candidate: merit[place],
                    category: category as u8,
                };
                offers.contains(&offer) && !gone.contains(&place)
            })
            .collect();
        let marks: Vec<u8> = places
            .iter()
            .map(|&place| round.candidates[merit[place]].marks)
            .collect();
        let users = users(&marks, &mut reserved);
        let for_use: Vec<usize> = users.iter().map(|&who| places[who]).collect();
        let by_merit: Vec<usize> = places
            .into_iter()
            .filter(|place| !for_use.contains(place))
            .take(positions - for_use.len())
            .collect();
        if category == 3 {
            vacant = positions - for_use.len() - by_merit.len();
        }
        gone.extend(for_use.iter().chain(&by_merit));
        tried[step] = Tried { for_use, by_merit };
    }
    tried
}

/// Of the sets whose members can all be given a reserved position of a type they hold, the largest; of several such, the one that has the better member where two first differ.
fn users(marks: &[u8], reserved: &mut [usize]) -> Vec<usize> {
    let members = |set: usize| -> Vec<usize> {
        (0..marks.len())
            .filter(|who| set >> (marks.len() - 1 - who) & 1 == 1)
            .collect()
    };
    (0..1usize << marks.len())
        .filter(|&set| {
            let held: Vec<u8> = members(set).iter().map(|&who| marks[who]).collect();
            all_given(&held, reserved)
        })
        .max_by_key(|&set| (set.count_ones(), set))
        .map_or(Vec::new(), members)
}

/// Whether each can be given a reserved position of a type held, one position each, by trying every way.
fn all_given(marks: &[u8], reserved: &mut [usize]) -> bool {
    let Some((&own, rest)) = marks.split_first() else {
        return true;
    };
    for held in 0..reserved.len() {
        if own >> held & 1 == 1 && reserved[held] > 0 {
            reserved[held] -= 1;
            let others = all_given(rest, reserved);
            reserved[held] += 1;
            if others {
                return true;
            }
        }
    }
    false
}
