//! Wrong ways with step lists, each as a rule of its own, and what catches them.

use crate::rounds::rounds_that;
use crate::statements::same_choice;
use crate::tiny_lists::tiny_lists;
use second::choice::{filling, raising, Document, Offer, Rule, Step, Taken, Way};
use second::offers::allot;
use second::random::Random;
use second::reading::Round;
use second::steps::ListedStep;

/// How many tiny rounds a wrong rule is run over.
const ROUNDS: u64 = 1500;

/// A way of going through a step list.
#[derive(Clone, Copy, Debug, PartialEq, Eq)]
enum Lists {
    /// That of the documents.
    Right,
    /// No vacancies are handed on.
    NothingHanded,
    /// Only what is left of a step's own positions is handed on, not what was handed to it.
    OwnHanded,
    /// All positions of a step are handed on, taken or not.
    AllHanded,
    /// Vacancies go to the next step, whichever is named.
    ToTheNext,
    /// Of the vacancies handed to a step only those of the last that hands to it count.
    LastHanded,
    /// Handed positions replace a step's own.
    HandedAlone,
    /// Reserved positions that nobody was taken for stay reserved where they are handed to.
    ReservedHanded,
    /// Only positions that are not reserved are handed on.
    OpenHanded,
    /// Reserved positions that nobody was taken for are not filled by merit, but handed on.
    UnfilledHanded,
    /// A category is considered only at its first step.
    OnceEach,
    /// Steps are gone through in order of their categories.
    InCategoryOrder,
    /// Steps have the categories of document 01, whatever is listed.
    FixedCategories,
    /// A candidate taken at a step is taken again at later ones of another category.
    TakenAgain,
}

impl Lists {
    /// The places of the steps in the order in which they are gone through.
    fn order(self, steps: &[ListedStep]) -> Vec<usize> {
        let mut order: Vec<usize> = (0..steps.len()).collect();
        if self == Lists::InCategoryOrder {
            order.sort_by_key(|&place| steps[place].category);
        }
        order
    }

    /// The category that a step considers, if it considers any.
    fn category(self, steps: &[ListedStep], place: usize) -> Option<u8> {
        let own = steps[place].category;
        let earlier = steps[..place].iter().any(|step| step.category == own);
        match self {
            Lists::OnceEach if earlier => None,
            Lists::FixedCategories => Some([0, 1, 2, 3, 4, 0][place % 6]),
            _ => Some(own),
        }
    }

    /// The positions of a step.
    fn positions(self, own: usize, handed: &[usize]) -> usize {
        match (self, handed) {
            (Lists::LastHanded, [.., last]) => own + last,
            (Lists::HandedAlone, [_, ..]) => handed.iter().sum(),
            _ => own + handed.iter().sum::<usize>(),
        }
    }

    /// The vacancies that a step hands on, from its own positions, all its positions, the reserved ones, and how many it took in all and for use.
    fn vacancies(self, own: usize, all: usize, reserved: usize, took: usize, used: usize) -> usize {
        match self {
            Lists::NothingHanded => 0,
            Lists::OwnHanded => own.saturating_sub(took),
            Lists::AllHanded => all,
            Lists::OpenHanded => (all - reserved).saturating_sub(took - used),
            _ => all - took,
        }
    }

    /// The place of the step that gets the vacancies of a step.
    fn receiver(self, steps: &[ListedStep], place: usize) -> Option<usize> {
        let named = usize::from(steps[place].receiver).checked_sub(1)?;
        match self {
            Lists::ToTheNext => Some(place + 1),
            _ => Some(named),
        }
    }
}

/// Who a step of a category considers, best first.
fn considered(
    lists: Lists,
    merit: &[usize],
    offers: &[Offer],
    category: u8,
    taken: &[Taken],
) -> Vec<usize> {
    let gone = |candidate: usize| {
        let mut taken = taken.iter().filter(|one| one.offer.candidate == candidate);
        taken.any(|one| lists != Lists::TakenAgain || one.offer.category == category)
    };
    let mut merit = merit.to_vec();
    merit.retain(|&candidate| {
        let offer = Offer {
            candidate,
            category,
        };
        offers.contains(&offer) && !gone(candidate)
    });
    merit
}

/// The positions of each type that are left where so many are counted off, the first types first.
fn left(reserved: &[usize], taken: usize) -> Vec<usize> {
    let mut gone = taken;
    let less = |&own: &usize| {
        let here = own.min(gone);
        gone -= here;
        own - here
    };
    reserved.iter().map(less).collect()
}

impl Rule for Lists {
    fn choose(&self, round: &Round, institute: usize, offers: &[Offer]) -> Vec<Taken> {
        let lists = *self;
        let own = &round.institutes[institute].steps;
        let mut handed: Vec<Vec<usize>> = vec![Vec::new(); own.len()];
        let mut reserved: Vec<Vec<usize>> = own.iter().map(|step| step.reserved.clone()).collect();
        let mut taken = Vec::new();
        for place in lists.order(own) {
            let positions = lists.positions(own[place].positions, &handed[place]);
            let category = lists.category(own, place);
            let considered = category.map_or(Vec::new(), |category| {
                considered(lists, &round.merit[institute], offers, category, &taken)
            });
            let step = Step {
                marks: considered
                    .iter()
                    .map(|&who| round.candidates[who].marks)
                    .collect(),
                considered,
                positions,
                reserved: &reserved[place].clone(),
            };
            let for_use = raising(&step);
            let mut by_merit = filling(&step, &for_use);
            let all_reserved: usize = step.reserved.iter().sum();
            if lists == Lists::UnfilledHanded {
                by_merit.truncate(positions.saturating_sub(all_reserved));
            }
            let (used, took) = (for_use.len(), for_use.len() + by_merit.len());
            for (way, places) in [(Way::ForUse, for_use), (Way::ByMerit, by_merit)] {
                taken.extend(places.into_iter().map(|who| Taken {
                    offer: Offer {
                        candidate: step.considered[who],
                        category: category.expect("somebody is considered"),
                    },
                    step: place as u8 + 1,
                    way,
                }));
            }
            if let Some(to) = lists.receiver(own, place) {
                let own = own[place].positions;
                handed[to].push(lists.vacancies(own, positions, all_reserved, took, used));
                if lists == Lists::ReservedHanded {
                    let more = left(step.reserved, took);
                    for (here, more) in reserved[to].iter_mut().zip(more) {
                        *here += more;
                    }
                }
            }
        }
        taken.sort();
        taken
    }
}

/// In how many tiny rounds a way chooses otherwise from some set, in how many it allots otherwise, and in which worked rounds.
fn counted(lists: Lists) -> ([usize; 2], Vec<String>) {
    let mut counts = [0; 2];
    for seed in 0..ROUNDS {
        let round = tiny_lists(seed);
        let chooses = same_choice(&round, &lists, &mut Random::new(seed));
        counts[0] += usize::from(chooses.is_err());
        counts[1] += usize::from(allot(&round, &lists) != allot(&round, &Document));
    }
    let rounds = rounds_that(|round| round.policy == 2).into_iter();
    let names = rounds
        .filter(|(_, round)| allot(round, &lists) != allot(round, &Document))
        .map(|(name, _)| name);
    (counts, names.collect())
}

/// Asserts in how many tiny rounds a way chooses and allots otherwise, and in which worked rounds.
fn caught(lists: Lists, counts: [usize; 2], names: &[&str]) {
    let names: Vec<String> = names.iter().map(|name| name.to_string()).collect();
    assert_eq!(counted(lists), (counts, names), "{lists:?}");
}

/// The worked rounds in which it makes a difference that vacancies are handed on.
const HANDED_ON: [&str; 5] = [
    "steps-chain",
    "steps-only-handed",
    "steps-past-one",
    "steps-twelve",
    "steps-two-to-one",
];

#[test]
fn the_right_way_is_not_caught() {
    caught(Lists::Right, [0, 0], &[]);
}

#[test]
fn handing_on_nothing_is_caught() {
    caught(Lists::NothingHanded, [849, 539], &HANDED_ON);
}

#[test]
fn handing_on_own_positions_alone_is_caught() {
    caught(
        Lists::OwnHanded,
        [390, 237],
        &["steps-chain", "steps-twelve"],
    );
}

#[test]
fn handing_on_taken_positions_too_is_caught() {
    caught(
        Lists::AllHanded,
        [485, 257],
        &[
            "steps-a",
            "steps-chain",
            "steps-only-handed",
            "steps-twelve",
            "steps-two-to-one",
            "wide-steps-a",
            "wide-steps-two-lists",
        ],
    );
}

#[test]
fn handing_on_to_the_next_step_is_caught() {
    caught(Lists::ToTheNext, [376, 176], &["steps-past-one"]);
}

#[test]
fn counting_the_last_that_hands_on_alone_is_caught() {
    caught(Lists::LastHanded, [318, 173], &["steps-two-to-one"]);
}

#[test]
fn handed_positions_instead_of_own_ones_are_caught() {
    caught(
        Lists::HandedAlone,
        [784, 548],
        &["steps-chain", "steps-two-to-one"],
    );
}

#[test]
fn other_ways_with_reserved_positions_are_caught() {
    caught(Lists::ReservedHanded, [247, 95], &["steps-only-handed"]);
    caught(Lists::OpenHanded, [263, 136], &["steps-only-handed"]);
    caught(Lists::UnfilledHanded, [321, 138], &["steps-only-handed"]);
}

#[test]
fn considering_a_category_once_is_caught() {
    caught(Lists::OnceEach, [767, 560], &["steps-category-twice"]);
}

#[test]
fn going_by_categories_is_caught() {
    caught(Lists::InCategoryOrder, [848, 488], &HANDED_ON);
}

#[test]
fn the_categories_of_document_01_are_caught() {
    caught(
        Lists::FixedCategories,
        [1271, 1172],
        &[
            "steps-category-twice",
            "steps-chain",
            "steps-one",
            "steps-only-handed",
            "steps-past-one",
            "steps-positions-1024",
            "steps-twelve",
            "steps-two-to-one",
            "wide-steps-two-lists",
        ],
    );
}

#[test]
fn taking_somebody_again_shows_only_in_the_choice_itself() {
    caught(Lists::TakenAgain, [645, 0], &[]);
}
