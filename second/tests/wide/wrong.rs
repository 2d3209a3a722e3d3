//! Wrong ways with the wide form, and the files, lists and inputs that catch them.

use crate::areas_of_a::TOO_SMALL;
use crate::cases::{cases, Case};
use crate::own::{read_by, Way};
use crate::reviews::changed;
use crate::rounds::files;
use crate::spread::spread;
use crate::tiny::tiny;
use crate::wrong_readings::{caught_in, named, names, with_readings, Read};
use second::choice::Document;
use second::generate::{
    boundary, damaged, lawful, lawful_round, two_faults, wide_boundary, wide_damaged,
    wide_two_faults, Class,
};
use second::list::seat_bytes;
use second::offers::allot;
use second::printing::{print, print_round};
use second::random::Random;
use second::reading::{read, Round};
use second::review::found;
use second::widening::widened;
use second::writing::write;
use second::{call, call_on, review, Form, Review};
use std::sync::LazyLock;

const A: &[u8] = include_bytes!("../../../rounds/a.round");

/// The files of a class for the seeds below a count.
fn made(class: Class, seeds: u64) -> impl Iterator<Item = Vec<u8>> {
    (0..seeds).map(move |seed| lawful(class, seed))
}

/// Lawful wide files.
fn lawful_files() -> Vec<Vec<u8>> {
    made(Class::WideTiny, 1000)
        .chain(made(Class::WideSmall, 500))
        .chain(made(Class::WideMany, 200))
        .chain(made(Class::WideMid, 20))
        .collect()
}

/// Damaged wide files, 100 for each question and 500 of two faults.
fn damaged_files() -> Vec<Vec<u8>> {
    let one = (0..1300).map(|seed| wide_damaged((seed % 13) as u8 + 1, seed).file);
    let two = (0..500).map(|seed| wide_two_faults(seed).file);
    one.chain(two).collect()
}

/// The files at the edges of the wide form, but for the longest.
fn edge_files() -> Vec<Vec<u8>> {
    let files = wide_boundary().into_iter();
    files
        .filter(|(name, _, _)| !name.starts_with("longest"))
        .map(|(_, file, _)| file)
        .collect()
}

#[test]
fn the_reading_is_that_of_the_tests_own() {
    let narrow = (0..1300).map(|seed| damaged((seed % 13) as u8 + 1, seed).file);
    let narrow = narrow.chain((0..1000).map(|seed| two_faults(seed).file));
    let narrow = narrow
        .chain(made(Class::Tiny, 500))
        .chain(made(Class::Mid, 10));
    let edges = boundary().into_iter().chain(wide_boundary());
    let files = lawful_files()
        .into_iter()
        .chain(damaged_files())
        .chain(narrow)
        .chain(edges.map(|(_, file, _)| file))
        .chain(files().into_iter().map(|(_, file)| file));
    let mut count = 0;
    for file in files {
        assert_eq!(read(&file), read_by(Way::Right, &file));
        count += 1;
    }
    assert_eq!(count, 6914);
}

/// The lawful, the damaged and the edge files.
static FILES: LazyLock<[Vec<Read>; 3]> =
    LazyLock::new(|| with_readings([lawful_files(), damaged_files(), edge_files()]));

/// Asserts in how many lawful, damaged and edge files, and in which worked rounds, a wrong reading gives another round or refusal.
fn caught(way: Way, counts: [usize; 3], rounds: &[&str]) {
    caught_in(&FILES, way, counts, rounds);
}

#[test]
fn the_files_are_these_many() {
    let counts = [0, 1, 2].map(|set| FILES[set].len());
    assert_eq!(counts, [1720, 1800, 354]);
}

#[test]
fn reading_entries_two_bytes_wide_is_caught() {
    caught(
        Way::TwoByteEntries,
        [1691, 990, 70],
        &[
            "wide-a",
            "wide-entries-16",
            "wide-institute-300",
            "wide-m-1000",
            "wide-steps-a",
            "wide-steps-two-lists",
        ],
    );
}

#[test]
fn using_the_low_byte_alone_is_caught() {
    caught(
        Way::LowByte,
        [186, 241, 58],
        &[
            "wide-institute-257-of-1",
            "wide-institute-300",
            "wide-m-1000",
        ],
    );
}

#[test]
fn reading_the_high_byte_first_is_caught() {
    caught(
        Way::HighFirst,
        [1710, 974, 133],
        &[
            "wide-a",
            "wide-candidate-2-narrow",
            "wide-entries-16",
            "wide-institute-300",
            "wide-m-1000",
            "wide-m-33",
            "wide-steps-a",
            "wide-steps-two-lists",
        ],
    );
}

#[test]
fn letting_1001_institutes_pass_is_caught() {
    caught(Way::OneInstituteMore, [0, 19, 1], &["wide-m-1001"]);
}

#[test]
fn letting_255_institutes_pass_at_most_is_caught() {
    caught(
        Way::InstitutesOfAByte,
        [200, 475, 77],
        &["wide-institute-300", "wide-m-1000"],
    );
}

#[test]
fn letting_32_institutes_pass_at_most_is_caught() {
    caught(
        Way::NarrowBound,
        [627, 995, 103],
        &["wide-institute-300", "wide-m-1000", "wide-m-33"],
    );
}

#[test]
fn letting_1000_institutes_pass_in_narrow_files_is_caught() {
    caught(Way::WideBound, [0, 0, 4], &["m-33"]);
}

#[test]
fn letting_narrow_candidates_pass_is_caught() {
    caught(
        Way::EitherCandidate,
        [0, 3, 3],
        &["a-under-head-5", "wide-candidate-2-narrow"],
    );
}

#[test]
fn letting_17_entries_pass_is_caught() {
    caught(Way::OneEntryMore, [0, 1, 2], &["wide-entries-17"]);
}

#[test]
fn letting_no_length_above_34_pass_is_caught() {
    caught(Way::NarrowLength, [343, 415, 8], &["wide-entries-16"]);
}

#[test]
fn letting_any_length_pass_is_caught() {
    caught(Way::AnyLength, [0, 22, 32], &["wide-length-4"]);
}

#[test]
fn letting_a_head_of_kind_6_pass_is_caught() {
    caught(Way::HeadOfKind6, [0, 1, 2], &["wide-a-under-head-6"]);
}

/// A wrong way of writing the seats of a wide round.
#[derive(Clone, Copy, PartialEq, Eq)]
enum Writing {
    /// The last byte of a seat stays as it was lent.
    LastByteStays,
    /// The low byte alone of the institute is written, and 0 for the other.
    LowByte,
    /// A seat has two bytes, and all that follows stands earlier.
    TwoBytes,
    /// The bytes of no seat stay as they were lent.
    NoneStays,
}

/// The answer area after the right call.
fn right_area(file: &[u8], lent: u8) -> Vec<u8> {
    let mut area = vec![lent; 20_000];
    call_on(file, &mut area, &mut [0; 4096]);
    area
}

/// The answer area after a call that writes in a wrong way.
fn wrong_area(writing: Writing, round: &Round, lent: u8) -> Vec<u8> {
    let allotment = allot(round, &Document);
    let mut bytes = Vec::new();
    for &seat in &allotment.seats {
        let mut own = seat_bytes(round.form, seat);
        match writing {
            Writing::LastByteStays => own[3] = lent,
            Writing::LowByte => own[1] = 0,
            Writing::TwoBytes => own = vec![own[0], own[2]],
            Writing::NoneStays if seat.is_none() => own = vec![lent; 4],
            Writing::NoneStays => {}
        }
        bytes.extend(own);
    }
    let places = allotment.closing.iter().flatten();
    bytes.extend(places.flat_map(|&place| (place as u16).to_le_bytes()));
    bytes.extend(&allotment.types);
    bytes.resize(20_000, lent);
    bytes
}

/// Whether a wrong way of writing leaves another area than the right call on a wide round, areas of these bytes being lent.
fn leaves_other(writing: Writing, file: &[u8], lent: u8) -> bool {
    let round = read(file).ok().filter(|round| round.form == Form::Wide);
    round.is_some_and(|round| right_area(file, lent) != wrong_area(writing, &round, lent))
}

/// Asserts in how many lawful files a wrong way of writing leaves another area, the lent ones being all 0 and all 165, and in which worked rounds the second does.
fn left(writing: Writing, counts: [usize; 2], rounds: &[&str]) {
    let other = |lent: u8| move |(file, _): &&Read| leaves_other(writing, file, lent);
    let found = [0, 165].map(|lent| FILES[0].iter().filter(other(lent)).count());
    let in_worked = named(|file| leaves_other(writing, file, 165));
    assert_eq!((found, in_worked), (counts, names(rounds)));
}

/// The lawful worked rounds of the wide form.
const WORKED: [&str; 7] = [
    "wide-a",
    "wide-entries-16",
    "wide-institute-300",
    "wide-m-1000",
    "wide-m-33",
    "wide-steps-a",
    "wide-steps-two-lists",
];

#[test]
fn not_writing_the_last_byte_is_caught() {
    left(Writing::LastByteStays, [0, 1720], &WORKED);
}

#[test]
fn writing_the_low_byte_alone_is_caught() {
    left(
        Writing::LowByte,
        [170, 170],
        &["wide-institute-300", "wide-m-1000"],
    );
}

#[test]
fn writing_two_bytes_a_seat_is_caught() {
    left(Writing::TwoBytes, [1698, 1720], &WORKED);
}

#[test]
fn not_writing_that_there_is_no_seat_is_caught() {
    left(Writing::NoneStays, [0, 1196], &["wide-a", "wide-steps-a"]);
}

#[test]
fn asking_for_fewer_or_more_bytes_than_5n_and_12m_is_caught() {
    for (file, round) in &FILES[0] {
        let round = round.as_ref().expect("a lawful round");
        let (n, m) = (round.candidates.len(), round.institutes.len());
        let refused = |answer: usize| call(file, answer, 8 * n) == TOO_SMALL;
        assert!(refused(3 * n + 12 * m) && refused(4 * n + 12 * m));
        assert!(refused(5 * n + 12 * m - 1) && !refused(5 * n + 12 * m));
    }
}

/// A wrong way of reading a wide list.
#[derive(Clone, Copy, PartialEq, Eq)]
enum Listing {
    /// The last byte of a seat is ignored.
    LastByteIgnored,
    /// The last byte is ignored where institute and step are 0.
    LastByteOfNoneIgnored,
    /// A seat with another last byte is read as no seat.
    OtherLastByteIsNone,
    /// The low byte alone of the institute is used.
    LowByte,
    /// The high byte of the institute comes first.
    HighFirst,
    /// A list of two bytes for each candidate is read as a narrow one.
    TwoBytes,
}

/// What a review says that reads the list of a wide round in a wrong way.
fn reviewed(listing: Listing, round: &Round, list: &[u8]) -> Review {
    let n = round.candidates.len();
    if list.len() == 2 * n && listing == Listing::TwoBytes {
        let narrow = Round {
            form: Form::Narrow,
            ..round.clone()
        };
        return found(&narrow, list);
    }
    if list.len() != 4 * n {
        return review(&write(round), list, &mut vec![0; 8 * n]);
    }
    let mut read = list.to_vec();
    for own in read.chunks_exact_mut(4) {
        match listing {
            Listing::LastByteIgnored => own[3] = 0,
            Listing::LastByteOfNoneIgnored if own[..3] == [0, 0, 0] => own[3] = 0,
            Listing::OtherLastByteIsNone if own[3] != 0 => own.fill(0),
            Listing::LowByte => own[1] = 0,
            Listing::HighFirst => own.swap(0, 1),
            _ => {}
        }
    }
    found(round, &read)
}

/// A wide round and lists of it, each with what the right review says.
struct Listed {
    round: Round,
    lists: Vec<(Vec<u8>, Review)>,
}

/// A wide round with twelve changed lists, two of them with another last byte, one with another high byte and one of 2n bytes.
fn with_lists(round: Round, random: &mut Random) -> Listed {
    let n = round.candidates.len();
    let file = write(&round);
    let mut lists = Vec::new();
    for number in 0..12 {
        let mut list = changed(&round, random);
        let who = random.from_to(0, n - 1);
        match number {
            0 | 1 => list[4 * who + 3] = random.pick(&[1, 255]),
            2 => list[4 * who + 1] = random.from_to(0, 3) as u8,
            3 => list.truncate(2 * n),
            _ => {}
        }
        let said = review(&file, &list, &mut vec![0; 8 * n]);
        lists.push((list, said));
    }
    Listed { round, lists }
}

/// Tiny wide rounds and ones with institutes far apart, with lists of each.
static LISTS: LazyLock<Vec<Listed>> = LazyLock::new(|| {
    let mut random = Random::new(9);
    let wide = (0..400).map(|seed| lawful_round(Class::WideTiny, seed));
    let far = (0..100).map(|seed| spread(&tiny(seed)));
    let rounds = wide.chain(far);
    rounds.map(|round| with_lists(round, &mut random)).collect()
});

/// The worked lists of wide rounds in which a wrong review answers otherwise.
fn named_lists(listing: Listing) -> Vec<String> {
    let other = |case: &Case| match read(&case.file) {
        Ok(round) if round.form == Form::Wide => {
            let right = review(&case.file, &case.list, &mut [0; 4096]);
            reviewed(listing, &round, &case.list) != right
        }
        _ => false,
    };
    let cases = cases().into_iter();
    cases.filter(other).map(|case| case.name).collect()
}

/// Asserts in how many lists a wrong review answers otherwise, in how many of these by passing, and in which worked lists.
fn listed(listing: Listing, counts: [usize; 2], worked: &[&str]) {
    let mut found = [0; 2];
    for Listed { round, lists } in LISTS.iter() {
        for (list, right) in lists {
            let both = [*right, reviewed(listing, round, list)];
            let passes = both.map(|said| said == Review::Passes);
            found[0] += usize::from(both[0] != both[1]);
            found[1] += usize::from(passes[0] != passes[1]);
        }
    }
    assert_eq!((found, named_lists(listing)), (counts, names(worked)));
}

#[test]
fn the_wide_lists_are_these_many() {
    let said = || LISTS.iter().flat_map(|one| &one.lists).map(|one| one.1);
    let count = |so: fn(&Review) -> bool| said().filter(so).count();
    let counts = [
        count(|said| *said == Review::Passes),
        count(|said| matches!(said, Review::Wrong(_))),
        count(|said| matches!(said, Review::WouldTake { .. })),
        count(|said| matches!(said, Review::Refused { .. })),
    ];
    assert_eq!(counts, [2233, 2542, 725, 500]);
}

#[test]
fn ignoring_the_last_byte_is_caught() {
    listed(
        Listing::LastByteIgnored,
        [814, 539],
        &["wide-last-byte-1", "wide-none-last-byte-1"],
    );
}

#[test]
fn ignoring_the_last_byte_of_no_seat_is_caught() {
    listed(
        Listing::LastByteOfNoneIgnored,
        [305, 185],
        &["wide-none-last-byte-1"],
    );
}

#[test]
fn reading_another_last_byte_as_no_seat_is_caught() {
    listed(
        Listing::OtherLastByteIsNone,
        [893, 198],
        &["wide-last-byte-1", "wide-none-last-byte-1"],
    );
}

#[test]
fn using_the_low_byte_of_a_listed_institute_is_caught() {
    listed(
        Listing::LowByte,
        [606, 375],
        &["wide-300", "wide-300-would-take"],
    );
}

#[test]
fn reading_the_high_byte_of_a_listed_institute_first_is_caught() {
    listed(
        Listing::HighFirst,
        [4011, 2129],
        &[
            "wide-300",
            "wide-300-would-take",
            "wide-own",
            "wide-steps-2-of-2",
        ],
    );
}

#[test]
fn reading_a_list_of_2n_bytes_is_caught() {
    listed(Listing::TwoBytes, [500, 11], &["wide-2n-bytes"]);
}

/// An input with what the program prints for it and the text for its round.
struct Input {
    bytes: Vec<u8>,
    printed: String,
    text: String,
}

/// Inputs about the most bytes that the program reads: A and wide A with zeros behind them, zeros alone, and wide rounds.
static INPUTS: LazyLock<Vec<Input>> = LazyLock::new(|| {
    let mut all = Vec::new();
    for length in [65_535, 65_536, 65_537, 65_538, 100_000] {
        for start in [A, &widened(A), &[]] {
            let mut input = start.to_vec();
            input.resize(length, 0);
            all.push(input);
        }
    }
    let edges = wide_boundary().into_iter();
    let about = |name: &str| name.ends_with("-bytes") || name.starts_with("longest");
    all.extend(edges.filter(|one| about(&one.0)).map(|one| one.1));
    all.extend(made(Class::WideState, 6));
    let with_texts = |bytes: Vec<u8>| Input {
        printed: print(&bytes),
        text: print_round(&bytes),
        bytes,
    };
    all.into_iter().map(with_texts).collect()
});

/// In how many inputs a wrong program prints another text.
fn printed_otherwise(wrong: impl Fn(&Input) -> String) -> usize {
    let inputs = INPUTS.iter();
    inputs.filter(|input| wrong(input) != input.printed).count()
}

/// The text of the refusal of an input that is too long where it is so, else that of its round.
fn refused_where(long: bool, input: &Input) -> String {
    match long {
        true => "refused 16 at 0\n".to_string(),
        false => input.text.clone(),
    }
}

/// Whether an input is too long for the program.
fn too_long(input: &Input) -> bool {
    input.bytes.len() > 65_536
}

#[test]
fn wrong_limits_are_caught() {
    assert_eq!(INPUTS.len(), 27);
    let right = |input: &Input| refused_where(too_long(input), input);
    assert_eq!(printed_otherwise(right), 0);
    let never = |input: &Input| input.text.clone();
    assert_eq!(printed_otherwise(never), 18);
    let too_early = |input: &Input| refused_where(input.bytes.len() >= 65_536, input);
    assert_eq!(printed_otherwise(too_early), 4);
    let too_late = |input: &Input| refused_where(input.bytes.len() > 65_537, input);
    assert_eq!(printed_otherwise(too_late), 4);
    let after_the_questions =
        |input: &Input| refused_where(too_long(input) && input.text.starts_with("offers"), input);
    assert_eq!(printed_otherwise(after_the_questions), 11);
    let of_wide_rounds =
        |input: &Input| refused_where(too_long(input) && input.bytes[2] == 5, input);
    assert_eq!(printed_otherwise(of_wide_rounds), 6);
    let cut = |input: &Input| print_round(&input.bytes[..input.bytes.len().min(65_536)]);
    assert_eq!(printed_otherwise(cut), 18);
}

#[test]
fn asking_16_in_the_library_is_caught() {
    let asked = |input: &&Input| refused_where(too_long(input), input) != input.text;
    assert_eq!(INPUTS.iter().filter(asked).count(), 18);
}
