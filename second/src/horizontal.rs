//! The use of a set of candidates, as a maximum flow worked out from nothing each time, and the first placing of a list of them.

/// Candidates with the same marks, how many there are, and how many of them each type was given.
struct Group {
    marks: u8,
    count: usize,
    given: Vec<usize>,
}

impl Group {
    /// The types these candidates hold.
    fn types(&self) -> impl Iterator<Item = usize> + '_ {
        (0..self.given.len()).filter(|held| self.marks >> held & 1 == 1)
    }
}

/// How a type was reached: out of which group, and through which type before it.
#[derive(Clone, Copy)]
struct Reached {
    group: usize,
    before: Option<usize>,
}

/// The greatest number of candidates with these marks who can each be given a reserved position of a type they hold, one position each.
pub fn use_of(marks: &[u8], reserved: &[usize]) -> usize {
    let mut groups = grouped(marks, reserved.len());
    let mut room = reserved.to_vec();
    let mut total = 0;
    for source in 0..groups.len() {
        while groups[source].given.iter().sum::<usize>() < groups[source].count
            && flow_on(&mut groups, &mut room, source)
        {
            total += 1;
        }
    }
    total
}

/// The first placing of candidates with these marks, who can all be given reserved positions, read down the list: for each the smallest type, from 1, with which those behind can still all be given positions; 0 where no type is such.
pub fn first_placing(marks: &[u8], reserved: &[usize]) -> Vec<u8> {
    let mut room = reserved.to_vec();
    let mut types = Vec::new();
    for (place, &own) in marks.iter().enumerate() {
        let behind = &marks[place + 1..];
        let first =
            (0..room.len()).find(|&held| own >> held & 1 == 1 && leaves(&room, held, behind));
        if let Some(held) = first {
            room[held] -= 1;
        }
        types.push(first.map_or(0, |held| held as u8 + 1));
    }
    types
}

/// Whether a position of a type is there and, once it is given, candidates with these marks can all be given positions of the others.
fn leaves(room: &[usize], given: usize, behind: &[u8]) -> bool {
    let mut left = room.to_vec();
    if left[given] == 0 {
        return false;
    }
    left[given] -= 1;
    use_of(behind, &left) == behind.len()
}

/// The candidates grouped by their marks, nobody given a position.
fn grouped(marks: &[u8], types: usize) -> Vec<Group> {
    let mut groups: Vec<Group> = Vec::new();
    for &own in marks {
        match groups.iter_mut().find(|group| group.marks == own) {
            Some(group) => group.count += 1,
            None => groups.push(Group {
                marks: own,
                count: 1,
                given: vec![0; types],
            }),
        }
    }
    groups
}

/// Sends one more candidate of the source group through to a type with room along a shortest path, if there is one.
fn flow_on(groups: &mut [Group], room: &mut [usize], source: usize) -> bool {
    let mut reached: Vec<Option<Reached>> = vec![None; room.len()];
    let mut queue: Vec<usize> = groups[source].types().collect();
    for &held in &queue {
        reached[held] = Some(Reached {
            group: source,
            before: None,
        });
    }
    let mut front = 0;
    while front < queue.len() {
        let here = queue[front];
        front += 1;
        if room[here] > 0 {
            room[here] -= 1;
            turn_over(groups, &reached, here);
            return true;
        }
        for (number, group) in groups.iter().enumerate() {
            if group.given[here] == 0 {
                continue;
            }
            for next in group.types() {
                if reached[next].is_none() {
                    reached[next] = Some(Reached {
                        group: number,
                        before: Some(here),
                    });
                    queue.push(next);
                }
            }
        }
    }
    false
}

/// Carries out the moves along the path that ends at a type.
fn turn_over(groups: &mut [Group], reached: &[Option<Reached>], end: usize) {
    let mut here = end;
    while let Some(step) = reached[here] {
        groups[step.group].given[here] += 1;
        match step.before {
            Some(before) => {
                groups[step.group].given[before] -= 1;
                here = before;
            }
            None => return,
        }
    }
}
