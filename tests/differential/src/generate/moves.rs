//! Headers whose fields hang together in many ways, for the moves of all
//! fields to their tops.

use super::edges::{self, HEADERS};
use super::random::Random;
use super::{models, Generator};
use crate::reference::header::FIELDS;
use crate::writer::{Field, Header};

const MOST_FIELDS: usize = FIELDS as usize;

/// As many moves as a header can have.
pub const MOST_MOVES: u64 = chain_moves(MOST_FIELDS);

pub struct MovesCase {
    pub envelope: Vec<u8>,
    pub result: usize,
    /// The moves, where the header is right and the shape of its chains tells
    /// them.
    pub due: Option<u64>,
    /// The same content from a newer writer, if the content is unspoilt.
    pub newer: Option<Vec<u8>>,
}

/// The parents of all fields, and their moves where the shape tells them.
pub(super) type Shape = (Vec<u32>, Option<u64>);

/// The moves of so many fields in one chain.
const fn chain_moves(count: usize) -> u64 {
    (count * count.saturating_sub(1) / 2) as u64
}

/// Each field's parent is the one before it, but that a new chain starts after
/// so many fields.
pub(super) fn chains(count: usize, length: usize) -> Shape {
    let parents = (0..count).map(|i| if i % length == 0 { i } else { i - 1 } as u32);
    let whole = (count / length) as u64 * chain_moves(length);
    (parents.collect(), Some(whole + chain_moves(count % length)))
}

/// All fields hang on the first.
pub(super) fn star(count: usize) -> Shape {
    (vec![0; count], Some(count.saturating_sub(1) as u64))
}

/// A chain of so many fields, and the others all on its last.
fn broom(count: usize, chain: usize) -> Shape {
    let parents = (0..count).map(|i| i.min(chain).saturating_sub(1) as u32);
    (
        parents.collect(),
        Some(chain_moves(chain) + ((count - chain) * chain) as u64),
    )
}

/// Two fields on each, level by level.
pub(super) fn levels(count: usize) -> Shape {
    let parents = (0..count).map(|i| i.saturating_sub(1) as u32 / 2);
    let moves = (1..=count).map(|number| u64::from(number.ilog2())).sum();
    (parents.collect(), Some(moves))
}

/// The same with the numbers in the other order.
pub(super) fn mirrored((mut parents, moves): Shape) -> Shape {
    let last = parents.len().saturating_sub(1) as u32;
    parents.reverse();
    parents.iter_mut().for_each(|parent| *parent = last - *parent);
    (parents, moves)
}

/// The same with the numbers in any order.
pub(super) fn shuffled(random: &mut Random, (parents, moves): Shape) -> Shape {
    let mut numbers: Vec<u32> = (0..parents.len() as u32).collect();
    for i in (1..numbers.len()).rev() {
        numbers.swap(i, random.index(i + 1));
    }
    let mut renumbered = vec![0; parents.len()];
    for (i, parent) in parents.into_iter().enumerate() {
        renumbered[numbers[i] as usize] = numbers[parent as usize];
    }
    (renumbered, moves)
}

pub(super) fn count(random: &mut Random) -> usize {
    match random.below(256) {
        0 => random.index(MOST_FIELDS + 1),
        1 => MOST_FIELDS - random.index(3),
        2..=20 => random.index(60),
        21..=30 => 0,
        31..=50 => 1,
        _ => 2 + random.index(10),
    }
}

pub(super) fn shape(random: &mut Random, count: usize) -> Shape {
    if count == 0 {
        return (Vec::new(), Some(0));
    }
    let any = |random: &mut Random| random.below(count as u64) as u32;
    let shape = match random.below(16) {
        0..=4 => (models::parents(random, count, false), None),
        5..=7 => chains(count, count),
        8 => chains(count, 1),
        9 => chains(count, 1 + random.index(count)),
        10 => star(count),
        11 => broom(count, 1 + random.index(count)),
        12 => levels(count),
        // One parent elsewhere: another tree, or a circle.
        13 => {
            let chain = random.one_in(2);
            let mut parents = models::parents(random, count, chain);
            parents[random.index(count)] = any(random);
            (parents, None)
        }
        // A chain that comes back to one of its fields.
        14 => {
            let (mut parents, _) = chains(count, count);
            parents[0] = any(random);
            (parents, None)
        }
        _ => ((0..count).map(|_| any(random)).collect(), None),
    };
    match random.below(3) {
        0 => shape,
        1 => mirrored(shape),
        _ => shuffled(random, shape),
    }
}

/// So many shapes `largest` has.
pub(super) const LARGEST: u64 = 23;

/// Shapes with as many fields as there may be, or nearly; those of `edges` are
/// tried too.
pub(super) fn largest(random: &mut Random, place: u64) -> Option<Shape> {
    Some(match place {
        0 => chains(MOST_FIELDS, MOST_FIELDS),
        1 => mirrored(chains(MOST_FIELDS, MOST_FIELDS)),
        2 => shuffled(random, chains(MOST_FIELDS, MOST_FIELDS)),
        3 => chains(MOST_FIELDS - 1, MOST_FIELDS),
        4 => mirrored(chains(MOST_FIELDS - 1, MOST_FIELDS)),
        5 => chains(MOST_FIELDS, 1),
        6 => chains(MOST_FIELDS, MOST_FIELDS / 2),
        7 => chains(MOST_FIELDS, MOST_FIELDS - 1),
        8 => mirrored(chains(MOST_FIELDS, MOST_FIELDS - 1)),
        9 => star(MOST_FIELDS),
        10 => mirrored(star(MOST_FIELDS)),
        11 => broom(MOST_FIELDS, MOST_FIELDS / 2),
        12 => mirrored(broom(MOST_FIELDS, MOST_FIELDS / 2)),
        13 => levels(MOST_FIELDS),
        14 => mirrored(levels(MOST_FIELDS)),
        15 => (models::parents(random, MOST_FIELDS, false), None),
        // One field too many, whatever their chains are.
        16 => (chains(MOST_FIELDS + 1, MOST_FIELDS + 1).0, None),
        17 => (mirrored(chains(MOST_FIELDS + 1, MOST_FIELDS + 1)).0, None),
        18 => (chains(MOST_FIELDS + 1, 1).0, None),
        // All but the last end: a circle of two, or of all.
        19 => {
            let (mut parents, _) = chains(MOST_FIELDS, MOST_FIELDS);
            parents[0] = random.pick(&[1, MOST_FIELDS as u32 - 1]);
            (parents, None)
        }
        20 => {
            let (mut parents, _) = chains(MOST_FIELDS, 1);
            parents[MOST_FIELDS - 1] = MOST_FIELDS as u32 - 2;
            parents[MOST_FIELDS - 2] = MOST_FIELDS as u32 - 1;
            (parents, None)
        }
        21 => chains(0, 1),
        22 => chains(1, 1),
        _ => return None,
    })
}

/// A header with these parents: what else it has is as in any header.
pub(super) fn with_parents(random: &mut Random, parents: Vec<u32>) -> Header {
    let mut header = models::header(random);
    let fields = &mut header.fields.items;
    while fields.len() < parents.len() {
        fields.push(Field {
            role: random.below(5) as u16,
            flags: random.pick(&[0, 0, 1, 2]),
            repetition: random.number(),
            ..Default::default()
        });
    }
    if fields.len() > parents.len() {
        fields.truncate(parents.len());
        // They may name fields that are gone.
        header.columns.items.clear();
        header.aliases.items.clear();
    }
    for (field, parent) in header.fields.items.iter_mut().zip(parents) {
        field.parent = parent;
    }
    header
}

impl Generator {
    pub fn moves_case(&mut self) -> MovesCase {
        let mut model = edges::header(&mut self.random, self.place);
        let mut due = None;
        if let Some((parents, moves)) = self
            .place
            .checked_sub(HEADERS)
            .and_then(|place| largest(&mut self.random, place))
        {
            model = Some(with_parents(&mut self.random, parents));
            due = moves;
        }
        let whole = model.is_none();
        let mut model = model.unwrap_or_else(|| {
            let count = count(&mut self.random);
            let (parents, moves) = shape(&mut self.random, count);
            due = moves;
            with_parents(&mut self.random, parents)
        });
        let lone = self.lone_spare(whole);
        if lone {
            models::one_spare_in_header(&mut self.random, &mut model);
        }
        let spoilt = whole && !lone && self.random.one_in(2);
        let envelope = self.header_bytes(&model, spoilt);
        let newer = (whole && !spoilt && self.random.one_in(3)).then(|| {
            let newer = models::newer_header(&mut self.random, &model);
            self.header_bytes(&newer, false)
        });
        MovesCase {
            envelope,
            result: self.result(1),
            due: due.filter(|_| !lone && !spoilt),
            newer,
        }
    }
}
