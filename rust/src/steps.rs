//! The directions of both models, and where there is an edge along one.

use crate::streams::Shape;

/// Rows, columns and sheets; down is one sheet more.
pub type Step = [isize; 3];

/// A direction, by its place in the scan order.
pub type Way = u8;

/// All directions, in the scan order: a letter is a step to the next row, column or sheet. The first six are model 0's.
const NAMES: [&str; WAYS] = ["N", "W", "E", "S", "D", "U", "NU", "WD", "EU", "SD", "NWD", "SEU"];
pub const WAYS: usize = 12;

pub const STEPS: [Step; WAYS] = {
    let mut steps = [[0; 3]; WAYS];
    let mut way = 0;
    while way < WAYS {
        let mut letters = NAMES[way].as_bytes();
        while let [letter, rest @ ..] = letters {
            match letter {
                b'N' => steps[way][0] -= 1,
                b'S' => steps[way][0] += 1,
                b'W' => steps[way][1] -= 1,
                b'E' => steps[way][1] += 1,
                b'U' => steps[way][2] -= 1,
                _ => steps[way][2] += 1,
            }
            letters = rest;
        }
        way += 1;
    }
    steps
};

/// Directions, a bit for each.
pub type Ways = u16;

/// Those that lead to the sheet below, and to the one above.
pub const DOWNWARD: Ways = leading(1);
pub const UPWARD: Ways = leading(-1);

const fn leading(sheets: isize) -> Ways {
    let (mut mask, mut way) = (0, 0);
    while way < WAYS {
        if STEPS[way][2] == sheets {
            mask |= 1 << way;
        }
        way += 1;
    }
    mask
}

/// The directions of a mask, in the scan order.
pub fn each_way(mut mask: Ways) -> impl Iterator<Item = Way> {
    std::iter::from_fn(move || {
        let way = (mask != 0).then(|| mask.trailing_zeros() as Way)?;
        mask &= mask - 1;
        Some(way)
    })
}

/// How many directions a model has.
pub const fn ways(model: usize) -> usize {
    [6, WAYS][model]
}

/// How many kinds of edges.
pub const fn kinds(model: usize) -> usize {
    ways(model) / 2
}
pub const KINDS: usize = WAYS / 2;

/// By direction: the direction back.
pub const BACK: [Way; WAYS] = {
    let mut back = [0; WAYS];
    let mut pair = 0;
    while pair < WAYS * WAYS {
        let ([row, column, sheet], other) = (STEPS[pair / WAYS], STEPS[pair % WAYS]);
        if row == -other[0] && column == -other[1] && sheet == -other[2] {
            back[pair / WAYS] = (pair % WAYS) as Way;
        }
        pair += 1;
    }
    back
};

/// Whether the edge in a direction is named by the node itself: it is the lower end, in one sheet the north one, in one row
/// the west one.
pub const fn is_own(way: Way) -> bool {
    let [row, column, sheet] = STEPS[way as usize];
    sheet < 0 || sheet == 0 && (row > 0 || row == 0 && column > 0)
}

/// By direction: the kind of the edge. Kinds are in the order of their own directions.
pub const KIND: [usize; WAYS] = {
    let mut kind = [0; WAYS];
    let (mut way, mut kinds) = (0, 0);
    while way < WAYS {
        if is_own(way as Way) {
            kind[way] = kinds;
            kind[BACK[way] as usize] = kinds;
            kinds += 1;
        }
        way += 1;
    }
    kind
};

/// The own directions of a model, by kind.
pub fn own_ways(model: usize) -> impl Iterator<Item = Way> {
    (0..ways(model) as Way).filter(|&way| is_own(way))
}

/// The row and column at the other end of an edge, if there is one: it is in the sheet, and unless the edge is along a row,
/// both ends are detectors.
pub fn joined(shape: Shape, [row, column]: [usize; 2], way: Way) -> Option<[usize; 2]> {
    let [rows, columns, sheets] = STEPS[usize::from(way)];
    let to_row = row.checked_add_signed(rows).filter(|&row| row < shape.height)?;
    let to_column = column.checked_add_signed(columns).filter(|&column| column <= shape.distance)?;
    let detectors = [column, to_column].iter().all(|column| (1..shape.distance).contains(column));
    (detectors || rows == 0 && sheets == 0).then_some([to_row, to_column])
}

/// The directions in which a node has an edge if there is a sheet.
pub fn ways_from(shape: Shape, place: [usize; 2]) -> Ways {
    let there = (0..ways(shape.model) as Way).filter(|&way| joined(shape, place, way).is_some());
    there.fold(0, |mask, way| mask | 1 << way)
}
