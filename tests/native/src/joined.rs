//! Heap images of lists and rings that meet, with their cells at any places of the image, and drops of their pointers.

use crate::draw::{image, Draw, Image};

const MOST: usize = 240;
const NULL: u8 = 0xfe;
const UNDEFINED: u8 = 0xff;
const UNUSED: u8 = 0xfd;

/// Images of every kind and size: of few cells, of some, of nearly all and of all that there can be.
pub fn any_image(d: &mut Draw, i: usize) -> Image {
    match i % 6 {
        0 => image(d, [3, 8, 16, 60, MOST][i / 6 % 5]),
        1 => joined_image(d, 40),
        2 => {
            let used = d.below(MOST + 1);
            long_image(d, used)
        }
        3 if i % 4 == 3 => long_image(d, MOST),
        _ => joined_image(d, 1 + i % 4),
    }
}

/// A drop, most often of a pointer that holds a cell.
pub fn drop_of(d: &mut Draw, pointers: &[u8]) -> [u8; 32] {
    let mut u = d.below(6);
    if pointers[u] >= UNUSED && !d.one_in(3) {
        u = pointers.iter().position(|&value| value < UNUSED).unwrap_or(u);
    }
    let mut statement = [0; 32];
    statement[..5].copy_from_slice(&[0x53, 13, u as u8, 0, d.below(64) as u8]);
    statement
}

/// Each pointer brings at most so many cells, which are 40 at most.
pub fn joined_image(d: &mut Draw, longest: usize) -> Image {
    let (pointers, cells) = composed(d, longest);
    scattered(d, &pointers, &cells)
}

/// The same with longer segments: where there are cells at all, at least so many are in use.
fn long_image(d: &mut Draw, used: usize) -> Image {
    let (pointers, mut cells) = composed(d, 3);
    while !cells.is_empty() && cells.len() < used {
        let (before, new) = (d.below(cells.len()), cells.len() as u8);
        cells.push(cells[before]);
        cells[before] = new;
    }
    scattered(d, &pointers, &cells)
}

/// Six pointers, one after the other from any on, forwards or backwards. Sometimes only the first holds anything, and
/// sometimes each of them comes to what the others hold.
fn composed(d: &mut Draw, longest: usize) -> Image {
    let (mut pointers, mut cells) = (vec![NULL; 6], Vec::new());
    let (first, stride, kind) = (d.below(6), [1, 5][d.below(2)], d.below(6));
    for i in 0..6 {
        let way = match (kind, i) {
            (0 | 1, 0) => Way::Ring,
            (0, _) => Way::Nothing,
            (1, _) => Way::There,
            _ => any_way(d),
        };
        pointers[(first + stride * i) % 6] = bring(d, &mut cells, longest, way);
    }
    (pointers, cells)
}

/// What one more pointer holds: nothing, a cell that is there, or the first of new cells, which come to one of
/// themselves, to a cell that is there, or to an end.
enum Way {
    Nothing,
    Beside,
    Ring,
    There,
    End,
}

fn any_way(d: &mut Draw) -> Way {
    match d.below(8) {
        0 => Way::Nothing,
        1 => Way::Beside,
        2 => Way::Ring,
        3..=5 => Way::There,
        _ => Way::End,
    }
}

fn bring(d: &mut Draw, cells: &mut Vec<u8>, longest: usize, way: Way) -> u8 {
    let (there, new, none) = (cells.len(), 1 + d.below(longest), [NULL, UNDEFINED][d.below(2)]);
    let end = match way {
        Way::Nothing => return none,
        Way::Beside if there > 0 => return d.below(there) as u8,
        Way::Ring => (there + d.below(new)) as u8,
        Way::There if there > 0 => d.below(there) as u8,
        _ => none,
    };
    cells.extend((there + 1..there + new).map(|next| next as u8));
    cells.push(end);
    there as u8
}

/// The same heap with its cells anywhere in an image that has room for no more, for some, or for as many as can be.
fn scattered(d: &mut Draw, pointers: &[u8], cells: &[u8]) -> Image {
    let more = MOST - cells.len();
    let room = cells.len() + [0, d.below(4).min(more), d.below(more + 1), more][d.below(4)];
    let mut places: Vec<u8> = (0..room).map(|place| place as u8).collect();
    (1..room).rev().for_each(|i| places.swap(i, d.below(i + 1)));
    let moved = |value: u8| if usize::from(value) < cells.len() { places[usize::from(value)] } else { value };
    let mut image = vec![UNUSED; room];
    cells.iter().zip(&places).for_each(|(&next, &place)| image[usize::from(place)] = moved(next));
    (pointers.iter().map(|&value| moved(value)).collect(), image)
}
