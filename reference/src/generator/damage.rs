//! Damage to lent bytes: nearly what docs/FORMAT.md wants.

use super::random::Random;
use crate::cube::Cube;
use crate::desk::Sort;
use crate::region::MOST_DIFFERENCES;

/// Damages the bytes of an argument of this sort.
pub fn damage(random: &mut Random, sort: Sort, w: usize, bytes: &mut Vec<u8>) {
    match sort {
        Sort::Cube => damage_cube(random, w, bytes),
        Sort::Record | Sort::File => damage_records(random, sort, w, bytes),
        Sort::Value => damage_value(random, bytes),
        _ => damage_any(random, bytes),
    }
}

/// Damage that any bytes can have.
fn damage_any(random: &mut Random, bytes: &mut Vec<u8>) {
    let place = random.below(bytes.len().max(1));
    match random.below(8) {
        0 => flip_any_bit(random, bytes),
        1 if !bytes.is_empty() => bytes[place] = random.byte(),
        2 if !bytes.is_empty() => drop(bytes.remove(place)),
        3 => bytes.insert(place, random.byte()),
        4 => bytes.truncate(place),
        5 => bytes.extend(vec![0; random.between(1, 4)]),
        6 => bytes.push(random.byte()),
        _ => flip_last_bit(bytes),
    }
}

fn flip_last_bit(bytes: &mut [u8]) {
    if let Some(last) = bytes.last_mut() {
        *last ^= 1;
    }
}

/// A prefix's value often ends in zeros: without them it is shorter than its field, and with one
/// of them changed it has a bit after the prefix.
fn damage_value(random: &mut Random, bytes: &mut Vec<u8>) {
    match random.below(3) {
        0 => {
            while bytes.last() == Some(&0) {
                bytes.pop();
            }
        }
        1 => flip_any_bit(random, bytes),
        _ => damage_any(random, bytes),
    }
}

fn flip_any_bit(random: &mut Random, bytes: &mut [u8]) {
    if !bytes.is_empty() {
        bytes[random.below(bytes.len())] ^= 1 << random.below(8);
    }
}

fn damage_cube(random: &mut Random, w: usize, bytes: &mut Vec<u8>) {
    // Damage may come twice, so the length need not be right any more.
    match random.below(3) {
        _ if bytes.len() != Cube::length(w) => damage_any(random, bytes),
        0 => set_code(bytes, random.below(w), 0),
        1 => set_unused(random, w, bytes),
        _ => damage_any(random, bytes),
    }
}

/// Sets the code of a place in a cube's bytes.
fn set_code(cube: &mut [u8], place: usize, code: u8) {
    let shift = 2 * (3 - place % 4);
    cube[place / 4] = cube[place / 4] & !(3 << shift) | code << shift;
}

/// Sets an unused place, if there is one, to another code than 3.
fn set_unused(random: &mut Random, w: usize, cube: &mut [u8]) {
    if w % 4 != 0 {
        let unused = random.between(w, 4 * Cube::length(w) - 1);
        set_code(cube, unused, random.below(3) as u8);
    }
}

/// The bytes of a record, going by its length.
fn record_bytes(record: &[u8]) -> usize {
    2 + usize::from(u16::from_le_bytes([record[0], record[1]]))
}

/// Where the records start that are whole and have a body.
fn starts(bytes: &[u8]) -> Vec<usize> {
    let mut starts = Vec::new();
    let mut start = 0;
    while start + 2 <= bytes.len() {
        let end = start + record_bytes(&bytes[start..]);
        if (start + 5..=bytes.len()).contains(&end) {
            starts.push(start);
        }
        start = end;
    }
    starts
}

/// Damages one record, or adds something after the last.
fn damage_records(random: &mut Random, sort: Sort, w: usize, bytes: &mut Vec<u8>) {
    let starts = starts(bytes);
    if starts.is_empty() {
        return damage_any(random, bytes);
    }
    let start = random.pick(&starts);
    match random.below(14) {
        0 | 1 => damage_any(random, bytes),
        2 => change_length(random, &mut bytes[start..]),
        3 => change_kind(random, &mut bytes[start..]),
        4 => bytes[start + 4] = random.pick(&[0, 1, 2, 63, 64, 65, 128, 255]),
        5 => bytes[start + 4] = bytes[start + 4].wrapping_add(random.pick(&[1, 255])),
        6 => damage_inner_cube(random, w, &mut bytes[start..]),
        7 => {
            // Two faults in one record show which cube is looked at first.
            damage_inner_cube(random, w, &mut bytes[start..]);
            damage_inner_cube(random, w, &mut bytes[start..]);
        }
        8 => bytes.extend(odd_record(random)),
        9 => repeat_record(random, start, bytes),
        10 => drop(bytes.drain(..start)),
        11 => crowd_with_cuts(random, w, start, bytes),
        12 if sort == Sort::File => fill_with_records(random, w, starts.len(), bytes),
        12 => bytes[start + 2..].rotate_left(1),
        _ => change_both(random, w, start, bytes),
    }
}

fn change_length(random: &mut Random, record: &mut [u8]) {
    let length = u16::from_le_bytes([record[0], record[1]]);
    let one_off = [length.wrapping_add(1), length.wrapping_sub(1)];
    let length = random.pick(&[0, 1, 2, 3, 255, 65_535, one_off[0], one_off[1], one_off[1]]);
    record[..2].copy_from_slice(&length.to_le_bytes());
}

fn change_kind(random: &mut Random, record: &mut [u8]) {
    let kind: u16 = random.pick(&[0, 1, 2, 3, 256, 257, 258, 512, 65_535]);
    record[2..4].copy_from_slice(&kind.to_le_bytes());
}

/// Code 0 or an unused place in one cube of a kind 2 record.
fn damage_inner_cube(random: &mut Random, w: usize, record: &mut [u8]) {
    let length = Cube::length(w);
    let count = usize::from(record[4]);
    let start = 5 + length * random.below(count + 1);
    // Kind 1 has no cubes.
    if let Some(cube) = record.get_mut(start..start + length) {
        if random.one_in(2) {
            set_code(cube, random.below(w), 0);
        } else {
            set_unused(random, w, cube);
        }
    }
}

/// A record, or the start of one, that is wrong in some way.
fn odd_record(random: &mut Random) -> Vec<u8> {
    let odd: [&[u8]; 9] = [
        &[0, 0],
        &[1, 0],
        &[1, 0, 2],
        &[2, 0, 1, 0],
        &[2, 0, 2, 0],
        &[2, 0, 3, 0],
        &[9, 0, 2, 0],
        &[3, 0, 2, 0, 65],
        &[4, 0, 1, 0, 4, 0],
    ];
    random.pick(&odd).to_vec()
}

/// The first record or this one once more at the end: kind 1 is then out of its place.
fn repeat_record(random: &mut Random, start: usize, bytes: &mut Vec<u8>) {
    let first = if random.one_in(2) { 0 } else { start };
    let end = first + record_bytes(&bytes[first..]);
    let again = bytes[first..end.min(bytes.len())].to_vec();
    bytes.extend(again);
}

/// A record with 64, 65 or 66 cuts and the length for them, in place of all from here on.
fn crowd_with_cuts(random: &mut Random, w: usize, start: usize, bytes: &mut Vec<u8>) {
    // Long cubes make the line long, so they are mostly left out.
    if w > 40 && !random.one_in(4) {
        return;
    }
    bytes.truncate(start);
    let count = random.between(64, 66);
    let length = 3 + (count + 1) * Cube::length(w);
    bytes.extend((length as u16).to_le_bytes());
    bytes.extend([2, 0, count as u8]);
    bytes.extend(vec![0xFF; (count + 1) * Cube::length(w)]);
}

/// Records without cuts up to the 256th or 257th, then sometimes an odd one.
fn fill_with_records(random: &mut Random, w: usize, present: usize, bytes: &mut Vec<u8>) {
    // Longer cubes would make the line long.
    if Cube::length(w) > 1 {
        return;
    }
    let wanted = MOST_DIFFERENCES + random.below(2);
    for _ in present..=wanted {
        bytes.extend([4, 0, 2, 0, 0, 0xFF]);
    }
    if random.one_in(2) {
        bytes.extend(odd_record(random));
    }
}

/// Bytes more or fewer at a record's end, with the length to match: only the count disagrees.
fn change_both(random: &mut Random, w: usize, start: usize, bytes: &mut Vec<u8>) {
    let length = record_bytes(&bytes[start..]) - 2;
    let end = start + 2 + length;
    let more = random.between(1, Cube::length(w));
    let changed = if random.one_in(2) && more < length {
        bytes.drain(end - more..end);
        length - more
    } else {
        bytes.splice(end..end, vec![0xFF; more]);
        length + more
    };
    bytes[start..start + 2].copy_from_slice(&(changed as u16).to_le_bytes());
}
