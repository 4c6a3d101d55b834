//! Damage to files: contents and bodies cut, moved, stretched or overwritten.

use super::Damage;
use crate::layout::{Entry, Parts};
use crate::random::Random;

/// Damage to a file, most of which leaves it refused.
pub const DAMAGES: [Damage; 14] = [
    truncate,
    extend,
    flip_contents,
    flip_anywhere,
    exchange_numbers,
    change_header,
    move_border,
    stretch_body,
    leave_gap,
    wrap_back,
    wrap_forward,
    lengthen_entry,
    empty_bodies,
    random_bodies,
];

fn truncate(random: &mut Random, parts: &mut Parts) {
    if random.one_in(2) {
        parts.bodies.pop();
    } else {
        parts.bodies.truncate(random.below(parts.bodies.len() + 1));
    }
}

fn extend(random: &mut Random, parts: &mut Parts) {
    let length = random.pick(&[1, 1, 2, 9, 100]);
    parts.bodies.extend(random.bytes(length));
}

/// Changes one bit or byte of the contents.
fn flip_contents(random: &mut Random, parts: &mut Parts) {
    let bit = random.below(32);
    let any = random.number() as u32;
    let place = random.below(parts.contents.len());
    let entry = &mut parts.contents[place];
    let changed = if random.one_in(2) { 1 << bit } else { any };
    match random.below(3) {
        0 => entry.number ^= (1 << (bit % 8)) as u8,
        1 => entry.offset ^= changed,
        _ => entry.length ^= changed,
    }
}

fn flip_anywhere(random: &mut Random, parts: &mut Parts) {
    if !parts.bodies.is_empty() {
        let place = random.below(parts.bodies.len());
        parts.bodies[place] ^= 1 << random.below(8);
    }
}

fn exchange_numbers(random: &mut Random, parts: &mut Parts) {
    let count = parts.contents.len();
    let (one, other) = (random.below(count), random.below(count));
    let number = parts.contents[one].number;
    parts.contents[one].number = parts.contents[other].number;
    parts.contents[other].number = number;
}

fn change_header(random: &mut Random, parts: &mut Parts) {
    match random.below(4) {
        0 => parts.kind = random.pick(&[0, 1, 2, 3, 4, 255]),
        1 => parts.count = random.pick(&[0, parts.count - 1, parts.count + 1, 255]),
        2 => {
            // One section fewer, and the count says so.
            parts.count -= 1;
            parts.contents.pop();
        }
        _ => {
            // One section more, and the count says so.
            let last = parts.contents[parts.contents.len() - 1];
            parts.count += 1;
            parts.contents.push(Entry { number: last.number + 1, ..last });
        }
    }
}

/// Two neighbouring entries.
fn two_entries(random: &mut Random, parts: &mut Parts) -> usize {
    random.below(parts.contents.len() - 1)
}

/// Moves the border of two bodies, so that their lengths are wrong and all stand
/// end to end.
fn move_border(random: &mut Random, parts: &mut Parts) {
    let place = two_entries(random, parts);
    let by = random.pick(&[1, 2, 4]).min(parts.contents[place].length);
    parts.contents[place].length -= by;
    parts.contents[place + 1].offset -= by;
    parts.contents[place + 1].length += by;
}

/// Lengthens one body, with the later ones following.
fn stretch_body(random: &mut Random, parts: &mut Parts) {
    let place = random.below(parts.contents.len());
    let by = random.pick(&[1, 2, 3, 4, 8]);
    let entry = parts.contents[place];
    let end = (entry.offset + entry.length) as usize - parts.contents_end();
    let added = random.bytes(by);
    parts.bodies.splice(end..end, added);
    parts.contents[place].length += by as u32;
    for later in &mut parts.contents[place + 1..] {
        later.offset += by as u32;
    }
}

/// Puts a byte before one body, which moves it and the later ones.
fn leave_gap(random: &mut Random, parts: &mut Parts) {
    let place = random.below(parts.contents.len());
    let start = parts.contents[place].offset as usize - parts.contents_end();
    parts.bodies.insert(start, 0);
    for later in &mut parts.contents[place..] {
        later.offset += 1;
    }
}

/// A length near 2^32, with which the next body begins earlier only modulo 2^32.
/// That one reaches as far as before.
fn wrap_back(random: &mut Random, parts: &mut Parts) {
    let place = two_entries(random, parts);
    let back = random.pick(&[1, 2, 9, 100]);
    let length = parts.contents[place].length;
    let offset = parts.contents[place].offset;
    parts.contents[place].length = 0u32.wrapping_sub(back);
    parts.contents[place + 1].offset = offset.wrapping_sub(back);
    parts.contents[place + 1].length += length + back;
}

/// A body that begins far beyond the file's end, and ends there modulo 2^32.
fn wrap_forward(random: &mut Random, parts: &mut Parts) {
    let place = two_entries(random, parts);
    let end = parts.contents[place + 1].offset + parts.contents[place + 1].length;
    let far = random.pick(&[u32::MAX, 1 << 31, u32::MAX - 100]);
    parts.contents[place].length = far - parts.contents[place].offset;
    parts.contents[place + 1].offset = far;
    parts.contents[place + 1].length = end.wrapping_sub(far);
}

/// A length near 2^32, with which the end agrees with nothing.
fn lengthen_entry(random: &mut Random, parts: &mut Parts) {
    let place = random.below(parts.contents.len());
    let entry = &mut parts.contents[place];
    let to_end = 0u32.wrapping_sub(entry.offset);
    entry.length = random.pick(&[u32::MAX, to_end, to_end - 1, to_end + 1, 1 << 31]);
}

/// The contents alone, or no body where the contents say so.
fn empty_bodies(random: &mut Random, parts: &mut Parts) {
    parts.bodies.clear();
    if random.one_in(2) {
        let end = parts.contents_end() as u32;
        for entry in &mut parts.contents {
            entry.offset = end;
            entry.length = 0;
        }
    }
}

fn random_bodies(random: &mut Random, parts: &mut Parts) {
    parts.bodies = random.bytes(parts.bodies.len());
}
