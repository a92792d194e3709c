//! Files that carry a trailer, of the old form or of the long one: left by edits, made up, or with something wrong in it.

use super::desks::{self, Desks};
use super::requests;
use crate::editor::{self, Form, Trailer, FORMS, NEXT_BYTES, SLOT_BYTES};
use crate::images::accepted;
use crate::random::Random;
use crate::reader::{self, Directory, EXTENDED, FREE, MACHINE_TYPE, MOST_BYTES, UNSTORED};

/// A file after a few edits, their trailers of one form or of both.
pub fn edited(random: &mut Random, mut file: Vec<u8>) -> Vec<u8> {
    let forms: &[Form] = random.pick(&[&[Form::Old], &[Form::Long], &FORMS, &FORMS]);
    let mut desks = Desks::new(random);
    for _ in 0..random.between(1, 5) {
        let capacity = file.len() + 400;
        let edit = requests::edit(random, &file, capacity, requests::ALL_KINDS, &mut desks);
        if let Ok(change) = editor::change(&file, capacity as u64, &edit, random.pick(forms)) {
            file = change.made_of(&file);
        }
    }
    file
}

/// A file with a trailer that no edit left: it names any slot, any next field or any other place, with old bytes that may
/// stand there or not.
pub fn made_up(random: &mut Random, mut file: Vec<u8>) -> Vec<u8> {
    let Ok(directory) = reader::open(&file) else { return file };
    let before = if random.once_in(6) { random.below(file.len() + 1) } else { file.len() };
    let behind = random.pick(&[0, 0, 1, 40]);
    file.extend(random.bytes(behind));
    let (place, altered) = spot(random, &directory, file.len());
    let old = match altered {
        SLOT_BYTES => old_slot(random, &directory, &file, place),
        _ => old_next(random, &directory, &file, place),
    };
    let mut image = file.clone();
    image[place..place + altered].copy_from_slice(&old[..altered]);
    let form = random.pick(&FORMS);
    let previous = match random.once_in(5) {
        true => random.pick(&[0, before.saturating_sub(32), before.saturating_sub(36)]) as u32,
        false => editor::previous(&image[..before], form),
    };
    let (place, altered, before, desk) = (place as u32, altered as u32, before as u32, desks::any(random));
    file.extend(Trailer { form, place, altered, old, before, previous, desk }.bytes());
    file
}

/// The place that a trailer names, and how many bytes were altered there: a slot, a next field, the one with the size of the
/// other, or anything.
fn spot(random: &mut Random, directory: &Directory, n: usize) -> (usize, usize) {
    let slots: Vec<usize> = directory.slots.iter().map(|slot| slot.place as usize).collect();
    let block = &directory.blocks[random.below(directory.blocks.len())];
    let (head, next) = (block.place as usize, editor::next_field(block) as usize);
    let slot = if slots.is_empty() { next } else { random.pick(&slots) };
    let last = slots.iter().max().map_or(next, |place| *place);
    let mut spots = vec![(next, NEXT_BYTES); 3];
    spots.extend([(slot, SLOT_BYTES), (slot, SLOT_BYTES), (slot, SLOT_BYTES), (last, SLOT_BYTES), (last, SLOT_BYTES)]);
    spots.extend([(next, SLOT_BYTES), (slot, NEXT_BYTES), (head, NEXT_BYTES)]);
    spots.extend([(random.below(n), NEXT_BYTES), (random.below(n), SLOT_BYTES)]);
    spots.retain(|(place, altered)| place + altered <= n);
    random.pick(&spots)
}

/// Old bytes of a slot: as they are, free, free and ending like a trailer, another slot's, empty, not stored yet, or bad.
fn old_slot(random: &mut Random, directory: &Directory, file: &[u8], place: usize) -> [u8; SLOT_BYTES] {
    let other = match directory.slots.len() {
        0 => place,
        slots => directory.slots[random.below(slots)].place as usize,
    };
    let (closing, unstored) = (u32::from_be_bytes(random.pick(&FORMS).closing()) as usize, UNSTORED as usize);
    let bytes = match random.below(9) {
        0 | 1 => file[place..place + SLOT_BYTES].to_vec(),
        2 => editor::slot(FREE, 0, 0, 0),
        3 => editor::slot(FREE, 7, 9, closing),
        4 => file[other..other + SLOT_BYTES].to_vec(),
        5 => editor::slot(720, random.u16(), 0, 0),
        6 => editor::slot(random.pick(&[720, 720 + EXTENDED, MACHINE_TYPE]), random.u16(), unstored, unstored),
        7 => editor::slot(720, random.u16(), random.pick(&[9, unstored - 1]), unstored),
        _ => editor::slot(random.pick(&[0, 720, 16385]), random.u16(), random.below(9), random.pick(&[1, file.len()])),
    };
    bytes.try_into().expect("twelve bytes")
}

/// Old bytes of a next field: as they are, none, any block, or any place.
fn old_next(random: &mut Random, directory: &Directory, file: &[u8], place: usize) -> [u8; SLOT_BYTES] {
    let block = directory.blocks[random.below(directory.blocks.len())].place as u32;
    let any = random.below(file.len() + 2) as u32;
    let mut old = [0; SLOT_BYTES];
    let bytes = match random.below(5) {
        0 | 1 => file[place..place + NEXT_BYTES].try_into().expect("four bytes"),
        2 => [0; NEXT_BYTES],
        3 => block.to_be_bytes(),
        _ => any.to_be_bytes(),
    };
    old[..NEXT_BYTES].copy_from_slice(&bytes);
    old
}

/// The shortest file that can carry a trailer, at times a few bytes shorter.
pub fn shortest(random: &mut Random) -> Vec<u8> {
    let file = accepted::shortest();
    let (form, before, desk) = (random.pick(&FORMS), file.len() as u32, desks::any(random));
    let next = Trailer { form, place: 6, altered: 4, old: [0; SLOT_BYTES], before, previous: 0, desk };
    let start = random.pick(&[0, 0, 0, 1, 1, 2, 4, 5]);
    [&file[..], &next.bytes()[start..]].concat()
}

/// Changes a field of the trailer or its form, or how the file ends.
pub fn damaged(random: &mut Random, mut file: Vec<u8>) -> Vec<u8> {
    let Some(mut trailer) = Trailer::of(&file) else { return file };
    let n = file.len();
    file.truncate(n - trailer.form.size());
    for _ in 0..random.pick(&[0, 1, 1, 1, 1, 1, 2]) {
        damage(random, &mut trailer, n as u32);
    }
    let start = if random.once_in(10) { random.between(1, 4) } else { 0 };
    file.extend(&trailer.bytes()[start..]);
    damage_end(random, &mut file);
    file
}

/// Changes at times how a file ends: fewer bytes or one more, another byte, or the closing ones of the other form.
fn damage_end(random: &mut Random, file: &mut Vec<u8>) {
    let n = file.len();
    match random.below(32) {
        0 => file.truncate(n - 1),
        1 => file.truncate(n - 4),
        2 => file.push(random.pick(&[0, 0x32, 0x4b])),
        3 => file[n - random.between(1, 4)] ^= 1 << random.below(8),
        4 | 5 => file[n - 4..].copy_from_slice(&random.pick(&FORMS).closing()),
        _ => {}
    }
}

fn damage(random: &mut Random, trailer: &mut Trailer, n: u32) {
    match random.below(12) {
        0 => trailer.before = length_too_large(random, n, trailer.form),
        1 => trailer.before = random.below(n as usize) as u32,
        2 => trailer.place = beside(random, trailer.place),
        3 => trailer.place = random.pick(&[0, 4, 6, 10, 22, trailer.before, n, u32::MAX]),
        4 => trailer.altered = other_count(random),
        5 => trailer.old[NEXT_BYTES + random.below(8)] ^= 1 << random.below(8),
        6 | 7 => trailer.previous = other_previous(random, trailer, n),
        8 => trailer.desk = desks::any(random),
        9 => trailer.form = random.pick(&FORMS),
        10 => trailer.old[NEXT_BYTES + random.pick(&[0, 0, 0, 1])..].fill(0xff),
        _ => trailer.old[..2].copy_from_slice(&random.pick(&[[0, 0], [0x40, 0], [0x40, 1], [0, 107], [2, 0xd0]])),
    }
}

/// A length before that reaches into the trailer or past the file.
fn length_too_large(random: &mut Random, n: u32, form: Form) -> u32 {
    let (least, within) = (n + 1 - form.size() as u32, n - random.below(form.size()) as u32);
    random.pick(&[least, within, within, n, n + 1, MOST_BYTES as u32, 1 << 31, u32::MAX])
}

fn beside(random: &mut Random, place: u32) -> u32 {
    let step = random.pick(&[1, 2, 4, 6, 10, 12]);
    random.pick(&[place.wrapping_add(step), place.wrapping_sub(step)])
}

fn other_count(random: &mut Random) -> u32 {
    random.pick(&[0, 1, 3, 4, 5, 8, 11, 12, 13, 16, 0x400, 0xc00, 0x0400_0000, 0x0c00_0000, 0x8000_000c, u32::MAX])
}

fn other_previous(random: &mut Random, trailer: &Trailer, n: u32) -> u32 {
    let Trailer { before, previous, .. } = *trailer;
    let [old, long] = FORMS.map(|form| before.wrapping_sub(form.size() as u32));
    random.pick(&[0, old, long, before, n - 32, previous ^ 1, previous ^ (1 << 31), u32::MAX])
}
