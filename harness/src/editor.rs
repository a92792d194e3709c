//! An independent editor of whole files, written from the written rules alone: add, replace, remove and undo. Each makes a new
//! file, or names the first rule that the call breaks.

use crate::reader::{self, Directory, Refusal};
use crate::reader::{ABSENT, BAD_TAG, DIR_BIG, TOO_LONG};
use crate::reader::{EXTENDED, FREE, MACHINE_TYPE, MOST_BLOCKS, MOST_BYTES, MOST_SLOTS};

pub const PRESENT: u64 = 18;
pub const NO_ROOM: u64 = 19;
pub const NO_EDIT: u64 = 20;
pub const BAD_TRAILER: u64 = 21;
pub const OTHER_DESK: u64 = 30;

pub const BLOCK_SLOTS: usize = 16;
pub const BLOCK_SIZE: usize = 198;

pub const SLOT_BYTES: usize = 12;
pub const NEXT_BYTES: usize = 4;

/// The desk of all trailers of the old form.
pub const OLD_DESK: u32 = 0;

/// A call with its arguments.
#[derive(Clone)]
pub enum Request {
    Edit(Edit),
    Undo { desk: u32 },
}

/// An edit. Removing has no data.
#[derive(Clone)]
pub struct Edit {
    pub desk: u32,
    pub kind: Kind,
    pub tag: u16,
    pub reference: u16,
    pub data: Vec<u8>,
}

#[derive(Clone, Copy, Debug, PartialEq, Eq)]
pub enum Kind {
    Add,
    Replace,
    Remove,
}

/// What an edit does to a file: some bytes change, others are appended.
pub struct Change {
    pub place: usize,
    pub bytes: Vec<u8>,
    pub appended: Vec<u8>,
}

/// A refused call: its answer, the rule that decided it, and the form of the trailer that was judged, where one was.
#[derive(Clone, Copy, Debug)]
pub struct Refused {
    pub refusal: Refusal,
    pub reason: Reason,
    pub form: Option<Form>,
}

/// The rules that refuse, told apart where one number stands for several.
#[derive(Clone, Copy, Debug, PartialEq, Eq)]
pub enum Reason {
    Length,
    Opening,
    Tag,
    Present,
    PresentUnstored,
    Absent,
    Blocks,
    Slots,
    Limit,
    Room,
    NoTrailer,
    LengthBefore,
    BytesAltered,
    PlaceAltered,
    PastLengthBefore,
    Padding,
    Previous,
    Restored,
    Desk,
}

/// The forms of a trailer. The old one names no desk. Every edit leaves a long one.
#[derive(Clone, Copy, Debug, PartialEq, Eq)]
pub enum Form {
    Old,
    Long,
}

pub const FORMS: [Form; 2] = [Form::Old, Form::Long];

impl Form {
    /// How many bytes a trailer has.
    pub const fn size(self) -> usize {
        match self {
            Form::Old => 32,
            Form::Long => 36,
        }
    }

    /// The four bytes that a trailer ends in.
    pub const fn closing(self) -> [u8; 4] {
        match self {
            Form::Old => [0x42, 0x41, 0x43, 0x4b],
            Form::Long => [0x42, 0x41, 0x43, 0x32],
        }
    }

    /// How many bytes the shortest file with a trailer has.
    const fn shortest(self) -> usize {
        match self {
            Form::Old => 42,
            Form::Long => 46,
        }
    }
}

/// The file that a call makes of the first `n` bytes of a buffer.
pub fn call(buffer: &[u8], n: u64, request: &Request) -> Result<Vec<u8>, Refused> {
    perform(file_in(buffer, n)?, buffer.len() as u64, request)
}

/// The file in the first `n` bytes of a buffer.
pub fn file_in(buffer: &[u8], n: u64) -> Result<&[u8], Refused> {
    if n > buffer.len() as u64 || n > MOST_BYTES {
        return refuse(TOO_LONG, Reason::Length);
    }
    Ok(&buffer[..n as usize])
}

/// The file that a call makes of a file in a buffer of a certain length.
pub fn perform(file: &[u8], capacity: u64, request: &Request) -> Result<Vec<u8>, Refused> {
    match request {
        Request::Edit(edit) => Ok(change(file, capacity, edit, Form::Long)?.made_of(file)),
        Request::Undo { desk } => undo(file, *desk),
    }
}

/// What an edit does to a file, with a trailer of this form. The order of refusals: opening's, 7, 18 or 11, 6, 1, 19.
pub fn change(file: &[u8], capacity: u64, edit: &Edit, form: Form) -> Result<Change, Refused> {
    let directory = open(file)?;
    judge_tag(edit.tag)?;
    let target = target(&directory, edit)?;
    let length = file.len() as u64 + target.appended() + edit.data.len() as u64 + form.size() as u64;
    if length > MOST_BYTES {
        return refuse(TOO_LONG, Reason::Limit);
    }
    if length > capacity {
        return refuse(NO_ROOM, Reason::Room);
    }
    Ok(target.change(file, edit, form))
}

impl Change {
    /// The new file.
    pub fn made_of(&self, file: &[u8]) -> Vec<u8> {
        let mut new = file.to_vec();
        new[self.place..self.place + self.bytes.len()].copy_from_slice(&self.bytes);
        new.extend_from_slice(&self.appended);
        new
    }
}

fn open(file: &[u8]) -> Result<Directory, Refused> {
    reader::open(file).map_err(|refusal| Refused { refusal, reason: Reason::Opening, form: None })
}

fn judge_tag(tag: u16) -> Result<(), Refused> {
    match tag {
        0 | FREE | MACHINE_TYPE | EXTENDED..=32767 => refuse(BAD_TAG, Reason::Tag),
        _ => Ok(()),
    }
}

/// The slot that an edit writes: one that stands, or the first of a new block, linked from a next field.
enum Target {
    Slot { place: usize },
    NewBlock { next: usize },
}

fn target(directory: &Directory, edit: &Edit) -> Result<Target, Refused> {
    match (edit.kind, directory.slot(edit.tag, edit.reference)) {
        (Kind::Add, Some(slot)) if slot.is_unstored() => refuse(PRESENT, Reason::PresentUnstored),
        (Kind::Add, Some(_)) => refuse(PRESENT, Reason::Present),
        (Kind::Add, None) => free_target(directory),
        (_, Some(slot)) => Ok(Target::Slot { place: slot.place as usize }),
        (_, None) => refuse(ABSENT, Reason::Absent),
    }
}

/// The first free slot in chain order, or a new block behind the last one.
fn free_target(directory: &Directory) -> Result<Target, Refused> {
    if let Some(slot) = directory.slots.iter().find(|slot| !slot.is_live()) {
        return Ok(Target::Slot { place: slot.place as usize });
    }
    if directory.blocks.len() >= MOST_BLOCKS {
        return refuse(DIR_BIG, Reason::Blocks);
    }
    if directory.slots.len() + BLOCK_SLOTS > MOST_SLOTS as usize {
        return refuse(DIR_BIG, Reason::Slots);
    }
    let last = directory.blocks.last().expect("there is a first block");
    Ok(Target::NewBlock { next: next_field(last) as usize })
}

impl Target {
    /// How many bytes are appended before the data.
    fn appended(&self) -> u64 {
        match self {
            Target::Slot { .. } => 0,
            Target::NewBlock { .. } => BLOCK_SIZE as u64,
        }
    }

    fn change(&self, file: &[u8], edit: &Edit, form: Form) -> Change {
        let n = file.len();
        let (place, bytes, mut appended) = match self {
            Target::Slot { place } => (*place, slot_of(edit, n), Vec::new()),
            Target::NewBlock { next } => (*next, number32(n), new_block(slot_of(edit, n + BLOCK_SIZE))),
        };
        appended.extend_from_slice(&edit.data);
        appended.extend(Trailer::behind(file, place, bytes.len(), form, edit.desk).bytes());
        Change { place, bytes, appended }
    }
}

/// The slot that an edit writes, its data standing at `place`.
fn slot_of(edit: &Edit, place: usize) -> Vec<u8> {
    match (edit.kind, edit.data.is_empty()) {
        (Kind::Remove, _) => slot(FREE, 0, 0, 0),
        (_, true) => slot(edit.tag, edit.reference, 0, 0),
        (_, false) => slot(edit.tag, edit.reference, place, edit.data.len()),
    }
}

/// A last block of sixteen slots: the given one, the others free.
fn new_block(first: Vec<u8>) -> Vec<u8> {
    let head = [number16(BLOCK_SLOTS as u16), number32(0)].concat();
    [head, first, slot(FREE, 0, 0, 0).repeat(BLOCK_SLOTS - 1)].concat()
}

pub fn slot(tag: u16, reference: u16, offset: usize, length: usize) -> Vec<u8> {
    [number16(tag), number16(reference), number32(offset), number32(length)].concat()
}

/// The fields of a trailer, the closing bytes left out.
#[derive(Clone, Debug)]
pub struct Trailer {
    pub form: Form,
    pub place: u32,
    pub altered: u32,
    pub old: [u8; SLOT_BYTES],
    pub before: u32,
    pub previous: u32,
    pub desk: u32,
}

impl Trailer {
    /// The trailer of an edit that alters bytes of a file, for the place right behind it.
    fn behind(file: &[u8], place: usize, altered: usize, form: Form, desk: u32) -> Trailer {
        let mut old = [0; SLOT_BYTES];
        old[..altered].copy_from_slice(&file[place..place + altered]);
        let (before, previous) = (file.len() as u32, previous(file, form));
        Trailer { form, place: place as u32, altered: altered as u32, old, before, previous, desk }
    }

    /// All bytes. Those of the old form have no desk.
    pub fn bytes(&self) -> Vec<u8> {
        let Trailer { form, place, altered, old, before, previous, desk } = self;
        let numbers = [place.to_be_bytes(), altered.to_be_bytes()].concat();
        let lengths = [before.to_be_bytes(), previous.to_be_bytes()].concat();
        let desk = if *form == Form::Long { desk.to_be_bytes().to_vec() } else { Vec::new() };
        [&numbers[..], old, &lengths, &desk, &form.closing()].concat()
    }

    /// The trailer that a file carries.
    pub fn of(file: &[u8]) -> Option<Trailer> {
        let form = carried(file)?;
        let bytes = &file[file.len() - form.size()..];
        let number = |place: usize| u32::from_be_bytes(bytes[place..place + 4].try_into().expect("four bytes"));
        let old = bytes[8..8 + SLOT_BYTES].try_into().expect("twelve bytes");
        let desk = if form == Form::Long { number(28) } else { OLD_DESK };
        let (before, previous) = (number(20), number(24));
        Some(Trailer { form, place: number(0), altered: number(4), old, before, previous, desk })
    }
}

/// The form of the trailer that a file carries.
pub fn carried(file: &[u8]) -> Option<Form> {
    FORMS.into_iter().find(|form| file.len() >= form.shortest() && file.ends_with(&form.closing()))
}

/// What a trailer right behind a file names as the previous one. One of the old form knows only its own.
pub fn previous(file: &[u8], form: Form) -> u32 {
    match (form, carried(file)) {
        (Form::Old, Some(Form::Long)) | (_, None) => 0,
        (_, Some(carried)) => (file.len() - carried.size()) as u32,
    }
}

/// The file before the newest edit, for the desk that made it. The order of refusals: opening's, 20, 21, 30.
pub fn undo(file: &[u8], desk: u32) -> Result<Vec<u8>, Refused> {
    let directory = open(file)?;
    let Some(trailer) = Trailer::of(file) else { return refuse(NO_EDIT, Reason::NoTrailer) };
    let n = file.len() as u64;
    let image = restored(file, &directory, &trailer);
    let image = image.map_err(|reason| Refused::at_trailer(n, trailer.form, BAD_TRAILER, reason))?;
    match trailer.desk == desk {
        true => Ok(image),
        false => Err(Refused::by_desk(n, trailer.form)),
    }
}

impl Refused {
    /// A refusal at the trailer that ends a file of this length.
    fn at_trailer(length: u64, form: Form, number: u64, reason: Reason) -> Refused {
        let place = length - form.size() as u64;
        Refused { refusal: Refusal { number, place }, reason, form: Some(form) }
    }

    /// The refusal of an undo where the trailer that ends a file of this length is another desk's.
    pub fn by_desk(length: u64, form: Form) -> Refused {
        Refused::at_trailer(length, form, OTHER_DESK, Reason::Desk)
    }
}

/// Judges the trailer of a file and puts the old bytes back.
fn restored(file: &[u8], directory: &Directory, trailer: &Trailer) -> Result<Vec<u8>, Reason> {
    let (place, before, altered) = (trailer.place as usize, trailer.before as usize, trailer.altered as usize);
    if before > file.len() - trailer.form.size() {
        return Err(Reason::LengthBefore);
    }
    if altered != SLOT_BYTES && altered != NEXT_BYTES {
        return Err(Reason::BytesAltered);
    }
    if !places(directory, altered).contains(&u64::from(trailer.place)) {
        return Err(Reason::PlaceAltered);
    }
    if place + altered > before {
        return Err(Reason::PastLengthBefore);
    }
    if trailer.old[altered..].iter().any(|byte| *byte != 0) {
        return Err(Reason::Padding);
    }
    let mut image = file[..before].to_vec();
    image[place..place + altered].copy_from_slice(&trailer.old[..altered]);
    if trailer.previous != previous(&image, trailer.form) {
        return Err(Reason::Previous);
    }
    match reader::open(&image) {
        Ok(_) => Ok(image),
        Err(_) => Err(Reason::Restored),
    }
}

/// The places that a trailer may name: those of all slots or, with four bytes altered, of all next fields.
fn places(directory: &Directory, altered: usize) -> Vec<u64> {
    match altered {
        SLOT_BYTES => directory.slots.iter().map(|slot| slot.place).collect(),
        _ => directory.blocks.iter().map(next_field).collect(),
    }
}

/// The place of a block's next field.
pub fn next_field(block: &reader::Block) -> u64 {
    block.place + 2
}

fn number16(number: u16) -> Vec<u8> {
    number.to_be_bytes().to_vec()
}

fn number32(number: usize) -> Vec<u8> {
    (number as u32).to_be_bytes().to_vec()
}

/// A refusal at place 0.
fn refuse<T>(number: u64, reason: Reason) -> Result<T, Refused> {
    Err(Refused { refusal: Refusal { number, place: 0 }, reason, form: None })
}
