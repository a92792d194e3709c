//! An independent reading of Vgroups, Vdata heads and Vdata values, and the listing of groups, written from the written rules
//! alone.

use crate::reader::{Directory, SMALL};
use crate::records::{judge_rooms, plain, plain_in, refuse, Breach, Cause, Cursor, Found, Plain, Reading, Refused};
use crate::records::{DEEP, NO_VALUE, RECORD, TYPE};
use crate::storage::Opening;
use std::vec;

pub const GROUP: u16 = 1965;
pub const HEAD: u16 = 1962;
pub const DATA: u16 = 1963;

pub const VERSION: u16 = 3;
pub const MOST_FIELDS: usize = 256;
pub const MOST_NESTED: usize = 16;
pub const MOST_PAIRS: usize = 4096;

/// How many numbers of 16 bits describe a field: type, size, offset and order.
pub const FIELD: usize = 4;

/// The kinds of values: signed and unsigned numbers, floats of 32 and of 64 bits.
const SIGNED: u64 = 1;
const UNSIGNED: u64 = 2;
const FLOAT32: u64 = 3;
const FLOAT64: u64 = 4;

/// The types of numbers by their codes, with their sizes and the kinds of their values.
const TYPES: [(u16, u16, u64); 10] = [
    (3, 1, UNSIGNED),
    (4, 1, UNSIGNED),
    (20, 1, SIGNED),
    (21, 1, UNSIGNED),
    (22, 2, SIGNED),
    (23, 2, UNSIGNED),
    (24, 4, SIGNED),
    (25, 4, UNSIGNED),
    (5, 4, FLOAT32),
    (6, 8, FLOAT64),
];

/// What is added to a code where the low byte of a number stands first.
pub const LOW_FIRST: u16 = 16384;

/// The codes of all types, each in both byte orders.
pub const CODES: [u16; 2 * TYPES.len()] = {
    let mut codes = [0; 2 * TYPES.len()];
    let mut index = 0;
    while index < codes.len() {
        codes[index] = TYPES[index / 2].0 + (index as u16 % 2) * LOW_FIRST;
        index += 1;
    }
    codes
};

/// What Vgroups and Vdata heads end with.
#[derive(Clone, Debug, PartialEq, Eq)]
pub struct Tail {
    pub name: Vec<u8>,
    pub class: Vec<u8>,
    pub extension_tag: u16,
    pub extension_ref: u16,
    pub version: u16,
    pub more: u16,
}

/// Tag and reference of each member, then the tail.
#[derive(Clone, Debug, PartialEq, Eq)]
pub struct Group {
    pub members: Vec<u16>,
    pub tail: Tail,
}

/// The fields are given by four numbers each, by the lengths of their names, and by these names one after the other.
#[derive(Clone, Debug, PartialEq, Eq)]
pub struct Vdata {
    pub interlace: u16,
    pub records: u32,
    pub record_size: u16,
    pub fields: Vec<u16>,
    pub name_lengths: Vec<u16>,
    pub names: Vec<u8>,
    pub tail: Tail,
}

/// What the code of a type says: how many bytes a number has, of which kind it is, and which byte stands first.
#[derive(Clone, Copy)]
pub struct Type {
    pub size: u16,
    pub is_low_first: bool,
    kind: u64,
}

/// A value: its kind, its bits, and the code of its type.
#[derive(Clone, Copy, Debug, PartialEq, Eq)]
pub struct Value {
    pub kind: u64,
    pub bits: u64,
    pub number_type: u16,
}

/// A column: the kind of its values, the bits of each record's, and the code of their type.
#[derive(Clone, Debug, PartialEq, Eq)]
pub struct Column {
    pub kind: u64,
    pub bits: Vec<u64>,
    pub number_type: u16,
}

/// What sort of number a value is.
#[derive(Clone, Copy, Debug, PartialEq, Eq)]
pub enum Sort {
    Negative,
    NotANumber,
    Other,
}

/// The type with a code, if it is known once 16384 is taken off.
pub fn type_of(code: u16) -> Option<Type> {
    let (is_low_first, base) = match code.checked_sub(LOW_FIRST) {
        Some(base) => (true, base),
        None => (false, code),
    };
    let (_, size, kind) = TYPES.into_iter().find(|(known, ..)| *known == base)?;
    Some(Type { size, is_low_first, kind })
}

pub fn size_of(code: u16) -> Option<u16> {
    type_of(code).map(|known| known.size)
}

// Vgroups.

pub fn read_group(image: &[u8], opening: &Opening, reference: u16, room: usize) -> Reading<Found<Group>> {
    let element = plain(image, opening, GROUP, reference)?;
    let found = group_of(&element)?;
    judge_rooms(&[found.record.members.len()], &[room])?;
    let cause = cause_of_length(&element, found.length);
    Ok((found, cause))
}

fn group_of(element: &Plain) -> Result<Found<Group>, Refused> {
    let Some(found) = group(element.cursor()) else { return element.refuse((RECORD, Cause::Cut)) };
    match found.record.tail.version {
        VERSION => Ok(found),
        _ => element.refuse((RECORD, Cause::Version)),
    }
}

fn group(mut cursor: Cursor) -> Option<Found<Group>> {
    let start = cursor.place;
    let count = cursor.number16()?.into();
    let (tags, references) = (cursor.numbers16(count)?, cursor.numbers16(count)?);
    let members = tags.into_iter().zip(references).flat_map(|(tag, reference)| [tag, reference]).collect();
    let (tail, names) = tail(&mut cursor)?;
    Some(Found { record: Group { members, tail }, place: start, length: cursor.place - start, names: names.into() })
}

/// The tail of a record, and the places of name and class.
fn tail(cursor: &mut Cursor) -> Option<(Tail, [u64; 2])> {
    let (name_place, name) = cursor.name()?;
    let (class_place, class) = cursor.name()?;
    let tail = Tail {
        name: name.to_vec(),
        class: class.to_vec(),
        extension_tag: cursor.number16()?,
        extension_ref: cursor.number16()?,
        version: cursor.number16()?,
        more: cursor.number16()?,
    };
    Some((tail, [name_place, class_place]))
}

fn cause_of_length(element: &Plain, length: u64) -> Cause {
    match element.bytes.len() as u64 > length {
        true => Cause::BytesBehind,
        false => Cause::Whole,
    }
}

// Vdata heads.

/// The head, with room for the numbers of its fields and for their names.
pub fn read_vdata(image: &[u8], opening: &Opening, reference: u16, rooms: [usize; 2]) -> Reading<Found<Vdata>> {
    read_head(image, opening, reference, |fields| judge_rooms(&[FIELD * fields, 2 * fields], &rooms))
}

/// The head, with room for so many fields.
pub fn read_fields(image: &[u8], opening: &Opening, reference: u16, room: usize) -> Reading<Found<Vdata>> {
    read_head(image, opening, reference, |fields| judge_rooms(&[fields], &[room]))
}

/// The head, where there is room for as many fields as it has.
fn read_head(
    image: &[u8],
    opening: &Opening,
    reference: u16,
    judge_room: impl FnOnce(usize) -> Result<(), Refused>,
) -> Reading<Found<Vdata>> {
    let element = plain(image, opening, HEAD, reference)?;
    let found = vdata_of(&element)?;
    judge_room(found.record.name_lengths.len())?;
    let cause = cause_of_length(&element, found.length);
    Ok((found, cause))
}

fn vdata_of(element: &Plain) -> Result<Found<Vdata>, Refused> {
    let Some(found) = vdata(element.cursor()) else { return element.refuse((RECORD, Cause::Cut)) };
    match found.record.judge() {
        Ok(()) => Ok(found),
        Err(breach) => element.refuse(breach),
    }
}

fn vdata(mut cursor: Cursor) -> Option<Found<Vdata>> {
    let start = cursor.place;
    let (interlace, records, record_size) = (cursor.number16()?, cursor.number32()?, cursor.number16()?);
    let count = cursor.number16()?.into();
    let mut lists = [const { Vec::new() }; FIELD];
    for list in &mut lists {
        *list = cursor.numbers16(count)?;
    }
    let fields = (0..count).flat_map(|index| lists.each_ref().map(|list| list[index])).collect();
    let (mut name_lengths, mut names, mut places) = (Vec::new(), Vec::new(), Vec::new());
    for _ in 0..count {
        let (place, name) = cursor.name()?;
        name_lengths.push(name.len() as u16);
        names.extend_from_slice(name);
        places.push(place);
    }
    let (tail, tail_places) = tail(&mut cursor)?;
    places.extend(tail_places);
    let record = Vdata { interlace, records, record_size, fields, name_lengths, names, tail };
    Some(Found { record, place: start, length: cursor.place - start, names: places })
}

/// A field of a Vdata.
#[derive(Clone, Copy)]
pub struct Field {
    pub number_type: u16,
    pub size: u16,
    pub offset: u16,
    pub order: u16,
}

impl Vdata {
    pub fn field_list(&self) -> impl Iterator<Item = Field> + '_ {
        self.fields.chunks_exact(FIELD).map(|numbers| Field {
            number_type: numbers[0],
            size: numbers[1],
            offset: numbers[2],
            order: numbers[3],
        })
    }

    /// The rules for a head whose fields all have their place: 15, then 16, then 15 again.
    pub fn judge(&self) -> Result<(), Breach> {
        if self.interlace > 1 {
            return Err((RECORD, Cause::Interlace));
        }
        if self.name_lengths.len() > MOST_FIELDS {
            return Err((RECORD, Cause::FieldCount));
        }
        if self.tail.version != VERSION {
            return Err((RECORD, Cause::Version));
        }
        if self.field_list().any(|field| field.order == 0) {
            return Err((RECORD, Cause::Order));
        }
        self.field_list().try_for_each(|field| judge_type(field.number_type))?;
        self.judge_sizes()
    }

    /// The sizes of fields whose types are known.
    fn judge_sizes(&self) -> Result<(), Breach> {
        let mut sum = 0;
        for field in self.field_list() {
            let wanted = u64::from(field.order) * u64::from(size_of(field.number_type).unwrap_or(0));
            if u64::from(field.size) != wanted {
                return Err((RECORD, Cause::Size));
            }
            if u64::from(field.offset) != sum {
                return Err((RECORD, Cause::Offset));
            }
            sum += wanted;
        }
        match u64::from(self.record_size) == sum {
            true => Ok(()),
            false => Err((RECORD, Cause::RecordSize)),
        }
    }
}

fn judge_type(code: u16) -> Result<(), Breach> {
    match type_of(code) {
        Some(_) => Ok(()),
        None if code < LOW_FIRST => Err((TYPE, Cause::Type)),
        None => Err((TYPE, Cause::LowFirstType)),
    }
}

// Vdata values.

/// The value with the indices of record, field and component.
pub fn read_value(image: &[u8], opening: &Opening, reference: u16, indices: [u64; 3]) -> Reading<Value> {
    let head = vdata_of(&plain(image, opening, HEAD, reference)?)?.record;
    let [record, field, component] = indices;
    if record >= head.records.into() {
        return refuse(NO_VALUE, 0, Cause::Record);
    }
    let field = asked_field(&head, [field, component])?;
    let data = whole_data(image, opening, reference, &head)?;
    let Field { number_type, .. } = field;
    let bits = head.bits(&data, field, record, component);
    Ok((Value { kind: known_type(number_type).kind, bits, number_type }, head.cause()))
}

/// A component of a field in every record, by the indices of both.
pub fn read_column(image: &[u8], opening: &Opening, reference: u16, indices: [u64; 2], room: usize) -> Reading<Column> {
    let head = vdata_of(&plain(image, opening, HEAD, reference)?)?.record;
    let field = asked_field(&head, indices)?;
    let Field { number_type, .. } = field;
    let kind = known_type(number_type).kind;
    if head.records == 0 {
        return Ok((Column { kind, bits: Vec::new(), number_type }, Cause::NoRecords));
    }
    let data = whole_data(image, opening, reference, &head)?;
    judge_rooms(&[head.records as usize], &[room])?;
    let bits = (0..head.records.into()).map(|record| head.bits(&data, field, record, indices[1])).collect();
    Ok((Column { kind, bits, number_type }, head.cause()))
}

/// The data, which have all records.
fn whole_data<'a>(image: &'a [u8], opening: &Opening, reference: u16, head: &Vdata) -> Result<Plain<'a>, Refused> {
    let data = plain(image, opening, DATA, reference).map_err(of_data)?;
    match (data.bytes.len() as u64) < u64::from(head.records) * u64::from(head.record_size) {
        true => data.refuse((RECORD, Cause::DataShort)),
        false => Ok(data),
    }
}

fn known_type(code: u16) -> Type {
    type_of(code).expect("a type that was judged")
}

impl Vdata {
    /// How the values lie.
    fn cause(&self) -> Cause {
        match self.interlace {
            0 => Cause::ByRecord,
            _ => Cause::ByField,
        }
    }

    /// The bits of a component of a field in a record.
    fn bits(&self, data: &Plain, field: Field, record: u64, component: u64) -> u64 {
        let whole = match self.interlace {
            0 => record * u64::from(self.record_size) + u64::from(field.offset),
            _ => u64::from(self.records) * u64::from(field.offset) + record * u64::from(field.size),
        };
        let known = known_type(field.number_type);
        let start = (whole + component * u64::from(known.size)) as usize;
        known.bits(&data.bytes[start..start + usize::from(known.size)])
    }
}

/// The field and the component that the indices name, each of them small enough.
fn asked_field(head: &Vdata, [field, component]: [u64; 2]) -> Result<Field, Refused> {
    let index = usize::try_from(field).unwrap_or(usize::MAX);
    let Some(field) = head.field_list().nth(index) else { return refuse(NO_VALUE, 0, Cause::Field) };
    match component < field.order.into() {
        true => Ok(field),
        false => refuse(NO_VALUE, 0, Cause::Component),
    }
}

fn of_data(refused: Refused) -> Refused {
    let cause = match refused.cause {
        Cause::Absent => Cause::DataAbsent,
        Cause::Unstored => Cause::DataUnstored,
        Cause::Extended => Cause::DataExtended,
        other => other,
    };
    Refused { cause, ..refused }
}

impl Type {
    /// The bits of the number in so many bytes as the type has.
    fn bits(self, bytes: &[u8]) -> u64 {
        let mut high_first = bytes.to_vec();
        if self.is_low_first {
            high_first.reverse();
        }
        let unsigned = high_first.iter().fold(0_u64, |number, byte| number << 8 | u64::from(*byte));
        let above = 64 - 8 * bytes.len();
        match self.kind {
            SIGNED => (((unsigned << above) as i64) >> above) as u64,
            _ => unsigned,
        }
    }

    /// Whether the type has values of a sort.
    pub fn has(self, sort: Sort) -> bool {
        match sort {
            Sort::Negative => self.kind != UNSIGNED,
            Sort::NotANumber => self.kind == FLOAT32 || self.kind == FLOAT64,
            Sort::Other => true,
        }
    }
}

impl Value {
    pub fn sort(&self) -> Sort {
        let number = match self.kind {
            SIGNED => self.bits as i64 as f64,
            FLOAT32 => f32::from_bits(self.bits as u32).into(),
            FLOAT64 => f64::from_bits(self.bits),
            _ => self.bits as f64,
        };
        match (number.is_nan(), number.is_sign_negative()) {
            (true, _) => Sort::NotANumber,
            (false, true) => Sort::Negative,
            (false, false) => Sort::Other,
        }
    }
}

// The listing of groups.

/// The pairs below a group, in order, as tag and reference of each.
pub fn list_group(image: &[u8], opening: &Opening, reference: u16, room: usize) -> Reading<Vec<u16>> {
    let Listing { pairs, nested, end } = listing(image, opening, reference, room);
    end?;
    let cause = match (pairs.len() / 2, nested) {
        (MOST_PAIRS, _) => Cause::MostPairs,
        (_, MOST_NESTED) => Cause::MostNested,
        (_, 1) => Cause::NoGroupInside,
        _ => Cause::GroupsInside,
    };
    Ok((pairs, cause))
}

/// The pairs up to the end or a refusal, and how many groups were nested at most.
pub struct Listing {
    pub pairs: Vec<u16>,
    pub nested: usize,
    pub end: Result<(), Refused>,
}

pub fn listing(image: &[u8], opening: &Opening, reference: u16, room: usize) -> Listing {
    let mut listing = Listing { pairs: Vec::new(), nested: 1, end: Ok(()) };
    listing.end = listing.walk(image, opening, reference, room);
    listing
}

/// A group whose members are being listed: its slot, and the members that are left.
struct Open {
    slot: u64,
    members: vec::IntoIter<u16>,
}

impl Listing {
    fn walk(&mut self, image: &[u8], opening: &Opening, reference: u16, room: usize) -> Result<(), Refused> {
        let mut open = vec![open_group(plain(image, opening, GROUP, reference)?)?];
        let Ok(directory) = opening else { return Ok(()) };
        while let Some(group) = open.last_mut() {
            let (Some(tag), Some(reference)) = (group.members.next(), group.members.next()) else {
                open.pop();
                continue;
            };
            self.judge_place(room)?;
            if tag == GROUP {
                if open.len() == MOST_NESTED {
                    return refuse(DEEP, open[MOST_NESTED - 1].slot, Cause::Deep);
                }
                open.push(member_group(image, directory, reference)?);
                self.nested = self.nested.max(open.len());
            }
            self.pairs.extend([tag, reference]);
        }
        Ok(())
    }

    /// Whether the next pair has a place in the table.
    fn judge_place(&self, room: usize) -> Result<(), Refused> {
        if self.pairs.len() == 2 * MOST_PAIRS {
            return refuse(SMALL, 0, Cause::TooManyPairs);
        }
        if self.pairs.len() + 2 > room {
            return refuse(SMALL, 0, Cause::TableFull);
        }
        Ok(())
    }
}

fn open_group(element: Plain) -> Result<Open, Refused> {
    let members = group_of(&element)?.record.members.into_iter();
    Ok(Open { slot: element.slot, members })
}

/// A group that is a member of another.
fn member_group(image: &[u8], directory: &Directory, reference: u16) -> Result<Open, Refused> {
    let member = plain_in(image, directory, GROUP, reference).and_then(open_group);
    member.map_err(|refused| {
        let cause = match refused.cause {
            Cause::Absent => Cause::MemberAbsent,
            Cause::Unstored => Cause::MemberUnstored,
            Cause::Extended => Cause::MemberExtended,
            _ => Cause::MemberBroken,
        };
        Refused { cause, ..refused }
    })
}
