//! Vgroups and Vdatas.

use crate::records::{packed, pair, pairs_of, table_of, Pair, MOST_OF_A_LIST};
use crate::{granted, part, view, Error, MOST_FIELDS, MOST_PAIRS};
use hdf4_sys as ffi;
use std::fmt;

/// A Vgroup, of tag 1965. The version is 3.
#[derive(Clone, Debug, PartialEq, Eq)]
pub struct Group<'a> {
    /// The members in order.
    pub members: Vec<Pair>,
    /// The name, a part of the image.
    pub name: &'a [u8],
    /// The class, a part of the image.
    pub class: &'a [u8],
    /// The extension's tag and reference.
    pub extension: Pair,
    /// The version: 3.
    pub version: u16,
    /// The field named more.
    pub more: u16,
}

/// A field of a Vdata: `order` numbers of a type, `size` bytes from `offset` on in each record.
#[derive(Clone, Copy, Debug, PartialEq, Eq)]
pub struct Field<'a> {
    /// The name, a part of the image.
    pub name: &'a [u8],
    /// The type's code, from 16384 on where numbers stand low byte first. [`base_type`] gives its base type.
    pub number_type: u16,
    /// Bytes of the field in a record.
    pub size: u16,
    /// Bytes of the fields before it.
    pub offset: u16,
    /// Numbers of the field in a record, at least 1.
    pub order: u16,
}

/// Which byte of a number stands first in the file.
#[derive(Clone, Copy, Debug, PartialEq, Eq, Hash)]
pub enum ByteOrder {
    /// The high byte.
    BigEndian,
    /// The low byte.
    LittleEndian,
}

/// The base type of a field's type: from 16384 on the type less 16384, else the type itself. The two are types of the same numbers.
///
/// ```
/// assert_eq!([24, 16384 + 24].map(hdf4::base_type), [24, 24]);
/// ```
pub fn base_type(number_type: u16) -> u16 {
    number_type.checked_sub(LITTLE_ENDIAN).unwrap_or(number_type)
}

impl Field<'_> {
    /// The byte order that the type names, also where a number has one byte.
    ///
    /// [`read_value`] gives the same [`Value`] in either order; the bytes of element 1963 are in this one. [`pack_vdata`] keeps
    /// it, since it keeps the type.
    ///
    /// ```
    /// # use hdf4::{ByteOrder, Field};
    /// let field = Field { name: b"height", number_type: 16384 + 24, size: 4, offset: 0, order: 1 };
    /// assert_eq!(field.byte_order(), ByteOrder::LittleEndian);
    /// ```
    pub fn byte_order(&self) -> ByteOrder {
        if base_type(self.number_type) == self.number_type {
            ByteOrder::BigEndian
        } else {
            ByteOrder::LittleEndian
        }
    }
}

/// The head of a Vdata, of tag 1962. The interlace is 0 where the values stand by record, 1 where they stand by field; there
/// are at most [`MOST_FIELDS`] fields, and the version is 3.
#[derive(Clone, Debug, PartialEq, Eq)]
pub struct Vdata<'a> {
    /// 0 or 1.
    pub interlace: u16,
    /// How many records.
    pub records: u32,
    /// Bytes of a record: the sum of its fields' sizes.
    pub record_size: u16,
    /// The fields in order.
    pub fields: Vec<Field<'a>>,
    /// The name, a part of the image.
    pub name: &'a [u8],
    /// The class, a part of the image.
    pub class: &'a [u8],
    /// The extension's tag and reference.
    pub extension: Pair,
    /// The version: 3.
    pub version: u16,
    /// The field named more.
    pub more: u16,
}

/// A value of a Vdata, as the base type of its field says. A float has the bits that it has in the file, also where it is a NaN.
#[derive(Clone, Copy, Debug, PartialEq)]
pub enum Value {
    /// Of base type 20, 22 or 24.
    Signed(i64),
    /// Of base type 21, 23 or 25, or a character, base type 3 or 4.
    Unsigned(u64),
    /// Of base type 5.
    Float32(f32),
    /// Of base type 6.
    Float64(f64),
}

/// What the values of a column are.
#[derive(Clone, Copy, Debug, PartialEq, Eq, Hash)]
pub enum Kind {
    /// Each is a [`Value::Signed`].
    Signed,
    /// Each is a [`Value::Unsigned`].
    Unsigned,
    /// Each is a [`Value::Float32`].
    Float32,
    /// Each is a [`Value::Float64`].
    Float64,
}

/// One component of one field in every record of a Vdata.
#[derive(Clone, Copy, Debug, PartialEq, Eq)]
pub struct Column<'a> {
    /// What the values are.
    pub kind: Kind,
    /// The bits of each, by record: of a signed number its two's complement, of a float its own.
    pub bits: &'a [u64],
}

/// What is added to a type whose numbers stand low byte first.
const LITTLE_ENDIAN: u16 = ffi::LITTLE_ENDIAN as u16;

const GROUP: u16 = 1965;
const BYTES_OF_A_PAIR: usize = 4;

impl Kind {
    fn new(kind: u64) -> Kind {
        match kind {
            ffi::SIGNED => Kind::Signed,
            ffi::FLOAT32 => Kind::Float32,
            ffi::FLOAT64 => Kind::Float64,
            _ => Kind::Unsigned,
        }
    }

    /// The value of this kind that has these bits.
    ///
    /// ```
    /// assert_eq!(hdf4::Kind::Signed.value(u64::MAX), hdf4::Value::Signed(-1));
    /// ```
    pub fn value(self, bits: u64) -> Value {
        match self {
            Kind::Signed => Value::Signed(bits as i64),
            Kind::Unsigned => Value::Unsigned(bits),
            Kind::Float32 => Value::Float32(f32::from_bits(bits as u32)),
            Kind::Float64 => Value::Float64(f64::from_bits(bits)),
        }
    }
}

impl<'a> Column<'a> {
    /// The values in order of the records.
    pub fn values(self) -> impl ExactSizeIterator<Item = Value> + DoubleEndedIterator + 'a {
        self.bits.iter().map(move |&bits| self.kind.value(bits))
    }
}

/// A number in decimal, a float in the fewest digits that give it back.
impl fmt::Display for Value {
    fn fmt(&self, f: &mut fmt::Formatter<'_>) -> fmt::Result {
        match self {
            Value::Signed(number) => write!(f, "{number}"),
            Value::Unsigned(number) => write!(f, "{number}"),
            Value::Float32(number) => write!(f, "{number:?}"),
            Value::Float64(number) => write!(f, "{number:?}"),
        }
    }
}

/// Reads a Vgroup.
pub fn read_group(image: &[u8], reference: u16) -> Result<Group<'_>, Error> {
    let most = MOST_OF_A_LIST.min(view(image, GROUP, reference)?.len() / BYTES_OF_A_PAIR);
    let mut members = vec![0; 2 * most];
    let a = ffi::read_group(image, reference, &mut members);
    let count = granted(a.number, a.place, a.members as usize)?;
    Ok(Group {
        members: pairs_of(&members[..2 * count]),
        name: part(image, a.name_offset, a.name_length),
        class: part(image, a.class_offset, a.class_length),
        extension: pair(a.extension_tag, a.extension_ref),
        version: a.version as u16,
        more: a.more as u16,
    })
}

/// Packs a Vgroup to the front of `out` and gives its length.
pub fn pack_group(group: &Group, out: &mut [u8]) -> Result<usize, Error> {
    let Group { name, class, extension, version, more, .. } = *group;
    let members = table_of(&group.members);
    packed(ffi::pack_group(&members, name, class, extension.tag, extension.reference, version, more, out))
}

/// Lists the members of a Vgroup in order, each member of tag 1965 followed by its own members.
///
/// At most 16 groups are nested, the named one included, and there are at most [`MOST_PAIRS`] pairs.
pub fn list_group(image: &[u8], reference: u16) -> Result<Vec<Pair>, Error> {
    let mut list = [0; 2 * MOST_PAIRS];
    let a = ffi::list_group(image, reference, &mut list);
    let count = granted(a.number, a.place, a.pairs as usize)?;
    Ok(pairs_of(&list[..2 * count]))
}

/// Reads the head of a Vdata.
pub fn read_vdata(image: &[u8], reference: u16) -> Result<Vdata<'_>, Error> {
    let mut table = [ffi::Field::default(); MOST_FIELDS];
    let a = ffi::read_fields(image, reference, &mut table);
    let count = granted(a.number, a.place, a.fields as usize)?;
    let field = |field: &ffi::Field| Field {
        name: part(image, field.name_offset.into(), field.name_length.into()),
        number_type: field.code,
        size: field.size,
        offset: field.offset,
        order: field.order,
    };
    Ok(Vdata {
        interlace: a.interlace as u16,
        records: a.records as u32,
        record_size: a.record_size as u16,
        fields: table[..count].iter().map(field).collect(),
        name: part(image, a.name_offset, a.name_length),
        class: part(image, a.class_offset, a.class_length),
        extension: pair(a.extension_tag, a.extension_ref),
        version: a.version as u16,
        more: a.more as u16,
    })
}

/// Packs the head of a Vdata to the front of `out` and gives its length.
pub fn pack_vdata(vdata: &Vdata, out: &mut [u8]) -> Result<usize, Error> {
    let Vdata { interlace, records, record_size, name, class, extension, version, more, .. } = *vdata;
    let numbers = |field: &Field| [field.number_type, field.size, field.offset, field.order];
    let fields: Vec<u16> = vdata.fields.iter().flat_map(numbers).collect();
    // A longer name than a length can say is refused: the lengths then fall short of the names.
    let length = |field: &Field| u16::try_from(field.name.len()).unwrap_or(u16::MAX);
    let name_lengths: Vec<u16> = vdata.fields.iter().map(length).collect();
    let names: Vec<u8> = vdata.fields.iter().flat_map(|field| field.name).copied().collect();
    packed(ffi::pack_vdata(
        interlace,
        records,
        record_size,
        &fields,
        &name_lengths,
        &names,
        name,
        class,
        extension.tag,
        extension.reference,
        version,
        more,
        out,
    ))
}

/// Reads one value of a Vdata. All indices count from 0.
pub fn read_value(image: &[u8], reference: u16, record: usize, field: usize, component: usize) -> Result<Value, Error> {
    let a = ffi::read_value(image, reference, record as u64, field as u64, component as u64);
    granted(a.number, a.place, Kind::new(a.kind).value(a.bits))
}

/// Reads one component of one field in every record of a Vdata to the front of `out`, which has room for an entry a record; what
/// stands behind stays as it was. Each value is the one that [`read_value`] gives, and the image is opened once for all of them.
///
/// A Vdata without records has a column without values, also where there is no element of them.
///
/// ```
/// # fn main() -> Result<(), hdf4::Error> {
/// # use hdf4::{Field, Pair, Value, Vdata};
/// // A Vdata of two records, each of one signed number of 16 bits.
/// let fields = vec![Field { name: b"height", number_type: 22, size: 2, offset: 0, order: 1 }];
/// let (name, class, extension) = (b"roads", b"", Pair { tag: 0, reference: 0 });
/// let roads = Vdata { interlace: 0, records: 2, record_size: 2, fields, name, class, extension, version: 3, more: 0 };
/// let mut head = [0; 100];
/// let length = hdf4::pack_vdata(&roads, &mut head)?;
/// let mut file = hdf4::File::new(b"\x0e\x03\x13\x01\0\0\0\0\0\0".to_vec())?;
/// file.add(0, 1962, 7, &head[..length])?;
/// file.add(0, 1963, 7, b"\xff\xfe\x01\x2c")?;
///
/// let mut out = vec![0; roads.records as usize];
/// let column = hdf4::read_column(file.bytes(), 7, 0, 0, &mut out)?;
/// assert!(column.values().eq([Value::Signed(-2), Value::Signed(300)]));
/// # Ok(())
/// # }
/// ```
pub fn read_column<'a>(
    image: &[u8],
    reference: u16,
    field: usize,
    component: usize,
    out: &'a mut [u64],
) -> Result<Column<'a>, Error> {
    let a = ffi::read_column(image, reference, field as u64, component as u64, out);
    let records = granted(a.number, a.place, a.records as usize)?;
    Ok(Column { kind: Kind::new(a.kind), bits: &out[..records] })
}

#[cfg(test)]
mod tests {
    use super::*;
    use crate::tests::{file_of, rule};
    use crate::Rule;

    const NONE: Pair = Pair { tag: 0, reference: 0 };

    fn member(tag: u16, reference: u16) -> Pair {
        Pair { tag, reference }
    }

    fn group(members: &[Pair]) -> Vec<u8> {
        let members = members.to_vec();
        let mut out = [0; 200];
        let group = Group { members, name: b"north", class: b"", extension: NONE, version: 3, more: 7 };
        let length = pack_group(&group, &mut out).unwrap();
        out[..length].to_vec()
    }

    #[test]
    fn a_group_is_read_and_packed() {
        let bytes = b"\0\x02\x07\xad\x07\xaa\0\x03\0\x04\0\x05north\0\0\0\0\0\0\0\x03\0\x07";
        assert_eq!(group(&[member(1965, 3), member(1962, 4)]), bytes);
        let image = file_of(&[(1965, 2, &[bytes, &b"more"[..]].concat())]);
        let read = read_group(&image, 2).unwrap();
        assert_eq!(read.members, [member(1965, 3), member(1962, 4)]);
        assert_eq!((read.name, read.class, read.version, read.more), (&b"north"[..], &b""[..], 3, 7));
        assert_eq!(rule(pack_group(&Group { version: 4, ..read.clone() }, &mut [0; 99])), (Rule::Record, 15, 0));
        assert_eq!(rule(pack_group(&read, &mut [0; 26])), (Rule::Small, 14, 0));
    }

    #[test]
    fn groups_are_listed_one_within_the_other() {
        let outer = group(&[member(1965, 2), member(720, 9), member(1965, 3)]);
        let inner = group(&[member(1962, 4), member(1963, 4)]);
        let itself = group(&[member(1965, 4)]);
        let image = file_of(&[(1965, 1, &outer), (1965, 2, &inner), (1965, 3, &group(&[])), (1965, 4, &itself)]);
        let pairs = [(1965, 2), (1962, 4), (1963, 4), (720, 9), (1965, 3)].map(|(tag, reference)| member(tag, reference));
        assert_eq!(list_group(&image, 1), Ok(pairs.to_vec()));
        assert_eq!(list_group(&image, 3), Ok(vec![]));
        assert_eq!(rule(list_group(&image, 4)), (Rule::Deep, 22, 46));
        assert_eq!(rule(list_group(&image, 5)), (Rule::Absent, 11, 0));
    }

    fn field(name: &[u8], number_type: u16, size: u16, offset: u16, order: u16) -> Field<'_> {
        Field { name, number_type, size, offset, order }
    }

    const ORDERS: [ByteOrder; 2] = [ByteOrder::BigEndian, ByteOrder::LittleEndian];

    /// The type that has a base type and a byte order.
    fn typed(base: u16, order: ByteOrder) -> u16 {
        match order {
            ByteOrder::BigEndian => base,
            ByteOrder::LittleEndian => base + 16384,
        }
    }

    /// The bytes of a number, given high byte first, in a byte order.
    fn ordered(bytes: &[u8], order: ByteOrder) -> Vec<u8> {
        match order {
            ByteOrder::BigEndian => bytes.to_vec(),
            ByteOrder::LittleEndian => bytes.iter().rev().copied().collect(),
        }
    }

    fn vdata<'a>(order: ByteOrder) -> Vdata<'a> {
        let fields = vec![field(b"height", typed(22, order), 2, 0, 1), field(b"", typed(5, order), 8, 2, 2)];
        let (name, class) = (&b"stations"[..], &b"roads"[..]);
        Vdata { interlace: 0, records: 2, record_size: 10, fields, name, class, extension: NONE, version: 3, more: 0 }
    }

    fn packed_head(vdata: &Vdata) -> Vec<u8> {
        let mut out = [0xee; 400];
        let length = pack_vdata(vdata, &mut out).unwrap();
        assert!(out[length..].iter().all(|byte| *byte == 0xee));
        out[..length].to_vec()
    }

    /// A Vdata and two records: -2, 1.5 and a NaN; 300, 0 and -0.
    fn file_of_values(order: ByteOrder, interlace: u16) -> Vec<u8> {
        let records: [[&[u8]; 3]; 2] =
            [[b"\xff\xfe", b"\x3f\xc0\0\0", b"\x7f\x80\0\x01"], [b"\x01\x2c", b"\0\0\0\0", b"\x80\0\0\0"]];
        let [one, two] = records.map(|record| record.map(|bytes| ordered(bytes, order)).concat());
        let data = match interlace {
            0 => [&one[..], &two].concat(),
            _ => [&one[..2], &two[..2], &one[2..], &two[2..]].concat(),
        };
        file_of(&[(1962, 7, &packed_head(&Vdata { interlace, ..vdata(order) })), (1963, 7, &data)])
    }

    #[test]
    fn a_head_is_packed_and_read() {
        for order in ORDERS {
            let image = file_of_values(order, 0);
            let read = read_vdata(&image, 7).unwrap();
            assert_eq!(read, vdata(order));
            assert_eq!(view(&image, 1962, 7), Ok(&packed_head(&read)[..]));
        }
    }

    #[test]
    fn values_stand_by_record_or_by_field_in_either_byte_order() {
        for image in ORDERS.iter().flat_map(|order| [0, 1].map(|interlace| file_of_values(*order, interlace))) {
            assert_eq!(read_value(&image, 7, 0, 0, 0), Ok(Value::Signed(-2)));
            assert_eq!(read_value(&image, 7, 1, 0, 0), Ok(Value::Signed(300)));
            assert_eq!(read_value(&image, 7, 0, 1, 0), Ok(Value::Float32(1.5)));
            let Ok(Value::Float32(nan)) = read_value(&image, 7, 0, 1, 1) else { panic!("not a float") };
            assert_eq!(nan.to_bits(), 0x7f80_0001);
            assert_eq!(read_value(&image, 7, 1, 1, 1).unwrap().to_string(), "-0.0");
            for [record, field, component] in [[2, 0, 0], [0, 2, 0], [0, 1, 2], [usize::MAX, 0, 0]] {
                assert_eq!(rule(read_value(&image, 7, record, field, component)), (Rule::NoValue, 17, 0));
            }
        }
    }

    #[test]
    fn a_column_is_the_values_of_its_records() {
        let columns = [(0, 0, [-2_i64 as u64, 300]), (1, 0, [0x3fc0_0000, 0]), (1, 1, [0x7f80_0001, 0x8000_0000])];
        for image in ORDERS.iter().flat_map(|order| [0, 1].map(|interlace| file_of_values(*order, interlace))) {
            for (field, component, bits) in columns {
                let mut out = [9; 3];
                let column = read_column(&image, 7, field, component, &mut out).unwrap();
                assert_eq!(column.bits, bits);
                let values = [0, 1].map(|record| read_value(&image, 7, record, field, component).unwrap());
                assert_eq!(format!("{:?}", column.values().collect::<Vec<_>>()), format!("{values:?}"));
                assert_eq!(out[2], 9);
                let mut small = [9; 1];
                assert_eq!(rule(read_column(&image, 7, field, component, &mut small)), (Rule::Small, 14, 0));
                assert_eq!(small, [9]);
            }
            for [field, component] in [[2, 0], [1, 2], [usize::MAX, 0]] {
                assert_eq!(rule(read_column(&image, 7, field, component, &mut [])), (Rule::NoValue, 17, 0));
            }
        }
        // No records need no element of values.
        let image = file_of(&[(1962, 7, &packed_head(&Vdata { records: 0, ..vdata(ByteOrder::BigEndian) }))]);
        assert_eq!(read_column(&image, 7, 1, 1, &mut []), Ok(Column { kind: Kind::Float32, bits: &[] }));
    }

    /// Every base type with a number of it: its bytes, high byte first, and its value.
    const NUMBERS: [(u16, &[u8], Value); 10] = [
        (3, b"\xe9", Value::Unsigned(0xe9)),
        (4, b"n", Value::Unsigned(0x6e)),
        (5, b"\xc0\x20\0\x01", Value::Float32(-2.500_000_2)),
        (6, b"\x3f\xf0\0\0\0\0\0\x01", Value::Float64(1.000_000_000_000_000_2)),
        (20, b"\x80", Value::Signed(-128)),
        (21, b"\x80", Value::Unsigned(128)),
        (22, b"\xff\x01", Value::Signed(-255)),
        (23, b"\xff\x01", Value::Unsigned(65281)),
        (24, b"\x80\0\0\x02", Value::Signed(-2_147_483_646)),
        (25, b"\x80\0\0\x02", Value::Unsigned(2_147_483_650)),
    ];

    /// One record with a number of every type in both byte orders.
    #[test]
    fn numbers_of_every_type_are_read_in_either_byte_order() {
        let numbers = || NUMBERS.iter().flat_map(|number| ORDERS.map(|order| (number, order)));
        let (mut fields, mut record) = (Vec::new(), Vec::new());
        for ((base, bytes, _), order) in numbers() {
            fields.push(field(b"", typed(*base, order), bytes.len() as u16, record.len() as u16, 1));
            record.extend(ordered(bytes, order));
        }
        let record_size = record.len() as u16;
        let head = packed_head(&Vdata { records: 1, record_size, fields, ..vdata(ByteOrder::BigEndian) });
        let image = file_of(&[(1962, 7, &head), (1963, 7, &record)]);
        let read = read_vdata(&image, 7).unwrap();
        for (index, ((base, _, value), order)) in numbers().enumerate() {
            let field = &read.fields[index];
            assert_eq!((field.number_type, field.byte_order()), (typed(*base, order), order));
            assert_eq!((base_type(field.number_type), read_value(&image, 7, 0, index, 0)), (*base, Ok(*value)), "{order:?}");
        }
        assert_eq!(packed_head(&read), head);
    }

    /// Every code that is no type, also less 16384.
    #[test]
    fn other_types_are_refused() {
        let types: Vec<u16> = NUMBERS.iter().flat_map(|(base, ..)| ORDERS.map(|order| typed(*base, order))).collect();
        let (mut bad, mut image) = (vdata(ByteOrder::LittleEndian), file_of_values(ByteOrder::LittleEndian, 0));
        let place = view(&image, 1962, 7).unwrap().as_ptr() as usize - image.as_ptr() as usize;
        for code in (0..=u16::MAX).filter(|code| !types.contains(code)) {
            bad.fields[1].number_type = code;
            assert_eq!(rule(pack_vdata(&bad, &mut [0; 99])), (Rule::Type, 16, 0), "{code}");
            image[place + 12..place + 14].copy_from_slice(&code.to_be_bytes());
            assert_eq!(rule(read_vdata(&image, 7)), (Rule::Type, 16, 10), "{code}");
            assert_eq!(rule(read_value(&image, 7, 9, 9, 9)), (Rule::Type, 16, 10), "{code}");
        }
    }

    #[test]
    fn a_base_type_has_16384_taken_off_once() {
        assert_eq!([3, 24, 16383, 16384, 16408].map(base_type), [3, 24, 16383, 0, 24]);
        assert_eq!([32767, 32768 + 24, 65535].map(base_type), [16383, 16384 + 24, 49151]);
    }

    #[test]
    fn heads_are_refused_by_their_rules() {
        let mut bad = vdata(ByteOrder::BigEndian);
        bad.fields[1].number_type = 7;
        bad.fields[0].order = 0;
        assert_eq!(rule(pack_vdata(&bad, &mut [0; 99])), (Rule::Record, 15, 0));
        let long = vec![b'a'; 65536];
        let mut bad = vdata(ByteOrder::BigEndian);
        bad.fields[0].name = &long;
        assert_eq!(rule(pack_vdata(&bad, &mut [0; 99])), (Rule::Record, 15, 0));
    }
}
