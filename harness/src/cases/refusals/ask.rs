//! A call with all that it is given and lent, and what it answers.

use crate::cases::pieces::Image;
use crate::editor::{Edit, Kind, Request};
use crate::packing::Record;
use crate::records::{Array, Dimension};
use crate::tally::Call;
use crate::vset::{Group, Vdata};
use hdf4_sys::Field;

/// A call. Each takes some of these arguments.
#[derive(Clone, Debug)]
pub struct Ask {
    pub call: Call,
    /// The image, of an edit the file at the front of the buffer.
    pub image: Image,
    /// The second image of a choice.
    pub fallback: Image,
    /// How many bytes the buffer of an edit has behind the file.
    pub behind: usize,
    /// The length that an edit is given, where it is not the file's.
    pub n: Option<u64>,
    /// The desk of an edit or an undo.
    pub desk: u32,
    pub tag: u16,
    pub reference: u16,
    /// Record, field and component; of a column no record.
    pub indices: [u64; 3],
    /// The data of an edit.
    pub data: Image,
    /// What is packed.
    pub record: Option<Record>,
    pub rooms: Rooms,
}

/// How many entries the lent tables have. No call takes two of one type.
#[derive(Clone, Copy, Debug, Default)]
pub struct Rooms {
    pub bytes: usize,
    pub shorts: usize,
    pub longs: usize,
    pub numbers: usize,
    pub fields: usize,
}

/// What a call answers.
#[derive(Clone, Debug, PartialEq)]
pub struct Answer {
    /// Number, place and values.
    pub numbers: Vec<u64>,
    pub written: Written,
}

/// What stands at the fronts of the lent tables afterwards, of an edit at the front of the buffer; what is behind stays.
#[derive(Clone, Debug, Default, PartialEq)]
pub struct Written {
    pub bytes: Vec<u8>,
    pub shorts: Vec<u16>,
    pub longs: Vec<u32>,
    pub numbers: Vec<u64>,
    pub fields: Vec<Field>,
}

impl Ask {
    pub fn new(call: Call) -> Ask {
        Ask {
            call,
            image: Image::default(),
            fallback: Image::default(),
            behind: 0,
            n: None,
            desk: 0,
            tag: 0,
            reference: 0,
            indices: [0; 3],
            data: Image::default(),
            record: None,
            rooms: Rooms::default(),
        }
    }

    /// A call on an image.
    pub fn on(call: Call, image: Image) -> Ask {
        Ask { image, ..Ask::new(call) }
    }

    /// How many bytes the buffer of an edit has.
    pub fn capacity(&self) -> usize {
        self.image.len() + self.behind
    }

    /// The length that an edit is given.
    pub fn length(&self) -> u64 {
        self.n.unwrap_or(self.image.len() as u64)
    }

    /// The edit or undo, where the call is one.
    pub fn request(&self) -> Option<Request> {
        let desk = self.desk;
        let kind = match self.call {
            Call::Add => Kind::Add,
            Call::Replace => Kind::Replace,
            Call::Remove => Kind::Remove,
            Call::Undo => return Some(Request::Undo { desk }),
            _ => return None,
        };
        let (tag, reference, data) = (self.tag, self.reference, self.data.bytes());
        Some(Request::Edit(Edit { desk, kind, tag, reference, data }))
    }

    pub fn dimension(&mut self) -> &mut Dimension {
        match &mut self.record {
            Some(Record::Dimension(dimension)) => dimension,
            _ => panic!("no dimension is packed"),
        }
    }

    pub fn array(&mut self) -> &mut Array {
        match &mut self.record {
            Some(Record::Array(array)) => array,
            _ => panic!("no array is packed"),
        }
    }

    pub fn group(&mut self) -> &mut Group {
        match &mut self.record {
            Some(Record::Group(group)) => group,
            _ => panic!("no group is packed"),
        }
    }

    pub fn vdata(&mut self) -> &mut Vdata {
        match &mut self.record {
            Some(Record::Vdata(vdata)) => vdata,
            _ => panic!("no Vdata is packed"),
        }
    }
}

impl Answer {
    /// A refusal: number and place. All values are zeros, and nothing is written.
    pub fn refused([number, place]: [u64; 2]) -> Answer {
        Answer { numbers: vec![number, place], written: Written::default() }
    }

    /// The refusal of a copy by a table or a block: its index stands behind the length.
    pub fn refused_at([number, place]: [u64; 2], index: u64) -> Answer {
        Answer { numbers: vec![number, place, 0, index], written: Written::default() }
    }

    /// A grant: the values, and what is written.
    pub fn granted(values: &[u64], written: Written) -> Answer {
        Answer { numbers: [&[0, 0], values].concat(), written }
    }

    /// The numbers with the zeros of a refusal, where it has so many.
    pub fn padded(&self, count: usize) -> Vec<u64> {
        let mut numbers = self.numbers.clone();
        if numbers[0] != 0 {
            numbers.resize(count, 0);
        }
        numbers
    }
}

impl Written {
    pub fn bytes(bytes: &[u8]) -> Written {
        Written { bytes: bytes.to_vec(), ..Written::default() }
    }

    pub fn shorts(shorts: &[u16]) -> Written {
        Written { shorts: shorts.to_vec(), ..Written::default() }
    }

    pub fn longs(longs: &[u32]) -> Written {
        Written { longs: longs.to_vec(), ..Written::default() }
    }
}
