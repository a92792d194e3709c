//! Generated files with records, whole and broken, and records that are packed and read again.

use crate::arguments;
use crate::compare::{self, packing, Difference};
use crate::hex_dump;
use crate::images::records;
use crate::packing::Record;
use crate::random::Random;
use crate::reader;
use crate::records::{read_array, read_dimension, read_number_type, Found, Reading};
use crate::storage::Opening;
use crate::tally::Tally;
use crate::vset::{read_group, read_vdata};

const ROOMY: [usize; 2] = [usize::MAX; 2];

/// Compares the file with an index, and packs a record; at a difference, the seed and the index say how to make them again.
pub fn compare(seed: u64, index: u64, tally: &mut Tally) -> Result<(), String> {
    let mut random = start(seed, index);
    let image = records::image(&mut random);
    let at = |difference: Difference| format!("{difference}\nseed {seed} record {index}\n{}", hex_dump(&image));
    compare::compare_records(&image, &mut random, tally).map_err(at)?;

    let packed = pack_and_read(&mut random, tally);
    packed.map_err(|fault| format!("{fault}\nseed {seed} record {index}, the record that is packed"))
}

/// Compares one file again and prints it.
pub fn show(seed: u64, index: u64, tally: &mut Tally) -> Result<(), String> {
    println!("{}", hex_dump(&records::image(&mut start(seed, index))));
    compare(seed, index, tally)?;
    print!("{tally}");
    Ok(())
}

/// Other numbers than those of the other files and sequences with that index.
fn start(seed: u64, index: u64) -> Random {
    Random::new(seed.rotate_left(16), index)
}

/// Packs a record, good or bad. One that is packed is read again from a file, and must be as it was given.
fn pack_and_read(random: &mut Random, tally: &mut Tally) -> Result<(), String> {
    let mut record = arguments::record(random);
    for _ in 0..random.pick(&[0, 0, 1, 1, 1, 2]) {
        arguments::spoil(random, &mut record);
    }
    let packed = packing::compare(&record, random, tally).map_err(|difference| difference.to_string())?;
    let Some(bytes) = packed else { return Ok(()) };
    let image = records::image_of(random, &record, bytes);
    let again = read_again(&image, &record);
    if again.as_ref() != Some(&record) {
        let again = again.map_or("refused".into(), |again| packing::shown(&again));
        return Err(format!("packed  {}\nread    {again}", packing::shown(&record)));
    }
    compare::compare_records(&image, random, tally).map_err(|difference| difference.to_string())
}

/// The one record of a file, by the reader.
fn read_again(image: &[u8], like: &Record) -> Option<Record> {
    let opening: Opening = reader::open(image);
    let slot = opening.as_ref().ok()?.live().next()?;
    let (tag, reference) = (slot.tag, slot.reference);
    match like {
        Record::NumberType(_) => again(read_number_type(image, &opening, reference), Record::NumberType),
        Record::Dimension(_) => again(read_dimension(image, &opening, tag, reference), Record::Dimension),
        Record::Array(_) => again(read_array(image, &opening, reference, ROOMY), Record::Array),
        Record::Group(_) => again(read_group(image, &opening, reference, ROOMY[0]), Record::Group),
        Record::Vdata(_) => again(read_vdata(image, &opening, reference, ROOMY), Record::Vdata),
    }
}

fn again<T>(reading: Reading<Found<T>>, record: fn(T) -> Record) -> Option<Record> {
    reading.ok().map(|(found, _)| record(found.record))
}
