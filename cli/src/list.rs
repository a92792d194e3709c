//! The command that lists the elements of a file.

use crate::fault::Fault;
use crate::json::Json;
use crate::print::Print;
use crate::words::Words;
use crate::{input, miscounted, tags};
use hdf4::{base_tag, Counts, Element};

/// The elements of a file in the order of its directory, with the counts of the directory above them.
pub fn list(words: &Words, print: &mut Print) -> Result<(), Fault> {
    let &[path] = &words.all()[..] else { return Err(miscounted("list")) };
    let file = input::read(path)?;
    let counts = hdf4::open(&file.bytes).map_err(|e| file.refused(e))?;
    let elements = hdf4::list(&file.bytes).map_err(|e| file.refused(e))?;
    if words.has("--json") {
        return json(&counts, &elements, Json::new(print));
    }
    print.text(format_args!("{} blocks, {} slots, {} elements\n", counts.blocks, counts.slots, counts.live))?;
    elements.iter().try_for_each(|element| line(element, print))
}

fn line(element: &Element, print: &mut Print) -> Result<(), Fault> {
    let Element { reference, offset, length, .. } = element;
    let tag = tags::named(base_tag(element.tag));
    let stored = if element.is_stored() { format!("offset {offset} length {length}") } else { "not stored".to_string() };
    let extended = if is_extended(element) { " extended" } else { "" };
    print.text(format_args!("tag {tag} ref {reference} {stored}{extended}\n"))
}

fn is_extended(element: &Element) -> bool {
    base_tag(element.tag) != element.tag
}

fn json(counts: &Counts, elements: &[Element], mut json: Json) -> Result<(), Fault> {
    json.open('{')?;
    json.entry("blocks", counts.blocks)?;
    json.entry("slots", counts.slots)?;
    json.entry("live", counts.live)?;
    json.array_entry("elements", elements, object)?;
    json.close('}')?;
    json.end()
}

/// An element. Name and about are null where its tag is not known, offset and length where it is not stored.
fn object(element: &Element, json: &mut Json) -> Result<(), Fault> {
    let tag = base_tag(element.tag);
    json.open('{')?;
    json.entry("tag", tag)?;
    tags::json(Some(tag), json)?;
    json.entry("ref", element.reference)?;
    let is_stored = element.is_stored();
    let number = |number: u32| if is_stored { number.to_string() } else { "null".to_string() };
    json.entry("stored", is_stored)?;
    json.entry("offset", number(element.offset))?;
    json.entry("length", number(element.length))?;
    json.entry("extended", is_extended(element))?;
    json.close('}')
}
