//! The command that lists the arrays and images of a file.

use crate::datasets::{Catalog, Dataset};
use crate::fault::Fault;
use crate::input;
use crate::json::Json;
use crate::miscounted;
use crate::numbers::Layout;
use crate::print::Print;
use crate::shape::{Form, Shape};
use crate::storage::{own_length, Storage};
use crate::text::quoted;
use crate::words::{Pair, Words};

/// Every array and image of a file: what it is called, the references by which it may be asked for, its sizes, the type of its
/// numbers, and how they are stored. What is refused of one is said behind all.
pub fn grids(words: &Words, print: &mut Print) -> Result<(), Fault> {
    let &[path] = &words.all()[..] else { return Err(miscounted("grids")) };
    let file = input::read(path)?;
    let catalog = Catalog::of(&file)?;
    let mut faults = Vec::new();
    let rows: Vec<Row> = catalog.datasets.iter().map(|dataset| Row::of(&catalog, dataset, &mut faults)).collect();
    if words.has("--json") {
        json(&rows, Json::new(print))?;
    } else {
        rows.iter().try_for_each(|row| print.text(format_args!("{}\n", row.line())))?;
    }
    Fault::all(faults)
}

/// An array or an image, and what is known of it.
struct Row<'a> {
    dataset: &'a Dataset,
    storage: Storage,
    /// With as many rows as the data have; none where its records are refused.
    form: Option<Form>,
    /// How many bytes the data have, where that is not what the sizes ask for.
    misfit: Option<u64>,
}

impl<'a> Row<'a> {
    fn of(catalog: &Catalog, dataset: &'a Dataset, faults: &mut Vec<Fault>) -> Row<'a> {
        let file = catalog.directory.file;
        let image = &file.bytes;
        let element = dataset.data.and_then(|data| catalog.directory.element(data));
        let storage = element.map_or(Storage::NotStored, |element| Storage::of(image, element));
        let form = Shape::of(file, dataset).and_then(|shape| Form::of(file, shape));
        let form = form.map_err(|fault| faults.push(fault)).ok();
        let mut row = Row { dataset, storage, form, misfit: None };
        row.fit(element.and_then(|element| own_length(image, element)));
        row
    }

    /// Takes as many rows as data of so many bytes have, where that is known. What an image is packed into has other lengths.
    fn fit(&mut self, length: Option<u64>) {
        let Some(form) = &mut self.form else { return };
        if form.shape.packing.is_some() && self.storage != Storage::NotStored {
            self.storage = Storage::Packed;
        } else if let Some(length) = length {
            if let Some(rows) = form.rows_in(length, self.dataset.is_unlimited) {
                form.shape.sizes[0] = rows;
            }
            self.misfit = Some(length).filter(|length| form.bytes_of(form.shape.sizes[0]) != Some(*length));
        }
    }

    fn kind(&self) -> &'static str {
        if self.dataset.is_scale {
            "scale"
        } else {
            self.dataset.kind.name
        }
    }

    fn line(&self) -> String {
        let Dataset { data, groups, vgroup, name, .. } = self.dataset;
        let mut parts = vec![self.kind().to_string()];
        parts.extend(name.as_ref().map(|name| format!("name {}", quoted(name))));
        parts.extend(data.map(|(tag, reference)| format!("data {tag}/{reference}")));
        parts.extend(groups.iter().map(|(tag, reference)| format!("group {tag}/{reference}")));
        parts.extend(vgroup.map(|reference| format!("Vgroup {reference}")));
        if let Some(Form { shape, layout }) = &self.form {
            let sizes: Vec<String> = shape.sizes.iter().map(u32::to_string).collect();
            parts.push(format!("sizes {}", sizes.join(" x ")));
            parts.extend((shape.components != 1).then(|| format!("components {}", shape.components)));
            parts.push(format!("type {}{}", layout.name, if layout.low_first { " low byte first" } else { "" }));
        }
        parts.push(self.storage.word().to_string());
        if let (Some(form), Some(length)) = (&self.form, self.misfit) {
            parts.push(format!("of {length} bytes where the sizes ask for {}", form.asked_by(form.shape.sizes[0])));
        }
        parts.join(" ")
    }

    /// An object. What it does not have, or what is refused, is null.
    fn object(&self, json: &mut Json) -> Result<(), Fault> {
        let Dataset { data, groups, vgroup, name, is_unlimited, .. } = self.dataset;
        let form = self.form.as_ref();
        json.open('{')?;
        json.text_entry("kind", self.kind().as_bytes())?;
        match name {
            Some(name) => json.text_entry("name", name)?,
            None => json.entry("name", "null")?,
        }
        json.key("data")?;
        match data {
            Some(data) => pair(*data, json)?,
            None => json.plain("null")?,
        }
        json.array_entry("groups", groups, |group, json| pair(*group, json))?;
        json.optional_entry("vgroup", *vgroup)?;
        json.array_entry("sizes", form.iter().flat_map(|form| &form.shape.sizes), |size, json| json.plain(size))?;
        json.entry("unlimited", is_unlimited)?;
        json.optional_entry("components", form.map(|form| form.shape.components))?;
        type_entries(form.map(|form| &form.layout), json)?;
        json.text_entry("storage", self.storage.word().as_bytes())?;
        json.optional_entry("misfit", self.misfit)?;
        json.close('}')
    }
}

/// The type of the numbers, its name, and which of their bytes stands first.
fn type_entries(layout: Option<&Layout>, json: &mut Json) -> Result<(), Fault> {
    let Some(layout) = layout else {
        return ["type", "type_name", "byte_order"].iter().try_for_each(|name| json.entry(name, "null"));
    };
    json.entry("type", layout.code)?;
    json.text_entry("type_name", layout.name.as_bytes())?;
    json.text_entry("byte_order", if layout.low_first { b"little" } else { b"big" })
}

/// An object of tag and reference.
fn pair((tag, reference): Pair, json: &mut Json) -> Result<(), Fault> {
    json.open('{')?;
    json.entry("tag", tag)?;
    json.entry("ref", reference)?;
    json.close('}')
}

fn json(rows: &[Row], mut json: Json) -> Result<(), Fault> {
    json.open('{')?;
    json.array_entry("grids", rows, Row::object)?;
    json.close('}')?;
    json.end()
}
