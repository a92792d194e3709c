//! The arrays and images of a file: which elements make each of them, and what it is called.
//!
//! Groups say what belongs together. libhdf4 also keeps a Vgroup for each: it has the name, and tells whether the first dimension is
//! unlimited.

use crate::directory::{Directory, Kind, ARRAY, IMAGE};
use crate::fault::Fault;
use crate::input::Input;
use crate::storage::pair_of;
use crate::tags::VGROUP;
use crate::vgroups::{self, Vgroup};
use crate::words::Pair;
use hdf4::Element;
use std::collections::HashMap;

/// An array or an image.
#[derive(Clone)]
pub struct Dataset {
    pub kind: &'static Kind,
    /// None where a group names none that is in the file: so libhdf4 leaves what was never written.
    pub data: Option<Pair>,
    /// The reference of its dimensions.
    pub dimensions: u16,
    /// The groups that name it, those of the newer tag first.
    pub groups: Vec<Pair>,
    pub vgroup: Option<u16>,
    /// As libhdf4 calls it.
    pub name: Option<Vec<u8>>,
    /// Whether it may have grown in its first dimension.
    pub is_unlimited: bool,
    /// Whether it is the scale of a dimension.
    pub is_scale: bool,
}

impl Dataset {
    /// One of which no more is known than its parts.
    pub fn new(kind: &'static Kind, data: Option<Pair>, dimensions: u16) -> Dataset {
        let (groups, vgroup, name) = (Vec::new(), None, None);
        Dataset { kind, data, dimensions, groups, vgroup, name, is_unlimited: false, is_scale: false }
    }

    /// All that it can be named by, each for itself.
    pub fn pairs(&self) -> impl Iterator<Item = Pair> + '_ {
        let vgroup = self.vgroup.map(|reference| (VGROUP, reference));
        self.data.into_iter().chain(self.groups.iter().copied()).chain(vgroup)
    }
}

/// The arrays and images of a file, arrays first, in the order of their groups.
pub struct Catalog<'a> {
    pub directory: Directory<'a>,
    pub datasets: Vec<Dataset>,
    /// Where the first one stands that has a pair as its data or as a group, and where one of data and dimensions does.
    by_pair: HashMap<Pair, usize>,
    by_parts: HashMap<(Pair, u16), usize>,
}

impl Catalog<'_> {
    pub fn of(file: &Input) -> Result<Catalog<'_>, Fault> {
        let (by_pair, by_parts) = (HashMap::new(), HashMap::new());
        let mut catalog = Catalog { directory: Directory::of(file)?, datasets: Vec::new(), by_pair, by_parts };
        for kind in [&ARRAY, &IMAGE] {
            catalog.add_of_groups(kind);
            catalog.add_of_data(kind);
        }
        for vgroup in vgroups::of(file)? {
            catalog.add_of_vgroup(&vgroup);
        }
        catalog.name_the_others();
        Ok(catalog)
    }

    /// Adds what a kind's groups name.
    fn add_of_groups(&mut self, kind: &'static Kind) {
        let groups: Vec<Element> = self.directory.groups(kind).copied().collect();
        groups.iter().for_each(|group| self.add_of_group(kind, group));
    }

    /// Adds what a group names: its dimensions, with each of the data that are in the file, or with none.
    fn add_of_group(&mut self, kind: &'static Kind, group: &Element) {
        let directory = &self.directory;
        let Some(dimensions) = directory.first_dimensions(kind, directory.members(group)) else { return };
        let data = directory.members(group).filter(|pair| directory.is_data(kind, *pair));
        let mut data: Vec<Option<Pair>> = data.map(Some).collect();
        if data.is_empty() {
            data.push(None);
        }
        let group = (group.tag, group.reference);
        for data in data {
            let known = data.and_then(|data| self.by_parts.get(&(data, dimensions)).copied());
            let index = known.unwrap_or_else(|| self.add(Dataset::new(kind, data, dimensions)));
            let groups = &mut self.datasets[index].groups;
            if groups.last() != Some(&group) {
                groups.push(group);
            }
            self.by_pair.entry(group).or_insert(index);
        }
    }

    /// Adds an array or an image that no group names yet. Says where it stands.
    fn add(&mut self, dataset: Dataset) -> usize {
        let index = self.datasets.len();
        if let Some(data) = dataset.data {
            self.by_pair.entry(data).or_insert(index);
            self.by_parts.insert((data, dataset.dimensions), index);
        }
        self.datasets.push(dataset);
        index
    }

    /// Adds data that no group names, and that have dimensions of their own reference. A group that names these and no data is
    /// theirs: so libhdf4 leaves an image that was never written.
    fn add_of_data(&mut self, kind: &'static Kind) {
        let directory = &self.directory;
        let pairs = directory.elements.iter().map(pair_of);
        let alone = pairs.filter(|pair| directory.is_data(kind, *pair) && !self.by_pair.contains_key(pair));
        let described: Vec<Pair> = alone.filter(|pair| directory.has((kind.dimensions, pair.1))).collect();
        for pair in described {
            let is_theirs = |known: &Dataset| known.kind == kind && known.data.is_none() && known.dimensions == pair.1;
            match self.datasets.iter().position(is_theirs) {
                Some(index) => {
                    self.datasets[index].data = Some(pair);
                    self.by_pair.insert(pair, index);
                }
                None => drop(self.add(Dataset::new(kind, Some(pair), pair.1))),
            }
        }
    }

    /// Adds what a Vgroup says of an array or an image; also one that nothing else names.
    fn add_of_vgroup(&mut self, vgroup: &Vgroup) {
        let Some(kind) = [&ARRAY, &IMAGE].into_iter().find(|kind| kind.class == vgroup.class) else { return };
        let named = vgroup.members.iter().filter_map(|pair| self.by_pair.get(pair).copied());
        let known = named.filter(|index| self.datasets[*index].kind == kind).min().or_else(|| {
            let mut members = vgroup.members.iter().copied();
            let dimensions = self.directory.first_dimensions(kind, members.clone())?;
            let data = members.find(|pair| self.directory.is_data(kind, *pair));
            Some(self.add(Dataset::new(kind, data, dimensions)))
        });
        let Some(dataset) = known.map(|index| &mut self.datasets[index]).filter(|dataset| dataset.vgroup.is_none()) else {
            return;
        };
        dataset.vgroup = Some(vgroup.reference);
        dataset.name = Some(vgroup.name.clone());
        dataset.is_unlimited = vgroup.is_unlimited;
        dataset.is_scale = vgroup.is_scale;
    }

    /// Names what no Vgroup names as libhdf4 does: arrays by the reference of their group, images by their place among all that
    /// Vgroups and groups name.
    fn name_the_others(&mut self) {
        let images = |dataset: &&Dataset| dataset.kind == &IMAGE;
        let of_vgroups = self.datasets.iter().filter(images).filter(|dataset| dataset.vgroup.is_some()).count();
        let of_groups = self.datasets.iter().filter(images).flat_map(|dataset| dataset.groups.first().copied());
        let places: HashMap<Pair, usize> = of_groups.zip(of_vgroups..).collect();
        for dataset in self.datasets.iter_mut().filter(|dataset| dataset.name.is_none()) {
            dataset.name = dataset.groups.first().map(|group| match places.get(group) {
                Some(place) => format!("Raster Image #{place}").into_bytes(),
                None => format!("Data-Set-{}", group.1).into_bytes(),
            });
        }
    }
}
