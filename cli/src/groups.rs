//! The command that prints Vgroups.
//!
//! A group may be below thousands of others, so each is read once, and which of them can be listed is known before the first is
//! printed: by the library's rules, 16 groups one within the other and 4,096 pairs. The refusals are the library's own.

use crate::fault::Fault;
use crate::print::Print;
use crate::progress::Progress;
use crate::sorted::Sorted;
use crate::tags::VGROUP;
use crate::text::quoted;
use crate::words::{number, Words};
use crate::{input, miscounted, tags};
use hdf4::{Pair, MOST_PAIRS};
use std::collections::HashMap;
use std::ops::Range;

const MOST_NESTED: usize = 16;
/// How many groups that are refused get a line each.
const MOST_MESSAGES: usize = 100;

/// The Vgroups of a file in the order of its directory, each with what is below it, or one of them. One that is refused does not
/// keep the others from being printed.
pub fn groups(words: &Words, print: &mut Print) -> Result<(), Fault> {
    let (path, reference) = match words.all()[..] {
        [path] => (path, None),
        [path, reference] => (path, Some(number(reference)?)),
        _ => return Err(miscounted("groups")),
    };
    let file = input::read(path)?;
    let elements = hdf4::list(&file.bytes).map_err(|e| file.refused(e))?;
    let all = elements.iter().filter(|element| hdf4::base_tag(element.tag) == VGROUP).map(|element| element.reference);
    let references: Vec<u16> = reference.map_or_else(|| all.collect(), |reference| vec![reference]);
    let sorted = Sorted::of(&file, |tag, _| tag == VGROUP)?;
    let groups = Groups::of(&file.name, &sorted)?;
    let mut progress = Progress::of_printing("groups", references.len());
    let (listed, refused): (Vec<u16>, Vec<u16>) = references.into_iter().partition(|reference| groups.is_listed(*reference));
    for (done, reference) in listed.into_iter().enumerate() {
        progress.at(done);
        groups.print(reference, print)?;
    }
    drop(progress);
    if refused.is_empty() {
        return Ok(());
    }
    Err(Fault::Refused(refusals(&file.name, &sorted, &refused)))
}

/// A line for each group that is refused, and one for those that are too many.
fn refusals(name: &str, sorted: &Sorted, refused: &[u16]) -> Vec<String> {
    let message = |reference: &u16| {
        let refusal = hdf4::list_group(&sorted.image, *reference).err().map(|e| sorted.in_file(e).to_string());
        format!("{name}: Vgroup {reference}: {}", refusal.unwrap_or("it cannot be listed".to_string()))
    };
    let mut messages: Vec<String> = refused.iter().take(MOST_MESSAGES).map(message).collect();
    let more = refused.len() - messages.len();
    if more > 0 {
        messages.push(format!("{name}: {more} more Vgroups are refused"));
    }
    messages
}

/// The groups of a file that can be read, and how far each reaches if it can be listed.
struct Groups<'a> {
    image: &'a [u8],
    /// Where the members of each group stand in the list of all.
    members: HashMap<u16, Range<usize>>,
    all: Vec<Pair>,
    extents: HashMap<u16, Extent>,
}

/// How many groups are one within the other, the first one included, and how many pairs are listed.
#[derive(Clone, Copy)]
struct Extent {
    nested: usize,
    pairs: usize,
}

impl Groups<'_> {
    fn of<'a>(name: &str, sorted: &'a Sorted) -> Result<Groups<'a>, Fault> {
        let mut groups = Groups { image: &sorted.image, members: HashMap::new(), all: Vec::new(), extents: HashMap::new() };
        for reference in sorted.references(VGROUP) {
            input::spare(name)?;
            let Ok(group) = hdf4::read_group(groups.image, reference) else { continue };
            // One with more members than are listed is refused, whatever they are.
            if group.members.len() <= MOST_PAIRS {
                let start = groups.all.len();
                groups.all.try_reserve(group.members.len()).map_err(|_| input::no_memory(name))?;
                groups.all.extend(group.members);
                groups.members.insert(reference, start..groups.all.len());
            }
        }
        // Each round settles the groups that have one more within them.
        (0..MOST_NESTED).for_each(|_| groups.settle());
        Ok(groups)
    }

    fn members_of(&self, reference: u16) -> &[Pair] {
        self.members.get(&reference).map_or(&[], |range| &self.all[range.clone()])
    }

    /// Settles each group whose members are settled.
    fn settle(&mut self) {
        for (reference, range) in &self.members {
            if self.extents.contains_key(reference) {
                continue;
            }
            let extent = extent(&self.all[range.clone()], &self.extents);
            if let Some(extent) = extent.filter(|extent| extent.nested <= MOST_NESTED && extent.pairs <= MOST_PAIRS) {
                self.extents.insert(*reference, extent);
            }
        }
    }

    fn is_listed(&self, reference: u16) -> bool {
        self.extents.contains_key(&reference)
    }

    /// A group, and below it its members, those of a group within it further to the right.
    fn print(&self, reference: u16, print: &mut Print) -> Result<(), Fault> {
        if let Ok(group) = hdf4::read_group(self.image, reference) {
            print.text(format_args!("ref {reference} class {} name {}\n", quoted(group.class), quoted(group.name)))?;
        }
        self.print_members(reference, 1, print)
    }

    fn print_members(&self, reference: u16, depth: usize, print: &mut Print) -> Result<(), Fault> {
        for pair in self.members_of(reference) {
            let tag = tags::named(pair.tag);
            print.text(format_args!("{:1$}tag {tag} ref {2}\n", "", 2 * depth, pair.reference))?;
            if pair.tag == VGROUP {
                self.print_members(pair.reference, depth + 1, print)?;
            }
        }
        Ok(())
    }
}

/// How far a group reaches, if each group in it is settled.
fn extent(members: &[Pair], settled: &HashMap<u16, Extent>) -> Option<Extent> {
    let mut extent = Extent { nested: 1, pairs: members.len() };
    for member in members.iter().filter(|member| member.tag == VGROUP) {
        let below = settled.get(&member.reference)?;
        extent.nested = extent.nested.max(1 + below.nested);
        extent.pairs += below.pairs;
    }
    Some(extent)
}
