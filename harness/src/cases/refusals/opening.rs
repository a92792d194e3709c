//! Opening: the length, the first bytes, the chain block by block, the slots one by one.

use super::ask::{Ask, Written};
use super::{fault, granted, in_order, over, refused, Case, Fault, TOO_LONG};
use crate::cases::pieces::{block, image, numbers16, slot, unstored, Image, ALL_ONES, FREE_SLOT, NEXT};
use crate::tally::Call;

/// Far behind the end of each file.
const FAR: u32 = 4_294_967_280;

/// The slots of the file with faults.
const FIRST: usize = 10;
const SECOND: usize = 22;
const THIRD: usize = 34;

const OTHER_BYTES: [Fault; 4] = [
    fault("2", "another first byte", [2, 0], |ask| ask.image.put(0, &[0x0f])),
    fault("2", "another second byte", [2, 0], |ask| ask.image.put(1, &[0x83])),
    fault("2", "another third byte", [2, 0], |ask| ask.image.put(2, &[0x12])),
    fault("2", "another fourth byte", [2, 0], |ask| ask.image.put(3, &[0x00])),
];

/// The next field leads astray. In a longer file the last of these blocks is whole.
const CHAIN: [Fault; 6] = [
    fault("4", "a block already walked", [4, 4], |ask| ask.image.put32(NEXT, 4)),
    fault("5", "a block in the first", [5, 36], |ask| ask.image.put32(NEXT, 36)),
    fault("6 slots", "a 4,097th slot", [6, 51], |ask| ask.image.put32(NEXT, 51)),
    fault("6 blocks", "a 257th block", [6, 1593], |ask| {
        ask.image.put32(NEXT, 63);
        ask.image.append(&(1..=256).flat_map(|index| block(0, 63 + 6 * index)).collect::<Vec<u8>>());
    }),
    fault("3 header", "a block far outside", [3, 4_294_967_280], |ask| ask.image.put32(NEXT, FAR)),
    fault("3 block", "a block that is cut", [3, 57], |ask| ask.image.put32(NEXT, 57)),
];

const IN_FIRST: [Fault; 3] = [
    fault("7", "a first slot of tag 0", [7, 10], |ask| ask.image.put_tag(FIRST, 0)),
    fault("8", "a first element outside", [8, 10], |ask| ask.image.put_length(FIRST, u32::MAX)),
    fault("9", "a first element on the header", [9, 10], |ask| ask.image.put_offset(FIRST, 3)),
];

const IN_SECOND: [Fault; 4] = [
    fault("7", "a second slot of tag 0", [7, 22], |ask| ask.image.put_tag(SECOND, 0)),
    fault("8", "a second element outside", [8, 22], |ask| ask.image.put_length(SECOND, u32::MAX)),
    fault("9", "a second element on the header", [9, 22], |ask| ask.image.put_offset(SECOND, 3)),
    fault("10", "a second slot like the first", [10, 22], |ask| ask.image.put_tag(SECOND, 16484)),
];

const IN_THIRD: [Fault; 4] = [
    fault("7", "a third slot of tag 0", [7, 34], |ask| ask.image.put_tag(THIRD, 0)),
    fault("8", "a third element outside", [8, 34], |ask| ask.image.put(THIRD, &slot(102, 1, 46, u32::MAX))),
    fault("9", "a third element on the header", [9, 34], |ask| ask.image.put(THIRD, &slot(102, 1, 3, 1))),
    fault("10", "a third slot like the second", [10, 34], |ask| ask.image.put(THIRD, &slot(101, 1, 46, 1))),
];

pub fn cases() -> Vec<Case> {
    let opened = [granted("a block of three slots", open(yard()), &[1, 3, 2], Written::default())];
    let chain = over(&CHAIN, &opened);
    let slots = over(&IN_SECOND, &opened);
    let bytes = over(&OTHER_BYTES, &opened);
    [
        over(&TOO_LONG, &opened),
        over(&TOO_LONG, &bytes[..1]),
        over(&TOO_LONG, &chain[..5]),
        over(&TOO_LONG, &slots),
        over(&OTHER_BYTES[..1], &chain),
        over(&OTHER_BYTES[..1], &slots),
        over(&CHAIN[..1], &chain[1..2]),
        over(&CHAIN, &slots),
        two_slots(&opened),
        bytes,
        chain,
        slots,
        opened.into(),
        short_files(),
        chains(),
        chains_in_order(),
        behind_an_inner_block(),
        most_blocks(),
        elements(),
        accepted(),
        unstored_elements(),
        almost_unstored(),
    ]
    .concat()
}

/// Two faults of one slot, then faults of two slots.
fn two_slots(opened: &[Case]) -> Vec<Case> {
    let [bad_tag, outside, on_directory, twice] = [0, 1, 2, 3].map(|index| &IN_SECOND[index..=index]);
    let (second, third) = (over(&IN_SECOND, opened), over(&IN_THIRD, opened));
    [
        over(bad_tag, &second[1..3]),
        over(outside, &second[2..]),
        over(on_directory, &second[3..]),
        over(&IN_FIRST, &third),
        over(twice, &third[..3]),
        third,
    ]
    .concat()
}

/// Files without a whole first block.
fn short_files() -> Vec<Case> {
    let cut = |length| {
        let mut image = yard();
        image.cut(length);
        open(image)
    };
    let other_bytes = Image::from(vec![0; 4]);
    vec![
        refused("an empty file", "2", cut(0), [2, 0]),
        refused("three bytes", "2", cut(3), [2, 0]),
        refused("four bytes", "3 header", cut(4), [3, 4]),
        refused("nine bytes", "3 header", cut(9), [3, 4]),
        refused("a block head and no slot", "3 block", cut(10), [3, 4]),
        refused("a last slot of 11 bytes", "3 block", cut(45), [3, 4]),
        in_order("four other bytes", ("2", open(other_bytes), [2, 0]), ("3 header", cut(4), [3, 4])),
    ]
}

/// Faults of a chain at their edges.
fn chains() -> Vec<Case> {
    let two = |next, second: [u8; 6]| open(image(&[&block(0, next), &[0; 6], &second]));
    let slots = FREE_SLOT.repeat(4097);
    vec![
        refused("a block head that lacks a byte", "3 header", two(17, [0; 6]), [3, 17]),
        refused("a block at the end", "3 header", two(22, [0; 6]), [3, 22]),
        refused("a block past 32 bits", "3 header", two(u32::MAX, [0; 6]), [3, 4_294_967_295]),
        refused("a second block that is cut", "3 block", two(16, block(1, 0)), [3, 16]),
        refused("a second block that leads to itself", "4", two(16, block(0, 16)), [4, 16]),
        refused("a second block that leads to the first", "4", two(16, block(0, 4)), [4, 4]),
        refused("a third block that ends in the second", "5", two(16, block(0, 12)), [5, 12]),
        refused("a block on the last byte of the first", "5", open(in_slot(21, 6)), [5, 21]),
        refused("a block on the header", "5", open(image(&[&block(0, 3), &[0; 3071]])), [5, 3]),
        refused("a block of 4,097 slots", "6 slots", open(image(&[&block(4097, 0), &slots])), [6, 4]),
    ]
}

/// Two faults of a block, or of a block and the next.
fn chains_in_order() -> Vec<Case> {
    let first = |count, next, length| open(image(&[&block(count, next), &[0; 12][..length]]));
    let second = |bytes: &[u8]| open(image(&[&block(0, 10), bytes]));
    let many = |next| open(image(&[&block(2049, next), &FREE_SLOT.repeat(2049), &block(2048, 0)]));
    let full = |count| open(image(&[&block(count, 10), &block(65535, 0)]));
    let inner = |count| open(inner(12, block(count, 0), [0; 6]));
    vec![
        in_order("2,049 slots twice", ("4", many(4), [4, 4]), ("6 slots", many(24598), [6, 24598])),
        in_order(
            "a count of 5,000 in a head that is cut",
            ("3 header", second(&[0x13, 0x88]), [3, 10]),
            ("6 slots", second(&[0x13, 0x88, 0, 0, 0, 0]), [6, 10]),
        ),
        in_order(
            "a head that is cut in a slot",
            ("3 header", open(in_slot(18, 0)), [3, 18]),
            ("5", open(in_slot(18, 2)), [5, 18]),
        ),
        in_order(
            "4,097 slots that are not there",
            ("6 slots", first(4097, 0, 0), [6, 4]),
            ("3 block", first(4096, 0, 0), [3, 4]),
        ),
        in_order("4,097 slots and a loop", ("6 slots", first(4097, 4, 0), [6, 4]), ("4", first(0, 4, 0), [4, 4])),
        in_order("5,000 slots from a slot on", ("6 slots", inner(5000), [6, 12]), ("5", inner(0), [5, 12])),
        in_order("nine slots from a slot on", ("3 block", inner(9), [3, 12]), ("5", inner(0), [5, 12])),
        in_order("a cut block and a loop", ("3 block", first(1, 4, 11), [3, 4]), ("4", first(1, 4, 12), [4, 4])),
        in_order("a cut block and 65,535 slots", ("3 block", full(1), [3, 4]), ("6 slots", full(0), [6, 10])),
    ]
}

/// A block in a slot, and a fault of the block behind it.
fn behind_an_inner_block() -> Vec<Case> {
    let case = |name, rule, second, third, answer| {
        in_order(name, ("5", open(inner(12, second, third)), [5, 12]), (rule, open(inner(22, second, third)), answer))
    };
    vec![
        case("a block in a slot, and a loop", "4", block(0, 4), [0; 6], [4, 4]),
        case("a block in a slot, and 5,000 slots", "6 slots", block(0, 28), block(5000, 0), [6, 28]),
        case("a block in a slot, and one far outside", "3 header", block(0, FAR), [0; 6], [3, 4_294_967_280]),
        case("a block in a slot, and one that is cut", "3 block", block(0, 28), block(9, 0), [3, 28]),
    ]
}

/// Two faults around the 257th block.
fn most_blocks() -> Vec<Case> {
    let last = |next, third| [256, 255].map(|count| open(Many { count, next, third, ..MANY }.image()));
    let case = |name, rule, [more, fewer]: [Ask; 2], place, answer| {
        in_order(name, ("6 blocks", more, [6, place]), (rule, fewer, answer))
    };
    let cut = |count| open(Many { next: 1552, third: block(count, 1546), ..MANY }.image());
    let in_slot = open(Many { next: 12, inner: 1552, ..MANY }.image());
    let behind = open(Many { next: 1546, second: block(0, 1552), ..MANY }.image());
    let [loop_at_256, _] = last(4, [0; 6]);
    let [at_257, _] = last(1552, [0; 6]);
    vec![
        in_order("a 257th block that is the first", ("4", loop_at_256, [4, 4]), ("6 blocks", at_257, [6, 1552])),
        case("a 257th block far outside", "3 header", last(FAR, [0; 6]), 4_294_967_280, [3, 4_294_967_280]),
        case("a 257th block that is cut", "3 block", last(1552, block(9, 0)), 1552, [3, 1552]),
        case("a 257th block in a slot", "5", last(12, [0; 6]), 12, [5, 12]),
        case("a 257th block and a loop", "4", last(1552, block(0, 4)), 1552, [4, 4]),
        in_order("a cut 256th block and a 257th", ("3 block", cut(9), [3, 1552]), ("6 blocks", cut(0), [6, 1546])),
        in_order("a 256th block in a slot and a 257th", ("5", in_slot, [5, 12]), ("6 blocks", behind, [6, 1552])),
    ]
}

/// Faults of a slot at their edges.
fn elements() -> Vec<Case> {
    let second_block = |image: &mut Image| {
        image.append(&block(0, 0));
        image.put32(NEXT, 63);
        image.put_length(FIRST, 18);
    };
    let put_first = |offset, length| changed(|image| image.put(FIRST, &slot(100, 1, offset, length)));
    let put_two = |first, second: [u16; 2]| {
        changed(|image| {
            image.put_tag(FIRST, first);
            image.put(SECOND, &numbers16(&second));
        })
    };
    let put_last = |second| {
        changed(|image| {
            image.put_tag(SECOND, second);
            image.put(THIRD, &slot(100, 1, 0, 0));
        })
    };
    vec![
        refused("tag 16384", "7", changed(|image| image.put_tag(SECOND, 16384)), [7, 22]),
        refused("tag 16385", "7", changed(|image| image.put_tag(SECOND, 16385)), [7, 22]),
        refused("an element one byte past the end", "8", put_first(46, 18), [8, 10]),
        refused("an element whose end is 46 in 32 bits", "8", put_first(u32::MAX, 47), [8, 10]),
        refused("an element on the first byte", "9", put_first(0, 1), [9, 10]),
        refused("an element on a block's last byte", "9", put_first(45, 1), [9, 10]),
        refused("an element on a later block's first byte", "9", changed(second_block), [9, 10]),
        refused("a pair twice", "10", put_two(100, [100, 1]), [10, 22]),
        refused("a pair first extended, then plain", "10", put_two(16484, [100, 1]), [10, 22]),
        refused("two machine types", "10", put_two(107, [107, 2]), [10, 22]),
        refused("two machine types, one extended", "10", put_two(107, [16491, 2]), [10, 22]),
        in_order("a pair three times", ("10", put_last(100), [10, 22]), ("10", put_last(101), [10, 34])),
    ]
}

/// What comes close to a fault.
fn accepted() -> Vec<Case> {
    let put = |place, slot: [u8; 12]| changed(|image| image.put(place, &slot));
    let slots = image(&[&block(4096, 0), &FREE_SLOT.repeat(4096)]);
    let close = [
        ("an element up to the end", put(FIRST, slot(100, 1, 46, 17))),
        ("an empty element far outside", put(FIRST, slot(100, 1, u32::MAX, 0))),
        ("a machine type far outside", put(SECOND, slot(107, 1, u32::MAX, u32::MAX))),
        ("a free slot with other fields", put(THIRD, slot(1, 1, u32::MAX, u32::MAX))),
        ("two elements of the same bytes", put(SECOND, slot(101, 1, 46, 3))),
        ("a tag 32,768 above", put(SECOND, slot(32868, 1, 49, 2))),
    ];
    let mut cases: Vec<Case> =
        close.into_iter().map(|(name, ask)| granted(name, ask, &[1, 3, 2], Written::default())).collect();
    cases.extend([
        granted("256 blocks", open(Many { next: 1552, ..MANY }.image()), &[256, 1, 0], Written::default()),
        granted("4,096 slots", open(slots), &[1, 4096, 0], Written::default()),
        granted("a block right behind a block", open(in_slot(22, 6)), &[2, 1, 0], Written::default()),
    ]);
    cases
}

/// Elements that are not stored yet: tag and pair are judged, offset and length are not.
fn unstored_elements() -> Vec<Case> {
    let two = |slots: [[u8; 12]; 2]| changed(|image| image.put(FIRST, &slots.concat()));
    let opened = |of, ask, counts: [u64; 3]| granted(of, ask, &counts, Written::default());
    let bad_tag = |of, tag| refused(of, "7", two([slot(100, 1, 46, 3), unstored(tag)]), [7, 22]);
    let twice = |of, slots| refused(of, "10", two(slots), [10, 22]);
    let all = [unstored(100), unstored(101), unstored(16686)].concat();
    vec![
        opened("an element that is not stored yet", two([unstored(100), slot(101, 1, 49, 2)]), [1, 3, 2]),
        opened("an extended one that is not stored yet", two([slot(100, 1, 46, 3), unstored(16485)]), [1, 3, 2]),
        opened("only elements that are not stored yet", open(image(&[&block(3, 0), &all])), [1, 3, 3]),
        opened("a machine type of all ones", two([unstored(107), unstored(101)]), [1, 3, 2]),
        opened("an extended machine type of all ones", two([unstored(100), unstored(16491)]), [1, 3, 2]),
        bad_tag("tag 0 that is not stored yet", 0),
        bad_tag("tag 16384 that is not stored yet", 16384),
        bad_tag("tag 16385 that is not stored yet", 16385),
        twice("a twin that is not stored yet", [slot(100, 1, 46, 3), unstored(100)]),
        twice("a twin of one that is not stored yet", [unstored(100), slot(100, 1, 46, 3)]),
        twice("twins that are not stored yet", [unstored(100), unstored(100)]),
        twice("twins that are not stored yet, one extended", [unstored(16484), unstored(100)]),
        twice("an extended twin that is not stored yet", [slot(100, 1, 46, 3), unstored(16484)]),
        twice("two machine types of all ones", [unstored(107), slot(16491, 2, ALL_ONES, ALL_ONES)]),
    ]
}

/// An offset or a length of all ones, but not both.
fn almost_unstored() -> Vec<Case> {
    let put = |tag, offset, length| changed(|image| image.put(SECOND, &slot(tag, 1, offset, length)));
    let outside = |of, offset, length| refused(of, "8", put(101, offset, length), [8, 22]);
    let (outside_twin, twin) = (put(100, ALL_ONES, 1), put(100, ALL_ONES, ALL_ONES));
    vec![
        outside("1 byte at an offset of all ones", ALL_ONES, 1),
        outside("one byte less than all ones at all ones", ALL_ONES, ALL_ONES - 1),
        outside("a length of all ones one byte before", ALL_ONES - 1, ALL_ONES),
        outside("a length of all ones inside", 49, ALL_ONES),
        outside("a length of all ones on the header", 0, ALL_ONES),
        in_order("a twin at an offset of all ones", ("8", outside_twin, [8, 22]), ("10", twin, [10, 22])),
        granted("no bytes at an offset of all ones", put(101, ALL_ONES, 0), &[1, 3, 2], Written::default()),
    ]
}

fn open(image: Image) -> Ask {
    Ask::on(Call::Open, image)
}

/// The yard with something else in it.
fn changed(change: impl Fn(&mut Image)) -> Ask {
    let mut image = yard();
    change(&mut image);
    open(image)
}

/// A block of 100/1, 101/1 and a free slot, their bytes at 46 and 49, then two bad blocks at 51 and 57 to which nothing leads.
fn yard() -> Image {
    let slots = [slot(100, 1, 46, 3), slot(101, 1, 49, 2), FREE_SLOT].concat();
    image(&[&block(3, 0), &slots, b"hubox", &block(4094, 0), &block(9, 0)])
}

/// A block of one free slot, and so many zeros behind it.
fn in_slot(next: u32, zeros: usize) -> Image {
    image(&[&block(1, next), &FREE_SLOT, &vec![0; zeros]])
}

/// A block of one free slot, in which at 12 stands the head of another block; the same head at 22, and one more at 28.
fn inner(next: u32, second: [u8; 6], third: [u8; 6]) -> Image {
    image(&[&block(1, next), &[0, 1], &second, &[0; 4], &second, &third])
}

/// Many blocks one behind the other, the first with a free slot, in which at 12 stands the head of another block. Behind 255
/// blocks there are two more heads at 1546 and 1552, behind 256 blocks the latter.
struct Many {
    count: u32,
    /// Where the last block leads, and the block at 12.
    next: u32,
    inner: u32,
    second: [u8; 6],
    third: [u8; 6],
}

const MANY: Many = Many { count: 255, next: 0, inner: 0, second: [0; 6], third: [0; 6] };

impl Many {
    fn image(&self) -> Image {
        let next = |index| if index == self.count { self.next } else { 16 + 6 * index };
        let rest: Vec<u8> = (2..=self.count).flat_map(|index| block(0, next(index))).collect();
        let second = if self.count == 255 { &self.second[..] } else { &[] };
        let slot = [&[0, 1][..], &block(0, self.inner), &[0; 4]].concat();
        image(&[&block(1, next(1)), &slot, &rest, second, &self.third])
    }
}
