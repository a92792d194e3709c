//! Small files made by hand, and what the real files hold.

/// A file of one block with these elements: tag, reference and bytes.
pub fn file_of(elements: &[(u16, u16, &[u8])]) -> Vec<u8> {
    let mut image = b"\x0e\x03\x13\x01".to_vec();
    image.extend((elements.len() as u16).to_be_bytes());
    image.extend([0; 4]);
    let mut offset = 10 + 12 * elements.len();
    for (tag, reference, data) in elements {
        image.extend(tag.to_be_bytes());
        image.extend(reference.to_be_bytes());
        image.extend((offset as u32).to_be_bytes());
        image.extend((data.len() as u32).to_be_bytes());
        offset += data.len();
    }
    elements.iter().for_each(|(_, _, data)| image.extend(*data));
    image
}

/// Where the slot of an element is in such a file.
pub fn slot(index: usize) -> usize {
    10 + 12 * index
}

/// The image with the element of the slot at a place named and not stored, as libhdf4 marks it: offset and length all ones.
pub fn unstored(mut image: Vec<u8>, slot: usize) -> Vec<u8> {
    image[slot + 4..slot + 12].fill(0xff);
    image
}

/// The bytes that an edit puts behind its data, of which the undo is made.
pub const TRAILER: usize = 36;

/// Numbers of 16 bits, high byte first.
pub fn shorts(numbers: &[u16]) -> Vec<u8> {
    numbers.iter().flat_map(|number| number.to_be_bytes()).collect()
}

/// The full record of an element in linked blocks: its length, the bytes of the first block and of each later one, the blocks of
/// a table, and the reference of the first table.
pub fn linked_record(numbers: [u32; 4], table: u16) -> Vec<u8> {
    let [length, first, block, entries] = numbers;
    [[1, length, first, block, entries].map(u32::to_be_bytes).concat(), shorts(&[table])].concat()
}

/// The sparse one, as libhdf4 writes it, without the bytes of the first block.
pub fn sparse_record(numbers: [u32; 3], table: u16) -> Vec<u8> {
    [shorts(&[1]), numbers.map(u32::to_be_bytes).concat(), shorts(&[table])].concat()
}

/// Dimensions of an array, whose number type is 106/1.
pub fn array(sizes: &[u32]) -> Vec<u8> {
    let sizes_bytes = sizes.iter().flat_map(|size| size.to_be_bytes());
    let head = shorts(&[sizes.len() as u16]);
    head.into_iter().chain(sizes_bytes).chain(shorts(&[106, 1]).repeat(sizes.len() + 1)).collect()
}

/// Dimensions of an image, whose number type is 106/1.
pub fn image(x: u32, y: u32, components: u16, interlace: u16) -> Vec<u8> {
    [&x.to_be_bytes()[..], &y.to_be_bytes(), &shorts(&[106, 1, components, interlace, 0, 0])].concat()
}

/// A file with an array of bytes' own reference 2.
pub fn array_file(number_type: &[u8], sizes: &[u32], data: &[u8]) -> Vec<u8> {
    file_of(&[(106, 1, number_type), (701, 2, &array(sizes)), (702, 2, data)])
}

/// A byte of the samples that the real files hold.
pub fn sample_byte(index: usize) -> u8 {
    (7 * index + index / 32) as u8
}

/// A number of the samples, as the program that wrote them had it in memory: low byte first.
pub fn sample(place: usize, size: usize) -> u64 {
    (0..size).map(|index| u64::from(sample_byte(place + index)) << (8 * index)).sum()
}
