//! The bytes of a log in memory put together and taken apart by hand, in the words of document 02's request 9: after its 14 header bytes all
//! kinds at two bits each, the earlier cell in the lower bits, then all E+, all E-, all R+, all R-, then the lapses.

pub const HEADER_BYTES: usize = 14;
pub const CELL_BYTES: usize = 10;
/// A cell as a file has it: its kind, E+, E-, R+, R- of two bytes each, and its lapses.
pub type Row = [u8; CELL_BYTES];
const EPLUS: usize = 1;
const EMINUS: usize = 3;
const RPLUS: usize = 5;
const RMINUS: usize = 7;
const LAPSES: usize = 9;
/// Four cells take a byte of kinds, 32 of counts and four of lapses.
const BYTES_OF_FOUR: usize = 37;

/// A log of these cells, a multiple of four; of a kind past 3 the two bits that there are.
pub fn image_of(front: &[u8], rows: &[Row]) -> Vec<u8> {
    let mut image = front.to_vec();
    for four in rows.chunks_exact(4) {
        image.push(four[0][0] & 3 | (four[1][0] & 3) << 2 | (four[2][0] & 3) << 4 | (four[3][0] & 3) << 6);
    }
    for count in [EPLUS, EMINUS, RPLUS, RMINUS] {
        image.extend(rows.iter().flat_map(|row| [row[count], row[count + 1]]));
    }
    image.extend(rows.iter().map(|row| row[LAPSES]));
    image
}

/// How many cells there are in a log of so many bytes.
pub fn cells_of(image: &[u8]) -> usize {
    (image.len() - HEADER_BYTES) / BYTES_OF_FOUR * 4
}

/// A log's cells.
pub fn rows_of(image: &[u8]) -> Vec<Row> {
    let cells = cells_of(image);
    let (kinds, columns) = image[HEADER_BYTES..].split_at(cells / 4);
    let (counts, lapses) = columns.split_at(8 * cells);
    let row = |cell: usize| {
        let mut row = [0; CELL_BYTES];
        row[0] = [kinds[cell / 4], kinds[cell / 4] >> 2, kinds[cell / 4] >> 4, kinds[cell / 4] >> 6][cell % 4] & 3;
        for (column, count) in counts.chunks_exact(2 * cells).zip([EPLUS, EMINUS, RPLUS, RMINUS]) {
            row[count..count + 2].copy_from_slice(&column[2 * cell..2 * cell + 2]);
        }
        row[LAPSES] = lapses[cell];
        row
    };
    (0..cells).map(row).collect()
}

/// Another cell in the place of one.
pub fn put(image: &mut [u8], cell: usize, row: Row) {
    let mut rows = rows_of(image);
    rows[cell] = row;
    let other = image_of(&image[..HEADER_BYTES], &rows);
    image.copy_from_slice(&other);
}
