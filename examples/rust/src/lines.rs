//! The lines of a page.

/// How many bytes have one mark.
const STEP: usize = 256;

/// The lines of a page, found once: each question takes at most 256 steps.
#[derive(Clone, Debug)]
pub struct Lines<'p> {
    page: &'p [u8],
    /// The line and the column of each byte at a multiple of STEP.
    marks: Vec<(usize, usize)>,
}

impl<'p> Lines<'p> {
    /// The lines of a page. Takes as many steps as it has bytes.
    pub fn new(page: &'p [u8]) -> Lines<'p> {
        let ends = (STEP..=page.len()).step_by(STEP);
        let marks = std::iter::once((1, 1)).chain(ends.scan((1, 1), |place, end| {
            *place = place_after(page, end - STEP, end, *place);
            Some(*place)
        }));
        Lines {
            page,
            marks: marks.collect(),
        }
    }

    /// The line and the column, both from 1, of the byte at this offset; one past the end is taken for the end. A line ends at LF, CR LF
    /// or CR; columns count characters.
    pub fn line_column(&self, at: u64) -> (usize, usize) {
        let end = at.min(self.page.len() as u64) as usize;
        let mark = end / STEP;
        place_after(self.page, mark * STEP, end, self.marks[mark])
    }
}

/// The line and the column of a byte, from those of one before it.
fn place_after(page: &[u8], from: usize, end: usize, place: (usize, usize)) -> (usize, usize) {
    (from..end).fold(place, |(line, column), at| match page[at] {
        b'\n' => (line + 1, 1),
        b'\r' if page.get(at + 1) != Some(&b'\n') => (line + 1, 1),
        0x80..=0xBF => (line, column),
        _ => (line, column + 1),
    })
}
