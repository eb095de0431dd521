//! Blocks drawn as SVG in rows: a rectangle for each read, with dashed borders between its pieces.

use event_disk::{Piece, Read};
use std::ops::Range;

/// The width and height of a column in a row, the margin, and the height of a line of text, all in pixels. A column is
/// a block, or as many blocks as a letter of the map stands for.
pub const COLUMN: (usize, usize) = (14, 24);
pub const MARGIN: usize = 20;
pub const LINE: usize = 20;
/// Where the blocks start, below the title.
pub const TOP: usize = MARGIN + LINE + 10;

/// Blocks drawn as one rectangle: the place of the first in its row, that row, and how many blocks and rows there are.
#[derive(Debug, PartialEq, Eq)]
struct Rectangle {
    at: usize,
    row: usize,
    blocks: usize,
    rows: usize,
}

/// The rectangles of blocks that follow each other, with so many to a row: one, unless the rows divide them.
fn rectangles(blocks: Piece, to_row: usize) -> Vec<Rectangle> {
    let Range { mut start, end } = blocks.range();
    let mut found = Vec::new();
    while start < end {
        let at = start % to_row;
        let blocks = (end - start).min(to_row - at);
        let rows = if at == 0 { ((end - start) / to_row).max(1) } else { 1 };
        found.push(Rectangle { at, row: start / to_row, blocks, rows });
        start += blocks * rows;
    }
    found
}

/// How blocks are laid out: the columns of a row, and the blocks of a column.
#[derive(Clone, Copy)]
pub struct Layout {
    pub columns: usize,
    pub unit: usize,
}

impl Layout {
    /// The blocks of a row.
    pub fn to_row(self) -> usize {
        self.columns * self.unit
    }

    /// The width of so many blocks in pixels. It is exact, since a column's blocks are a power of two.
    fn wide(self, blocks: usize) -> f64 {
        (blocks * COLUMN.0) as f64 / self.unit as f64
    }

    /// Where a place in a row is in pixels.
    fn corner(self, at: usize, row: usize) -> (f64, usize) {
        (MARGIN as f64 + self.wide(at), TOP + row * COLUMN.1)
    }

    /// The border before a piece: a dashed line at its first block, or above the row if that is the first of a row.
    fn border(self, piece: Piece) -> String {
        let blocks = piece.range();
        let at = blocks.start % self.to_row();
        let (x, y) = self.corner(at, blocks.start / self.to_row());
        let (right, low) = match at {
            0 => (x + self.wide(blocks.len().min(self.to_row())), y),
            _ => (x, y + COLUMN.1),
        };
        format!("<line x1=\"{x}\" y1=\"{y}\" x2=\"{right}\" y2=\"{low}\" stroke=\"#333\" stroke-dasharray=\"2 3\"/>\n")
    }

    /// The borders between the pieces of a read.
    fn borders(self, read: &Read) -> String {
        let mut end = read.first;
        let pieces = read.lengths.iter().map(|&length| {
            end += length;
            Piece { first: end - length, length }
        });
        pieces.skip(1).map(|piece| self.border(piece)).collect()
    }

    /// A read drawn, with its owner's label where there is room, and words that a viewer shows when it is pointed at.
    pub fn read_drawn(self, read: &Read, fill: &str, owner: &str) -> String {
        let (mut text, mut labels) = (String::new(), String::new());
        let (blocks, label) = (read.blocks().range(), owner.trim_start_matches("id "));
        let title = format!("<title>{owner}: blocks {} to {}</title>", blocks.start, blocks.end - 1);
        for r in rectangles(read.blocks(), self.to_row()) {
            let ((x, y), (w, h)) = (self.corner(r.at, r.row), (self.wide(r.blocks), r.rows * COLUMN.1));
            let place = format!("x=\"{x}\" y=\"{y}\" width=\"{w}\" height=\"{h}\"");
            text += &format!("<rect {place} fill=\"{fill}\" stroke=\"#333\">{title}</rect>\n");
            if w >= (8 * label.len() + 4) as f64 {
                let place = format!("x=\"{}\" y=\"{}\" text-anchor=\"middle\"", x + w / 2.0, y + h / 2 + 4);
                labels += &format!("<text {place} font-size=\"11\">{label}</text>\n");
            }
        }
        text + &self.borders(read) + &labels
    }
}

#[cfg(test)]
mod tests {
    use super::*;

    fn rectangle(at: usize, row: usize, blocks: usize, rows: usize) -> Rectangle {
        Rectangle { at, row, blocks, rows }
    }

    #[test]
    fn a_piece_is_one_rectangle_where_rows_have_a_power_of_two() {
        assert_eq!(rectangles(Piece { first: 4, length: 2 }, 8), [rectangle(4, 0, 2, 1)]);
        assert_eq!(rectangles(Piece { first: 32, length: 32 }, 8), [rectangle(0, 4, 8, 4)]);
    }

    #[test]
    fn blocks_that_rows_divide_are_drawn_in_parts() {
        let parts = [rectangle(6, 0, 4, 1), rectangle(0, 1, 10, 2), rectangle(0, 3, 2, 1)];
        assert_eq!(rectangles(Piece { first: 6, length: 26 }, 10), parts);
        let read = [rectangle(0, 1, 8, 1), rectangle(0, 2, 7, 1)];
        assert_eq!(rectangles(Piece { first: 8, length: 15 }, 8), read);
    }

    /// The lines of a drawing with so many columns, from where to where.
    fn lines(first: u32, lengths: &[u32], columns: usize) -> Vec<String> {
        let read = Read { first, lengths: lengths.to_vec() };
        let drawn = Layout { columns, unit: 1 }.read_drawn(&read, "red", "id 2");
        let lines = drawn.lines().filter_map(|line| line.strip_prefix("<line "));
        lines.map(|line| line.split(" stroke").next().unwrap_or_default().replace('"', "")).collect()
    }

    /// A column has 14 pixels and a row 24; the first block is at (20,50).
    #[test]
    fn between_pieces_there_is_a_border() {
        assert_eq!(lines(0, &[4, 2, 1], 64), ["x1=76 y1=50 x2=76 y2=74", "x1=104 y1=50 x2=104 y2=74"]);
        assert_eq!(lines(4, &[4], 64), [""; 0]);
        assert_eq!(lines(16, &[16, 4], 10), ["x1=48 y1=122 x2=48 y2=146"], "in the middle of a row");
        assert_eq!(lines(0, &[4, 2, 1], 4), ["x1=20 y1=74 x2=48 y2=74", "x1=48 y1=74 x2=48 y2=98"]);
        assert_eq!(lines(0, &[16, 8], 8), ["x1=20 y1=98 x2=132 y2=98"], "above a whole row");
    }
}
