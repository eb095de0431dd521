//! A disk drawn as SVG: a rectangle for each read of an event and for each free piece, and a legend.

use crate::map;
use crate::places::{free_places, places};
use crate::rows::{Layout, COLUMN, LINE, MARGIN, TOP};
use crate::table::counted;
use event_disk::{File, Listing, Piece, Read};

/// The colour of the file with this letter: the hue goes on by the golden angle, so that neighbours differ.
fn colour(i: usize) -> String {
    format!("hsl({},{}%,{}%)", i * 137 % 360, 65, [70, 55, 80][i % 3])
}

/// Text as it may stand in SVG.
fn escaped(text: &str) -> String {
    let kept = |letter: char| if letter < ' ' { '\u{fffd}' } else { letter };
    let text: String = text.chars().map(kept).collect();
    text.replace('&', "&amp;").replace('<', "&lt;").replace('>', "&gt;").replace('"', "&quot;")
}

/// A line of the legend.
fn legend(y: usize, fill: &str, words: &str) -> String {
    let square =
        format!("<rect x=\"{MARGIN}\" y=\"{}\" width=\"12\" height=\"12\" fill=\"{fill}\" stroke=\"#333\"/>", y - 11);
    format!("{square}\n<text x=\"{}\" y=\"{y}\">{}</text>\n", MARGIN + 20, escaped(words))
}

/// An event, or what is free, and how it is drawn.
struct Owner {
    name: String,
    blocks: u32,
    /// Each is drawn as one. A free piece is drawn like a read of its own.
    reads: Vec<Read>,
    places: String,
    fill: String,
}

/// The events, and then what is free.
fn owners(listing: &Listing) -> Vec<Owner> {
    let event = |(file, letter): (&File, usize)| {
        let (name, reads, fill) = (format!("id {}", file.id), file.reads(), colour(letter));
        Owner { name, blocks: file.blocks, reads, places: places(file), fill }
    };
    let alone = |piece: &Piece| Read { first: piece.first, lengths: vec![piece.length] };
    let free = Owner {
        name: "free".to_string(),
        blocks: listing.free,
        reads: listing.free_pieces.iter().map(alone).collect(),
        places: free_places(&listing.free_pieces),
        fill: "#f4f4f4".to_string(),
    };
    listing.files.iter().zip(map::letters(listing)).map(event).chain([free]).collect()
}

/// The disk drawn, so many columns to a row, under a title with the image's name.
pub fn drawn(listing: &Listing, width: usize, name: &str) -> String {
    let (blocks, unit) = (listing.blocks as usize, map::unit(listing));
    let columns = width.min(blocks.div_ceil(unit));
    let layout = Layout { columns, unit };
    let below = TOP + blocks.div_ceil(layout.to_row()) * COLUMN.1;
    let owners = owners(listing);
    let scale = if unit > 1 { format!("; a column is {unit} blocks") } else { String::new() };
    let title = format!("Event disk {name}: {}, {} free{scale}", counted(blocks as u64, "block"), listing.free);
    let (mut body, mut longest) = (String::new(), title.chars().count());
    for (i, Owner { name, blocks, reads, places, fill }) in owners.iter().enumerate() {
        body.extend(reads.iter().map(|read| layout.read_drawn(read, fill, name)));
        let words = format!("{name}: {}  {places}", counted(u64::from(*blocks), "block"));
        longest = longest.max(words.chars().count() + 3);
        body += &legend(below + (i + 1) * LINE + 6, fill, words.trim_end());
    }
    let (w, h) = ((columns * COLUMN.0).max(longest * 8) + 2 * MARGIN, below + (owners.len() + 1) * LINE + MARGIN);
    let size = format!("width=\"{w}\" height=\"{h}\" viewBox=\"0 0 {w} {h}\"");
    format!(
        "<svg xmlns=\"http://www.w3.org/2000/svg\" {size} font-family=\"sans-serif\" font-size=\"13\">\n\
         <title>{title}</title>\n<rect width=\"{w}\" height=\"{h}\" fill=\"white\"/>\n\
         <text x=\"{MARGIN}\" y=\"{}\" font-size=\"16\">{title}</text>\n{body}</svg>\n",
        MARGIN + 14,
        title = escaped(&title),
    )
}

#[cfg(test)]
mod tests {
    use super::*;
    use event_disk::Version;

    fn empty(version: Version, blocks: u32, free_pieces: Vec<Piece>) -> Listing {
        Listing { version, blocks, free: blocks, files: vec![], free_pieces }
    }

    #[test]
    fn the_drawing_has_a_rectangle_for_each_free_piece_and_a_legend() {
        let free_pieces = vec![Piece { first: 0, length: 4 }, Piece { first: 4, length: 1 }];
        let text = drawn(&empty(Version::SMALL, 5, free_pieces), 64, "a<b>&\"c\"");
        assert!(text.contains("<title>Event disk a&lt;b&gt;&amp;&quot;c&quot;: 5 blocks, 5 free</title>"));
        assert!(text.contains("<title>free: blocks 0 to 3</title>"));
        assert!(text.contains("<title>free: blocks 4 to 4</title>"));
        assert_eq!(text.matches(">free</text>").count(), 1, "the piece of one block has no room for a label");
        assert!(text.contains(">free: 5 blocks  (0,4) (4,1)</text>"));
        assert!(text.starts_with("<svg ") && text.ends_with("</svg>\n"));
    }

    /// Id 2 is one read of three pieces, id 3 two of one piece each. The free pieces adjoin, but are not read.
    #[test]
    fn the_drawing_has_a_rectangle_for_each_read() {
        let piece = |first, length| Piece { first, length };
        let files = vec![
            File { id: 2, blocks: 7, breaks: 0, pieces: vec![piece(0, 4), piece(4, 2), piece(6, 1)] },
            File { id: 3, blocks: 3, breaks: 1, pieces: vec![piece(7, 1), piece(8, 2)] },
        ];
        let listing = Listing { free: 6, files, ..empty(Version::SMALL, 16, vec![piece(10, 2), piece(12, 4)]) };
        let text = drawn(&listing, 64, "d");
        assert!(text.contains("<rect x=\"20\" y=\"50\" width=\"98\" height=\"24\" "), "{text}");
        let titles = ["id 2: blocks 0 to 6", "id 3: blocks 8 to 9", "id 3: blocks 7 to 7", "free: blocks 10 to 11"];
        for title in titles.into_iter().chain(["free: blocks 12 to 15"]) {
            assert_eq!(text.matches(&format!("<title>{title}</title></rect>")).count(), 1, "{title}");
        }
        assert_eq!((text.matches("</title></rect>").count(), text.matches("<line ").count()), (5, 2));
        assert!(text.contains(">id 2: 7 blocks  (0,4+2+1)</text>") && text.contains(">id 3: 3 blocks  (8,2) (7,1)</"));
        let rows = drawn(&listing, 4, "d");
        assert_eq!(rows.matches("<title>id 2: blocks 0 to 6</title></rect>").count(), 2, "two rows divide it");
    }

    #[test]
    fn a_large_disk_is_drawn_to_scale() {
        let free_pieces = vec![Piece { first: 0, length: 8192 }, Piece { first: 8192, length: 1 }];
        let text = drawn(&empty(Version::LARGE, 8193, free_pieces), 64, "d");
        assert!(text.contains("<title>Event disk d: 8193 blocks, 8193 free; a column is 4 blocks</title>"));
        assert!(text.contains("<rect x=\"20\" y=\"50\" width=\"896\" height=\"768\" "), "32 rows of 64 columns");
        assert!(text.contains("<rect x=\"20\" y=\"818\" width=\"3.5\" height=\"24\" "), "a quarter of a column");
        let greatest = drawn(&empty(Version::LARGE, 1 << 20, vec![Piece { first: 0, length: 1 << 20 }]), 64, "d");
        assert!(greatest.contains(" width=\"896\" height=\"1536\" ") && greatest.len() < 2000);
    }
}
