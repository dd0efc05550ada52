//! What a refusal means for the picture at hand, and what can be done about it.
use kohlenfloh::{Picture, Refusal, Table};

use crate::digits::grouped;
use crate::header::{self, told, Header};
use crate::kinds;
use crate::options::{Options, Wanted};
use crate::remedy::Way;

/// What is known of a picture when the library refuses something.
pub struct Case<'a> {
    /// The input.
    pub input: &'a [u8],
    /// What is asked of it.
    pub options: &'a Options,
    /// The table, as far as it is filled.
    pub table: &'a Table,
}

impl Case<'_> {
    /// What a refusal means here.
    pub fn meaning(&self, refusal: Refusal) -> String {
        match (refusal, header::read(self.input)) {
            (Refusal::Full { .. }, _) => self.full(),
            (Refusal::BadCount, _) => self.bad_count(),
            (Refusal::FewColours, _) => self.few_colours(),
            (Refusal::BadLimit, _) => {
                format!("a limit of {} rounds is wanted, and it can be at most 200", self.options.limit)
            }
            (Refusal::BadHeader { offset }, header) => self.bad_header(offset, header),
            (Refusal::BadSize, Some(header)) => format!(
                "the picture has {}; a side can be 1 to 16,384, and there can be 16,777,216 pixels at most",
                header.sides()
            ),
            (Refusal::BadDepth, Some(header)) => self.bad_depth(&header),
            (Refusal::BadRaster, Some(header)) => bad_raster(&header),
            (other, _) => other.sentence().into(),
        }
    }

    /// More shades are wanted than there can be, or fewer. Beside fixed ones there is a free one; of those in use any
    /// may be fixed.
    fn bad_count(&self) -> String {
        let Options { wanted, fixed, .. } = self.options;
        let (count, fixed) = (wanted.number(), fixed.shades().len());
        match wanted {
            Wanted::Count(_) if fixed > 0 => {
                format!("{count} shades are wanted, and with {fixed} fixed there can be {} to 64", fixed + 1)
            }
            _ => format!("{count} shades are wanted, and there can be 1 to 64"),
        }
    }

    /// The picture has fewer colours than shades are wanted, or than are wanted beside fixed ones.
    fn few_colours(&self) -> String {
        let Options { wanted, fixed, .. } = self.options;
        let (count, fixed, colours) = (wanted.number(), fixed.shades(), self.table.used());
        if fixed.is_empty() {
            return format!(
                "{count} shades are wanted, and the picture has {colours} colours; ask for {colours} at most"
            );
        }
        let levels = |key: &u32| key.to_be_bytes()[1..].to_vec();
        let others = self.table.keys().iter().filter(|key| !fixed.iter().any(|shade| levels(key) == shade)).count();
        let (count, fixed) = (format!("{count} shades are wanted"), fixed.len());
        match others {
            0 => format!("{count}, and every colour of the picture is one of the {fixed} fixed; fix fewer"),
            _ => format!(
                "{count}, {fixed} of them fixed, and the picture has {others} colours unlike these; ask for {} at most",
                fixed + others
            ),
        }
    }

    /// The picture has more colours than the table has room for.
    fn full(&self) -> String {
        format!(
            "the picture has more than 1,048,576 colours; {} of its pixels were taken before the table was full. {}",
            grouped(self.table.pixels()),
            Way::FEWER_COLOURS.advice("this leaves at most 1,030,301 and moves no level by more than 1", self.options),
        )
    }

    /// No P6 picture: another kind of file, or a header that fails at this offset.
    fn bad_header(&self, offset: usize, header: Option<Header<'_>>) -> String {
        if let Some(kind) = kinds::of(self.input) {
            let advice = kind.way.advice("this reads it", self.options);
            return format!("this is {}, and a P6 picture is wanted. {advice}", kind.name);
        }
        match (self.input.get(offset), header) {
            (None, _) if offset == 0 => "the input is empty".into(),
            (None, _) => self.ends_early(offset),
            (Some(b'#'), _) if offset < 2 => format!(
                "a comment stands at offset {offset}, and none can stand before or inside the letters P6, with which \
                 a picture begins"
            ),
            (Some(b'#'), _) => self.comment_behind_depth(offset),
            (Some(b'0'..=b'9'), Some(header)) if offset > 2 => format!(
                "the header tells {} and the depth {}; its numbers can have 5 digits at most",
                header.sides(),
                told(header.depth)
            ),
            _ => format!("the byte at offset {offset} cannot stand there in the header of a P6 picture"),
        }
    }

    /// The input ends within its header, at this offset, at times inside a comment.
    fn ends_early(&self, offset: usize) -> String {
        match header::unended_comment(self.input) {
            Some(place) => format!(
                "the input ends at offset {offset}, inside the comment that begins at offset {place}; a comment goes \
                 on to the end of its line"
            ),
            None => format!("the input ends at offset {offset}, inside what should be the header of a P6 picture"),
        }
    }

    /// A comment right behind the depth. Netpbm's programs take it for the white byte there; they are told of where the
    /// picture with a white byte in its place is one that is read.
    fn comment_behind_depth(&self, offset: usize) -> String {
        let (before, comment) = self.input.split_at(offset);
        let read = |raster: &[u8]| Picture::read(&[before, b"\n", raster].concat()).is_ok();
        let why =
            format!("a comment stands at offset {offset}, behind the depth, and comments can stand before it only");
        match header::after_comment(comment).filter(|raster| read(raster)) {
            Some(_) => format!("{why}. {}", Way::DEPTH_255.advice("this leaves it out", self.options)),
            None => why,
        }
    }

    /// The depth is another one.
    fn bad_depth(&self, header: &Header<'_>) -> String {
        let Some(depth) = header.possible_depth() else {
            return format!("the depth is {}, and it must be 255", told(header.depth));
        };
        let bits = if depth > 255 { ", 16 bits a level" } else { "" };
        let advice = Way::DEPTH_255.advice("this makes it so", self.options);
        format!("the depth is {depth}{bits}, and it must be 255. {advice}")
    }
}

/// The raster is shorter or longer than the sides say.
fn bad_raster(header: &Header<'_>) -> String {
    let (wanted, found) = (grouped(header.raster_bytes()), grouped(header.raster.len() as u64));
    format!("the raster should have {wanted} bytes, for {}, and {found} follow the header", header.sides())
}
