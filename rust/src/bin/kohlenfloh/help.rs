//! What the program tells of itself.
use kohlenfloh::{made, Refusal};

/// The lines that a wrong command line is answered with.
pub const USAGE: &str = "\
usage: kohlenfloh shades K [PICTURE.ppm] [--limit N] [--jancey]
                  [--fixed SHADES] [--index FILE] [--palette FILE]
                  [--preview FILE] [--sheet FILE] [--csv FILE] [--json FILE]
       kohlenfloh shades --in-use N [PICTURE.ppm] [the same options]
`kohlenfloh --help` tells what these are";

/// What made the library, each by its name.
pub const MADE: [(&str, &str); 3] =
    [("toolchain", made::TOOLCHAIN), ("proof", made::PROOF), ("sources", made::SOURCES)];

/// The answer to --version.
pub fn version() -> String {
    let lines = [("kohlenfloh", made::VERSION)].into_iter().chain(MADE);
    lines.map(|(name, value)| format!("{name} {value}\n")).collect()
}

/// What each refusal means that a picture and its options can meet.
const REFUSALS: [(Refusal, &str); 9] = [
    (Refusal::Full { taken: 0 }, "more than 1,048,576 colours"),
    (Refusal::BadCount, "K is not 1 to 64, or not above the number of fixed shades"),
    (
        Refusal::FewColours,
        "the picture has fewer colours than K; with fixed shades,
      fewer that are unlike these than K leaves free",
    ),
    (Refusal::BadLimit, "N is above 200"),
    (Refusal::BadHeader { offset: 0 }, "no P6 header; the message says at which byte"),
    (
        Refusal::BadSize,
        "a side is not 1 to 16,384, or too many pixels; or the input
      is longer than 64 MiB, which is tested first",
    ),
    (Refusal::BadDepth, "the depth is not 255"),
    (Refusal::BadRaster, "the raster is shorter or longer than the sides say"),
    (Refusal::TwinShade { lower: 0, higher: 0 }, "two shades come out equal; the message says which"),
];

/// The answer to --help.
pub fn help() -> String {
    let row = |(refusal, means): (Refusal, &str)| format!("{:>4}  {}: {means}\n", refusal.number(), refusal.name());
    [BEFORE_REFUSALS, &REFUSALS.map(row).concat(), AFTER_REFUSALS].concat()
}

/// What --help answers before the refusals.
const BEFORE_REFUSALS: &str = "\
kohlenfloh - the shades of a drawing, and the pixels of each

usage: kohlenfloh shades K [PICTURE.ppm] [options]
       kohlenfloh shades --in-use N [PICTURE.ppm] [options]

Reduces a picture to K shades and prints the order sheet: for each shade its
number, its levels R, G and B, the pixels that have it, and its share. The
pixels are the yarn to be bought, and they sum to the picture's pixels. The
same picture and the same K give the same sheet every time: what is computed
comes from a library that is proved.

A shade can end without a pixel: the sheet says \"not used, buy nothing\". Of a
drawing of six yarns ask for --in-use 6, or for one shade more than it has
yarns: asked for as many shades as yarns, the method often joins two yarns in
one shade. Where the drawing's colours are exactly its yarns, one more is
refused by 5; an error of 0 on the sheet says then that every yarn has its
shade.

Of colours that lie close together two shades can come out equal. A sheet has
no two lines of one colour: the picture is refused by 18, and fewer shades are
to be asked for.

Yarn that is held can be fixed: with --fixed 1e3059,71473f the shades 0 and 1
are these two, and the others are looked for beside them. The sheet marks them
\"stock\".

  K              how many shades, 1 to 64
  PICTURE.ppm    a P6 picture, depth 255, at most 16,777,216 pixels with at most
                 1,048,576 colours; `-` or no name means standard input.
                 Comments before the depth, from # to the end of the line, are
                 passed over

Options
  --in-use N       in place of K: the smallest count of shades, from N on, whose
                   picture uses exactly N of them; a run is made for each count,
                   and one that leaves two equal shades is passed over. Fixed
                   shades are counted like others, so those without a pixel are
                   not in use
  --limit N        at most N rounds, 1 to 200; 0 means 100, as does no --limit
  --jancey         makes the run by Jancey's rule: shades step past the mean of
                   their group, nine fifths of the way, in place of moving to
                   it. Runs of both kinds end settled or at the limit, and can
                   find different shades; the sheet says which kind it was
  --fixed SHADES   shades from stock, which never move: six hexadecimal digits
                   RRGGBB each, with commas between them, 1 to 63. They are part
                   of K, have the lowest numbers in the order given, and keep
                   their levels, with pixels or without; one shade at least is
                   free. Not with --jancey
  --index FILE     the index picture, P5: each pixel's shade as its number
  --palette FILE   the shades as a P6 picture, 1 high, a pixel for each shade
  --preview FILE   the picture in its shades, P6
  --sheet FILE     the order sheet as a drawing, SVG
  --csv FILE       the order as a table, CSV
  --json FILE      the order and every figure of the sheet, JSON
  --help, -h       this text
  --version, -V    the program's version, and what made the library in it

A value follows its option, or stands behind it with =, as in --limit=3; with =
a file's name may begin with -. What follows -- is no option.

`-` as FILE means standard output. One output can go there, and then the order
sheet is not printed: standard output has that output alone.

Files are written only after everything was accepted, all of them or none. Each
one is written beside its place and then renamed, so a failure leaves every
former file whole, as does a signal (Ctrl-C). What is no regular file (a pipe,
a device) is written as it stands. An output that is the picture is refused, by
whatever name or link, and so are two outputs that are one file. A file that is
not writable is not replaced.

CSV has the line shade,red,green,blue,hex,pixels,share,used and then a line for
each shade: its number, its levels, these as # and six hexadecimal digits, the
pixels that have it, their share in percent, and whether there are any, yes or
no. JSON is one object with picture, width, height, pixels, colours, average
(an object with red, green, blue and hex), shades, in_use (the shades that have
pixels), wanted_in_use (as asked for, or null), limit (the one in force), jancey
(true or false), rounds, settled, distances (worked out in all rounds),
final_total, error, mean_square_error; order, a list with the columns of the CSV
for each shade, used being true or false; and made, which holds version,
toolchain, proof and sources. With --fixed there is a column more, stock:
whether the shade is fixed; and JSON has, before limit, fixed, a list of the
fixed shades as # and six hexadecimal digits.

On the order sheet, the average colour is that of the picture: in each channel
the level nearest to the mean of all pixels, halves up. The levels of a shade
are rounded alike, once, from the mean of the pixels whose colours the last
round put in its group; a fixed shade has its own. \"settled\" means that the
last round moved no shade that is free to move.
The error is the sum of squared level differences between the picture and its
shades, and the mean square error is the error divided by the pixels. Shares
and the mean square error are rounded to two digits by whole-number arithmetic,
halves up.

Exit status
   0  done
";

/// What --help answers after the refusals.
const AFTER_REFUSALS: &str = "  64  the command line is wrong
  65  no count of shades gives a picture that uses as many as --in-use wants
  66  the picture cannot be read
  70  the library refused by a number that has no name here
  73  an output cannot be written

Examples
  Six yarns of a rug, the sheet on the screen and as a drawing:
    kohlenfloh shades --in-use 6 rug.ppm --sheet rug.svg

  The same with a ground in blue yarn that is held:
    kohlenfloh shades --in-use 6 --fixed 1c2c5c rug.ppm

  A PNG by way of netpbm, with as many rounds as there can be:
    pngtopnm rug.png | kohlenfloh shades 12 --limit 200 --preview small.ppm

  The order for a spreadsheet, and nothing else on standard output:
    kohlenfloh shades --in-use 6 rug.ppm --csv - > rug.csv
";
