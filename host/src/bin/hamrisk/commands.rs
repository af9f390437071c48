//! The commands: what each takes, what is said of it, and what runs it.

use crate::args::{Args, Opt, Syntax};
use crate::failure::Failure;
use crate::{demo, layouts, pages, rows, strips};
use hamrisk::limits::{self, Served};

pub struct Command {
    pub syntax: Syntax,
    pub about: &'static str,
    /// What stands before the options in its help.
    pub notes: &'static str,
    pub run: fn(&Args) -> Result<(), Failure>,
}

const fn opt(name: &'static str, value: &'static str, about: &'static str) -> Opt {
    Opt { name, value, about, served: None }
}

/// An option that takes a number of these.
const fn number(name: &'static str, about: &'static str, served: Served) -> Opt {
    Opt { name, value: "N", about, served: Some(served) }
}

/// What a picture's columns and rows may be.
const SIDES: Served = Served::FromTo(1, limits::MOST_SIDE);

const STRIP: &[Opt] = &[
    opt("row-bytes", "N", "bytes of a row; required"),
    number("channels", "samples of a pixel, {}; required", limits::CHANNELS),
    number("width", "bytes of a sample: {}; required", limits::WIDTHS),
];

const PREDICT: &[Opt] = &[
    opt("predict", "", "each sample but a row's first pixel is stored less the one a pixel before it"),
    opt("no-predict", "", "samples are stored as they are; one of the two is required"),
];

const ORDERS: &[Opt] = &[
    opt("from", "le|be", "the byte order of IN: least (le) or most (be) significant byte first"),
    opt("to", "le|be", "the byte order of OUT; both are required if width is above 1"),
];

const LAYOUT: &[Opt] = &[
    number("w", "columns of the picture, {}; required", SIDES),
    number("h", "rows of the picture, {}; required", SIDES),
    number("ch", "channels of a pixel of the picture, {}; 1 if not given", limits::LAYOUT_CH),
    number("bytes", "bytes of a channel of the picture, {}; 1 if not given", limits::RENDERED_BYTES),
    number(
        "slots",
        "samples in a byte of the planes: 8 if bilevel, {} with a palette; 1 if not given",
        limits::LAYOUT_SLOTS,
    ),
    opt("palette", "", "the planes hold indices of colours; needs --ch 3"),
    opt("separate", "", "each channel stands in a plane of its own"),
    opt("le", "", "the planes and the palette have their least significant byte first"),
    opt(
        "be",
        "",
        "they have the most significant one first; one of the two is required if bytes is 2 or with a palette",
    ),
    opt("white", "", "0 is white; a palette ignores it"),
    opt(
        "alpha",
        "N",
        "0: none; 1: the last channel is alpha, the others are multiplied by it; 2: they are not; 0 if not given",
    ),
    opt("map", "N", "the byte of the palette's file at which the palette begins; 0 if not given"),
];

const PALETTE: &[Opt] =
    &[opt("file", "FILE", "the file that has the palette: all reds, greens, blues, two bytes each")];

const PNM: &[Opt] = &[opt("pnm", "", "write a PGM (grey) or a PPM (three colours) to look at, whatever OUT is called")];

/// What a picture is written as.
const FORMS: &str = "\
Channels of two bytes come out most significant byte first, in a .tif least. Colours that are multiplied
by alpha are divided by it again, to the nearest byte. An OUT called .tif or .tiff becomes a TIFF file, in
which bilevel stays so and a palette becomes colours; one called .pgm, .ppm, .pnm (either) or .pam gets a
header that viewers know; any other gets the bytes alone. A .tif and a .pam keep alpha, the others leave
it out.
";

const ROWS: &[Opt] = &[opt(
    "rows-per-strip",
    "N",
    "rows of a strip, 1 to h; as many as take 8192 bytes or fewer, but one at least, if not given",
)];

const PAGE: &[Opt] = &[number("page", "which page, {}; 0, the first, if not given", limits::PAGES)];

const STRIPS: &[Opt] = &[opt("strips", "", "a line for each strip too: its number, its place in FILE and its length")];

const TO: &[Opt] = &[opt("to", "le|be", "the byte order of OUT; required if samples have 16 bits")];

const MARKS: &[Opt] = &[opt("pgm", "", "write a PGM to look at, a pixel for each sample, white if marked")];

const SWAP: &[Opt] = &[number("width", "bytes of a group, {}; required", limits::SWAP_WIDTHS)];

const ROW: &[Opt] = &[number("row-bytes", "bytes of a row, {}; required", rows::ROW_BYTES)];

const LITERAL: &[Opt] = &[opt("literal", "", "all bytes as literals: one byte more for each 128 that a row begins")];

const DEMO: &[Opt] = &[opt("to", "DIR", "where the pictures go; hamrisk-demo in the temporary folder if not given")];

pub const COMMANDS: &[Command] = &[
    Command {
        syntax: Syntax { name: "info", files: &["FILE"], groups: &[PAGE, STRIPS] },
        about: "say what a page of the TIFF file FILE is, a line for each fact",
        notes:
            "Read are strips, not compressed or by PackBits: grey or red, green and blue, of 8 or 16 bits, with 8 bits\n\
                one alpha beside them; bilevel; palettes of 1, 4 or 8 bits; planes together or apart, predicted or not.\n\
                A page with a strip that is not sound is refused, but what its directory says is printed. Tags that\n\
                are not looked at, but give samples or rows another meaning, are named at the end.\n",
        run: pages::info,
    },
    Command {
        syntax: Syntax { name: "picture", files: &["FILE", "OUT"], groups: &[PAGE, PNM] },
        about: "write the picture of a page of the TIFF file FILE",
        notes: FORMS,
        run: pages::picture,
    },
    Command {
        syntax: Syntax { name: "samples", files: &["FILE", "OUT"], groups: &[PAGE, TO] },
        about: "write the samples of a page of the TIFF file FILE, compression and prediction undone",
        notes: "Planes come one after the other, each row by row. Samples of 1 or 4 bits stay packed in bytes,\n\
                and each row begins with a new byte.\n",
        run: pages::samples,
    },
    Command {
        syntax: Syntax { name: "convert", files: &["IN", "OUT"], groups: &[STRIP, PREDICT, ORDERS] },
        about: "read the samples of the strip IN, predicted or not, and write them to OUT",
        notes: "",
        run: strips::convert,
    },
    Command {
        syntax: Syntax { name: "stream", files: &[], groups: &[STRIP, PREDICT, ORDERS] },
        about: "read a strip as it arrives, as convert does, and write each sample once it is whole",
        notes:
            "IN is standard input, and OUT standard output. The memory that it takes does not grow with the strip,\n\
                which has at most 1073741824 bytes. That a strip does not end with a whole row is told at its end,\n\
                after all samples that are whole; so what was written before a refusal stays written.\n",
        run: strips::stream,
    },
    Command {
        syntax: Syntax { name: "forward", files: &["IN", "OUT"], groups: &[STRIP, PREDICT, ORDERS] },
        about: "write the words that convert reads back to the samples IN",
        notes: "",
        run: strips::forward,
    },
    Command {
        syntax: Syntax { name: "marks", files: &["DAMAGE", "OUT"], groups: &[STRIP, PREDICT, MARKS] },
        about: "mark the samples of a strip that its damaged bytes can change, and print how many",
        notes: "DAMAGE has a byte for each byte of the strip: 0 for sound, anything else for damaged.\n\
                OUT gets a byte for each sample: 1 if it is marked, else 0.\n",
        run: strips::marks,
    },
    Command {
        syntax: Syntax { name: "swap", files: &["IN", "OUT"], groups: &[SWAP] },
        about: "write each group of width bytes of IN backwards",
        notes: "",
        run: strips::swap,
    },
    Command {
        syntax: Syntax { name: "reverse", files: &["IN", "OUT"], groups: &[] },
        about: "write each byte of IN with its bits in the other order",
        notes: "",
        run: strips::reverse,
    },
    Command {
        syntax: Syntax { name: "pack", files: &["IN", "OUT"], groups: &[ROW, LITERAL] },
        about: "write the rows IN packed by PackBits, each on its own",
        notes: "IN has whole rows. Three equal bytes and more become repeats, the bytes between them literals. The\n\
                strips of a TIFF file of compression 32773 are such rows.\n",
        run: rows::pack,
    },
    Command {
        syntax: Syntax { name: "unpack", files: &["IN", "OUT"], groups: &[ROW] },
        about: "write the rows that IN has packed by PackBits, each on its own",
        notes: "Rows follow each other to the end of IN. A refusal names the row, the first being 0, and the bytes of\n\
                IN at which the row and its packet begin.\n",
        run: rows::unpack,
    },
    Command {
        syntax: Syntax { name: "render", files: &["IN", "OUT"], groups: &[LAYOUT, PALETTE, PNM] },
        about: "write the picture that the planes IN hold",
        notes: FORMS,
        run: layouts::render,
    },
    Command {
        syntax: Syntax { name: "planes", files: &["IN", "OUT"], groups: &[LAYOUT] },
        about: "write the planes whose rendering is the picture IN",
        notes: "Channels of two bytes are read most significant byte first, as render writes them.\n\
                Palettes and alpha 1 are not written. Padding bits are 0.\n",
        run: layouts::planes,
    },
    Command {
        syntax: Syntax { name: "wrap", files: &["PLANES", "OUT"], groups: &[LAYOUT, ROWS] },
        about: "write a TIFF file of one page, whose strips are PLANES as they are",
        notes: "The file is little-endian, and neither compressed nor predicted. Written are grey or red, green and\n\
                blue, of 8 or 16 bits, with 8 bits alpha 2 beside them, and bilevel; planes together or apart. A\n\
                palette, alpha 1, planes of be, and colours with white are not written.\n",
        run: layouts::wrap,
    },
    Command {
        syntax: Syntax { name: "demo", files: &[], groups: &[DEMO] },
        about: "show a shelf of depth samples, a lost packet, what a plain reader makes of it, and the marks",
        notes: "",
        run: demo::run,
    },
];
