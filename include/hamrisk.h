/*
 * Hamrisk, the sample layer of TIFF, for C and C++: `./hamrisk` has target/staticlib/libcapi.a written, for x86-64 Linux.
 *
 * Every call ends on any numbers and any bytes. It returns HAMRISK_DONE, or the number of its refusal: the first fault in the order
 * that stands at the call decides. A refusal writes nothing: buffers and lent numbers keep what they held, but for the state of
 * hamrisk_packets_start. A call that is done writes the stated bytes at the front of its output and leaves the bytes past them as
 * they were. Sums and products that a refusal speaks of are in whole numbers: none wraps. Each function is proved to meet its
 * promise, which crates/capi states.
 *
 * What the proof cannot see, and the caller owes:
 * - A pointer is not null, even with length 0, and stands for as many bytes as its length says: readable and initialised for
 *   the whole call, an output's too, and writable where it is not const.
 * - `value`, `count`, `place`, `length`, `written` and `used` point to one number, `derived` to seven, `state` to HAMRISK_PACKETS,
 *   `parts` to parts_len, `layout` to a hamrisk_layout and `found` to a hamrisk_page, aligned as their type.
 * - What a call writes overlaps nothing else that it is handed: `out`, `marks`, `planes`, `parts`, `state`, `found` and a `row`
 *   that is written no input, and a lent number no buffer and no other one.
 * - While the call runs nobody else writes what it reads, or touches what it writes.
 * - A bool is 0 or 1.
 */
#ifndef HAMRISK_H
#define HAMRISK_H

#include <stdbool.h>
#include <stddef.h>
#include <stdint.h>

#ifdef __cplusplus
extern "C" {
#endif

enum {
    HAMRISK_DONE = 0,
    HAMRISK_UNSUPPORTED = 1,      /* a width, channel count or mode not served */
    HAMRISK_INVALID = 2,          /* numbers that contradict each other, or forbidden content */
    HAMRISK_TRUNCATED = 3,        /* an input too short */
    HAMRISK_OUTPUT_TOO_SMALL = 4, /* an output buffer too short */
    HAMRISK_LIMIT = 5             /* a size above the limits of hamrisk_check_layout, _directory or _packets_piece */
};

/*
 * The word of `width` bytes at byte `at` of s, the first byte the least significant if `le`, else the most significant.
 * Refuses: width not 1, 2, 3, 4 or 8: 1; at + width past s_len: 3.
 * Writes: *value, the word.
 */
uint32_t hamrisk_read_word(const uint8_t *s, size_t s_len, size_t at, size_t width, bool le, uint64_t *value);

/*
 * Sample i of s, of two bytes if `wide`, else of one; it begins at byte i * 2, or i.
 * Refuses: (i + 1) * 2, or i + 1, past s_len: 3.
 * Writes: *value, the sample.
 */
uint32_t hamrisk_load(const uint8_t *s, size_t s_len, size_t i, bool wide, bool le, uint32_t *value);

/*
 * Whether a strip of raw_len bytes has rows of row_bytes bytes, and pixels of `channels` samples of `width` bytes.
 * Refuses: width not 1, 2, 3, 4 or 8, channels 0 or above 64, or row_bytes 0: 1;
 *          row_bytes no multiple of channels * width, or raw_len no multiple of row_bytes: 2.
 * Writes nothing.
 */
uint32_t hamrisk_check_strip(size_t raw_len, size_t row_bytes, size_t channels, size_t width);

/*
 * The samples of a strip. `le` is the byte order of raw, `out_le` that of out. With `predict` each sample but a row's first
 * `channels` is its word plus the sample `channels` before it, modulo 256^width; without, it is its word.
 * Refuses: as hamrisk_check_strip; out_len below raw_len: 4.
 * Writes: raw_len bytes of out.
 */
uint32_t hamrisk_convert(const uint8_t *raw, size_t raw_len, size_t row_bytes, size_t channels, size_t width, bool le,
                         bool predict, bool out_le, uint8_t *out, size_t out_len);

/*
 * Forward prediction, which hamrisk_convert undoes: with `predict` each word but a row's first `channels` is its sample less the
 * sample `channels` before it, modulo 256^width; without, it is its sample.
 * Refuses: as hamrisk_convert.
 * Writes: raw_len bytes of out.
 */
uint32_t hamrisk_forward(const uint8_t *raw, size_t raw_len, size_t row_bytes, size_t channels, size_t width, bool le,
                         bool predict, bool out_le, uint8_t *out, size_t out_len);

/*
 * Which samples of a strip the damaged bytes can change. `damage` has a byte for each byte of the strip: 0 for sound, anything
 * else for damaged; damage_len stands for the strip's length.
 * Refuses: as hamrisk_check_strip; marks_len below damage_len / width: 4.
 * Writes: damage_len / width bytes of marks, 1 for a marked sample and 0 for any other; *count, how many are marked.
 */
uint32_t hamrisk_marks(const uint8_t *damage, size_t damage_len, size_t row_bytes, size_t channels, size_t width, bool predict,
                       uint8_t *marks, size_t marks_len, size_t *count);

/*
 * A strip that arrives in pieces: hamrisk_packets_start, then hamrisk_packets_piece for each piece, then hamrisk_packets_close.
 * Pieces have any length, 0 too, and split rows and words anywhere. What they wrote, put end to end, is what hamrisk_convert
 * writes of the whole strip once it closes, and the whole samples so far while it is open. Between the calls the caller keeps the
 * state, and may copy it and go on from a copy. Its numbers are the library's: changed ones are refused if no start and pieces
 * lead to them.
 */
enum { HAMRISK_PACKETS = 80 }; /* numbers of a state */

/*
 * The state of a strip of which nothing has come; the numbers and flags are those of hamrisk_convert.
 * Refuses: as hamrisk_check_strip with raw_len 0. A refusal sets all numbers of state to 0, to which no start and pieces lead.
 * Writes: all numbers of state.
 */
uint32_t hamrisk_packets_start(size_t row_bytes, size_t channels, size_t width, bool le, bool predict, bool out_le,
                               uint64_t *state);

/*
 * The samples that the next bytes of the strip complete, in the order out_le. They take at most piece_len + 7 bytes.
 * Refuses: a state to which no start and pieces lead: 2; a strip above 1073741824 bytes with this piece: 5;
 *          out_len below the bytes of the samples: 4.
 * Writes: the samples, at the front of out; *written, their bytes; state, that after the piece.
 */
uint32_t hamrisk_packets_piece(uint64_t *state, const uint8_t *piece, size_t piece_len, uint8_t *out, size_t out_len,
                               size_t *written);

/*
 * Whether the strip may end here: whole rows have come, or nothing.
 * Refuses: a state to which no start and pieces lead, or bytes so far no multiple of row_bytes: 2.
 * Writes nothing: the strip may go on.
 */
uint32_t hamrisk_packets_close(const uint64_t *state);

/*
 * Bit i of every byte goes to bit 7 - i.
 * Refuses nothing.
 * Writes: all s_len bytes of s, in place.
 */
void hamrisk_reverse_bits(uint8_t *s, size_t s_len);

/*
 * Each group of `width` bytes backwards.
 * Refuses: width 0 or above 8: 1; raw_len no multiple of width: 2; out_len below raw_len: 4.
 * Writes: raw_len bytes of out.
 */
uint32_t hamrisk_swap_components(const uint8_t *raw, size_t raw_len, size_t width, uint8_t *out, size_t out_len);

/*
 * A copy of source.
 * Refuses: out_len below source_len: 4.
 * Writes: source_len bytes of out.
 */
uint32_t hamrisk_commit(const uint8_t *source, size_t source_len, uint8_t *out, size_t out_len);

/*
 * A row of PackBits. A packet's first byte is n: 0 to 127, and the next n + 1 bytes are the row's next ones; 129 to 255, and the
 * next byte is, 257 - n times; 128, and nothing is. Reading stops once the row is full: no bytes are read for a row of none.
 * Refuses, packet by packet: its first byte not in packed: 3; more bytes than are left of the row, all there or not: 2; its
 *          other bytes not all in packed: 3.
 * Writes: row_len bytes of row; *used, the bytes of packed that were read.
 */
uint32_t hamrisk_unpack_row(const uint8_t *packed, size_t packed_len, uint8_t *row, size_t row_len, size_t *used);

/*
 * A row as packets of a plan, which hamrisk_unpack_row reads back: packet k has the row's next lengths[k] bytes, as a literal
 * (kinds[k] 0, one byte more than these) or as a repeat (kinds[k] 1, two bytes).
 * Refuses: kinds_len not lengths_len: 2; a kind neither 0 nor 1, a literal not of 1 to 128 bytes, a repeat not of 2 to 128 or of
 *          bytes that are not all equal, lengths whose sum is not row_len: 2; out_len below the bytes of the packets: 4.
 * Writes: the packets, at the front of out; *length, their bytes.
 */
uint32_t hamrisk_write_plan_lists(const uint8_t *row, size_t row_len, const uint8_t *kinds, size_t kinds_len,
                                  const uint8_t *lengths, size_t lengths_len, uint8_t *out, size_t out_len, size_t *length);

/* The same, with a kind and a length for each of so many packets. */
static inline uint32_t hamrisk_write_plan(const uint8_t *row, size_t row_len, const uint8_t *kinds, const uint8_t *lengths,
                                          size_t packets, uint8_t *out, size_t out_len, size_t *length) {
    return hamrisk_write_plan_lists(row, row_len, kinds, packets, lengths, packets, out, out_len, length);
}

/*
 * A row as literals of 128 bytes and a shorter last one, which hamrisk_unpack_row reads back.
 * Refuses: out_len below row_len + row_len / 128, rounded up: 4.
 * Writes: the packets, at the front of out; *length, their bytes.
 */
uint32_t hamrisk_pack_row(const uint8_t *row, size_t row_len, uint8_t *out, size_t out_len, size_t *length);

/*
 * A picture, and how its planes hold it. palette, separate, le and white are 0 or 1.
 */
typedef struct hamrisk_layout {
    size_t w, h;      /* columns and rows of the picture */
    size_t ch, bytes; /* channels of a pixel, and bytes of a channel, as they are rendered */
    size_t slots;     /* samples in a byte of the planes: 8 in a bilevel picture, 1, 2 or 8 with a palette, else 1 */
    size_t palette;   /* the planes hold indices of colours */
    size_t separate;  /* each channel stands in a plane of its own */
    size_t le;        /* the byte order of the planes, and of the palette: 1 for least significant byte first */
    size_t white;     /* 0 is white; a palette ignores it */
    size_t alpha;     /* 0: none; 1: the last channel is alpha and the others are multiplied by it; 2: it is, and they are not */
    size_t map;       /* the byte of `file` at which the palette begins: all reds, then greens, then blues, two bytes each */
} hamrisk_layout;

/*
 * Checks a layout and gives what follows from it.
 * Refuses: bytes not 1, 2 or 8, ch not 1 to 4, slots not 1, 2 or 8, alpha above 2, or palette, separate, le or white above 1: 1;
 *          w or h 0: 2;
 *          bytes 8 with white, palette, alpha, slots not 1, or ch neither 1 nor 3: 2;
 *          alpha with bytes not 1, ch neither 2 nor 4, or palette: 2;
 *          palette with ch not 3, bytes not 1, separate, or alpha: 2;
 *          without palette slots not 1, unless slots is 8, ch and bytes 1 and alpha 0: 2;
 *          w or h above 16384, or w * h * ch * bytes above 1073741824: 5. map is no reason to refuse.
 * Writes: derived[0] encoded width, the places in a row of a plane: pixels, or bytes that hold several samples;
 *         [1] plane channels, the bytes at a place; [2] planes; [3] plane length, the bytes of a plane;
 *         [4] scratch length, the bytes of all planes; [5] output length, the bytes of the picture; [6] colours of a palette.
 */
uint32_t hamrisk_check_layout(const hamrisk_layout *layout, size_t *derived);

/*
 * Which byte of the planes byte k of the picture comes from.
 * Refuses: as hamrisk_check_layout; k at or past the output length: 2.
 * Writes: *place, below the scratch length.
 */
uint32_t hamrisk_index(const hamrisk_layout *layout, size_t k, size_t *place);

/*
 * The picture that the planes `raw` hold. `file` has the palette, and is not read without one. With alpha 1 a colour u beside
 * alpha a is divided by it again: 255 * u / a to the nearest whole number, halves upward, at most 255, and 0 if a is 0.
 * Refuses: as hamrisk_check_layout; bytes 8: 1; with palette map + 6 * colours past file_len: 3;
 *          raw_len below the scratch length: 3; out_len below the output length: 4.
 * Writes: output length bytes of out.
 */
uint32_t hamrisk_render(const hamrisk_layout *layout, const uint8_t *file, size_t file_len, const uint8_t *raw, size_t raw_len,
                        uint8_t *out, size_t out_len);

/*
 * The planes whose rendering is `picture`; padding bits are 0.
 * Refuses: as hamrisk_check_layout; palette, bytes 8 or alpha 1: 1; picture_len below the output length: 3;
 *          planes_len below the scratch length: 4; with slots 8 one of the output length bytes neither 0 nor 255: 2.
 * Writes: scratch length bytes of planes.
 */
uint32_t hamrisk_write_planes(const hamrisk_layout *layout, const uint8_t *picture, size_t picture_len, uint8_t *planes,
                              size_t planes_len);

/*
 * A page of a TIFF file. Its strips end to end are planes that hamrisk_render takes with this layout and this file. With
 * compression each row of a strip goes through hamrisk_unpack_row first; predicted planes then go through hamrisk_convert, strip by
 * strip or all at once: rows of derived[0] * derived[1] bytes, channels derived[1] / layout.bytes, width layout.bytes.
 */
typedef struct hamrisk_page {
    hamrisk_layout layout;
    size_t derived[7];  /* what follows from the layout, as hamrisk_check_layout gives it */
    size_t predictor;   /* 1: samples are stored as they are; 2: predicted */
    size_t strips;      /* how many strips it has */
    size_t compression; /* 1: none; 32773: PackBits, each row on its own */
} hamrisk_page;

/*
 * Page `page` of the TIFF file, the first being 0. `file` is the whole file; places in it are counted from its first byte.
 * Refuses, the first fault in this order:
 *  1. The file. page above 15: 5; file_len below 8: 3; bytes 0 and 1 not "II" (least significant byte first from here on) or "MM"
 *     (most significant first), or the two-byte word at byte 2 not 42: 2.
 *  2. Each directory on the way, that of the page too. It stands where a four-byte word says, that at byte 4 or that at the end
 *     of the directory before: a two-byte count, so many entries of twelve bytes, a four-byte word. An entry is a two-byte tag, a
 *     two-byte type (3 SHORT, of two bytes; 4 LONG, of four), a four-byte count and four bytes: the values from the front, if all
 *     take four bytes or fewer, else the place of the values.
 *     A place of 0, a page that is not there: 2; the count not in the file: 3; a count above 64: 5; the entries or the word after
 *     them not in the file: 3; tags not strictly ascending: 2.
 *  3. Each of these tags of the page, in this order; others are not looked at: bits, rows and samples are taken as if 266
 *     (FillOrder), 274 (Orientation) and 339 (SampleFormat) were 1.
 *       tag                        type           count     default  served values
 *       256 columns                SHORT or LONG  1         none     all
 *       257 rows                   SHORT or LONG  1         none     all
 *       258 bits of each sample    SHORT          not 0     one, 1   all the same: 1, 4, 8 or 16
 *       259 compression            SHORT          1         1        1 none; 32773 PackBits
 *       262 colours                SHORT          1         none     0 grey, 0 is white; 1 grey, 0 is black; 2 three; 3 palette
 *       273 places of strips       SHORT or LONG  not 0     none     all
 *       277 samples of a pixel     SHORT          1         1        all
 *       278 rows of a strip        SHORT or LONG  1         2^32-1   all but 0
 *       279 bytes of each strip    SHORT or LONG  not 0     none     all
 *       284 planes                 SHORT          1         1        1 together; 2 a plane for each sample
 *       317 predictor              SHORT          1         1        1; 2 if bits are 8 or 16
 *       320 palette                SHORT          not 0     none     all; looked at with a palette alone
 *       338 extra sample           SHORT          1         nothing  1 alpha, the others multiplied by it; 2 alpha, they are not
 *     For each: missing without a default (else it counts as there, with that value): 2; another type: 2; another count: 2; values
 *     not in the file: 3; a value that is not served: 1, but 278 of 0: 2; then, with lower tags:
 *       277 not the count of 258, or neither the samples that 262 has (3 if 262 is 2, else 1) nor one more: 2;
 *       279's count not that of 273: 2;
 *       at 284, 273's count not the number of strips, rows / rows of a strip, rounded up, times 277 if 284 is 2: 2;
 *       320's count not 3 * 2^bits: 2;
 *       at 338, also where it is missing, 277 not the samples that 262 has, plus one if 338 is there: 2.
 *  4. As hamrisk_check_layout of: w 256; h 257; ch 3 with a palette, else 277; bytes 2 if bits are 16, else 1; slots 8 if bits
 *     are 1, 2 if they are 4, else 1; palette; separate if 284 is 2; le if "II"; white if 262 is 0; alpha 338, or 0; map where the
 *     values of 320 stand, or 0.
 *  5. Each strip, by its number. It has 278's rows, or those that are left for the last of a plane. Without compression its bytes
 *     not its rows * the bytes of a row: 2. place + bytes past file_len: 3. With compression as hamrisk_unpack_row of each of its
 *     rows, one after the other; bytes left over behind the last: 2.
 * Writes: *found, whose strips are all in the file; their rows together are the scratch length.
 */
uint32_t hamrisk_directory(const uint8_t *file, size_t file_len, size_t page, hamrisk_page *found);

/*
 * Where strip k of a page stands. With planes apart the strips of the first plane come first, then those of the next.
 * Refuses: 1 to 4 of hamrisk_directory; k not below the number of strips: 2; 5 of hamrisk_directory, of this strip alone.
 *          So the sound strips of a file that lost its end are still found.
 * Writes: *place, the strip's first byte in file; *length, its bytes there.
 */
uint32_t hamrisk_strip(const uint8_t *file, size_t file_len, size_t page, size_t k, size_t *place, size_t *length);

/*
 * Where all strips of a page stand, in one call.
 * Refuses: as hamrisk_directory; parts_len below 2 * strips: 4.
 * Writes: 2 * strips numbers of parts: parts[2 * k] the first byte of strip k, parts[2 * k + 1] its bytes.
 */
uint32_t hamrisk_strips(const uint8_t *file, size_t file_len, size_t page, size_t *parts, size_t parts_len);

/*
 * The bytes of the file that hamrisk_write_file writes.
 * Refuses: as hamrisk_check_layout; le 0, palette, bytes 8, ch 2 or 4 without alpha 2, or ch 3 or 4 with white: 1;
 *          rows_per_strip 0 or above h: 2.
 * Writes: *length, below 2^32.
 */
uint32_t hamrisk_file_length(const hamrisk_layout *layout, size_t rows_per_strip, size_t *length);

/*
 * A TIFF file of one page, little-endian, not compressed and not predicted, whose strips are the planes as they are, with
 * rows_per_strip rows in each, fewer in the last of a plane. hamrisk_directory reads this layout back from it, with map 0.
 * Refuses: as hamrisk_file_length; planes_len below the scratch length: 3; out_len below the file's length: 4.
 * Writes: the file, at the front of out; *length, its bytes.
 */
uint32_t hamrisk_write_file(const hamrisk_layout *layout, size_t rows_per_strip, const uint8_t *planes, size_t planes_len,
                            uint8_t *out, size_t out_len, size_t *length);

#ifdef __cplusplus
}
#endif

#endif
