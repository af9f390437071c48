/*
 * The cases A, C, D, E, F, I, J and L of docs/RULES.md, A in pieces too, three-byte words, PackBits rows, a small TIFF file read,
 * packed and not, and one written, and some refusals, through include/hamrisk.h. Prints a line for each check that differs and one of counts; ends
 * with 1 if any differs.
 */
#include "hamrisk.h"

#include <stdio.h>
#include <string.h>

/* What an output holds before a call, so that a byte written past the stated ones shows. */
enum { CANARY = 0xC5, ROOM = 32 };

static int checks = 0;
static int differ = 0;

static void check(const char *what, bool holds) {
    checks += 1;
    if (!holds) {
        differ += 1;
        printf("differs: %s\n", what);
    }
}

static void clear(uint8_t *out) {
    memset(out, CANARY, ROOM);
}

/* Whether out begins with the expected bytes, and the rest is as it was. */
static bool holds(const uint8_t *out, const uint8_t *expected, size_t length) {
    for (size_t k = length; k < ROOM; k += 1) {
        if (out[k] != CANARY) {
            return false;
        }
    }
    return memcmp(out, expected, length) == 0;
}

/* A row of three-byte words, the least significant byte first, and its samples, the most significant first. */
static const uint8_t depth[9] = {0xFF, 0xFF, 0xFF, 0x02, 0x00, 0x00, 0xFE, 0xFF, 0xFF};
static const uint8_t depths[9] = {0xFF, 0xFF, 0xFF, 0x00, 0x00, 0x01, 0xFF, 0xFF, 0xFF};

static void samples(void) {
    const uint8_t a_raw[6] = {0x01, 0x00, 0x02, 0x00, 0xFF, 0xFF};
    const uint8_t a_out[6] = {0x00, 0x01, 0x00, 0x03, 0x00, 0x02};
    const uint8_t c_raw[4] = {5, 251, 7, 1};
    const uint8_t c_out[4] = {5, 0, 7, 8};
    uint8_t out[ROOM];

    clear(out);
    check("A", hamrisk_convert(a_raw, 6, 6, 1, 2, true, true, false, out, ROOM) == HAMRISK_DONE && holds(out, a_out, 6));
    clear(out);
    check("C", hamrisk_convert(c_raw, 4, 2, 1, 1, true, true, true, out, 4) == HAMRISK_DONE && holds(out, c_out, 4));
    clear(out);
    check("D", hamrisk_forward(c_out, 4, 2, 1, 1, true, true, true, out, 4) == HAMRISK_DONE && holds(out, c_raw, 4));

    clear(out);
    check("three bytes, a sum past the greatest",
          hamrisk_convert(depth, 9, 9, 1, 3, true, true, false, out, ROOM) == HAMRISK_DONE && holds(out, depths, 9));
    clear(out);
    check("a difference below 0",
          hamrisk_forward(depths, 9, 9, 1, 3, false, true, true, out, ROOM) == HAMRISK_DONE && holds(out, depth, 9));

    clear(out);
    check("width 5 and a ragged row",
          hamrisk_convert(a_raw, 6, 7, 1, 5, true, true, true, out, 0) == HAMRISK_UNSUPPORTED && holds(out, NULL, 0));
    check("a ragged row of width 3",
          hamrisk_convert(a_raw, 6, 7, 1, 3, true, true, true, out, 0) == HAMRISK_INVALID && holds(out, NULL, 0));
    check("a ragged row and a short output",
          hamrisk_convert(a_raw, 6, 5, 1, 2, true, true, true, out, 0) == HAMRISK_INVALID && holds(out, NULL, 0));
    check("a short output",
          hamrisk_convert(a_raw, 6, 6, 1, 2, true, true, true, out, 5) == HAMRISK_OUTPUT_TOO_SMALL && holds(out, NULL, 0));
    check("64 channels", hamrisk_check_strip(128, 64, 64, 1) == HAMRISK_DONE);
    check("65 channels", hamrisk_check_strip(130, 65, 65, 1) == HAMRISK_UNSUPPORTED);
}

/* A strip of three-byte words, one byte after the other. */
static void packets_of_three(void) {
    uint64_t state[HAMRISK_PACKETS];
    uint8_t out[ROOM];
    size_t done = 0, written = 77;

    clear(out);
    check("packets of width 3", hamrisk_packets_start(9, 1, 3, true, true, false, state) == HAMRISK_DONE);
    for (size_t n = 0; n < 9; n += 1) {
        check("a byte of three", hamrisk_packets_piece(state, depth + n, 1, out + done, ROOM - done, &written) == HAMRISK_DONE
                                     && written == (n % 3 == 2 ? 3 : 0));
        done += written;
    }
    check("the last of three", holds(out, depths, 9) && hamrisk_packets_close(state) == HAMRISK_DONE);
}

/* The strip of A, in four pieces that split its words. */
static void packets(void) {
    const uint8_t raw[6] = {0x01, 0x00, 0x02, 0x00, 0xFF, 0xFF};
    const uint8_t samples[6] = {0x00, 0x01, 0x00, 0x03, 0x00, 0x02};
    uint64_t state[HAMRISK_PACKETS], before[HAMRISK_PACKETS];
    uint8_t out[ROOM];
    size_t first = 77, written = 77;

    memset(state, CANARY, sizeof state);
    check("packets of width 5", hamrisk_packets_start(6, 1, 5, true, true, false, state) == HAMRISK_UNSUPPORTED
                                    && state[0] == 0 && state[HAMRISK_PACKETS - 1] == 0
                                    && hamrisk_packets_close(state) == HAMRISK_INVALID);
    check("packets", hamrisk_packets_start(6, 1, 2, true, true, false, state) == HAMRISK_DONE
                         && hamrisk_packets_close(state) == HAMRISK_DONE);
    clear(out);
    check("half a sample", hamrisk_packets_piece(state, raw, 1, out, 0, &written) == HAMRISK_DONE && written == 0);
    check("an open strip", hamrisk_packets_close(state) == HAMRISK_INVALID);
    memcpy(before, state, sizeof state);
    written = 77;
    check("no room", hamrisk_packets_piece(state, raw + 1, 3, out, 3, &written) == HAMRISK_OUTPUT_TOO_SMALL && written == 77
                         && memcmp(state, before, sizeof state) == 0 && holds(out, NULL, 0));
    check("two samples", hamrisk_packets_piece(state, raw + 1, 3, out, 4, &first) == HAMRISK_DONE && first == 4
                             && hamrisk_packets_piece(state, raw, 0, out, 0, &written) == HAMRISK_DONE && written == 0);
    check("the last one", hamrisk_packets_piece(state, raw + 4, 2, out + first, ROOM - first, &written) == HAMRISK_DONE
                              && written == 2 && holds(out, samples, 6) && hamrisk_packets_close(state) == HAMRISK_DONE);
    memset(state, CANARY, sizeof state);
    check("a changed state", hamrisk_packets_piece(state, raw, 0, out, ROOM, &written) == HAMRISK_INVALID && written == 2
                                 && hamrisk_packets_close(state) == HAMRISK_INVALID);
}

static void bytes(void) {
    const uint8_t raw[6] = {1, 2, 3, 4, 5, 6};
    const uint8_t swapped[6] = {3, 2, 1, 6, 5, 4};
    const uint8_t reversed[2] = {128, 10};
    uint8_t out[ROOM];
    uint64_t word = 77;
    uint32_t sample = 77;

    clear(out);
    out[0] = 1;
    out[1] = 80;
    hamrisk_reverse_bits(out, 2);
    check("E", holds(out, reversed, 2));
    clear(out);
    check("F", hamrisk_swap_components(raw, 6, 3, out, 6) == HAMRISK_DONE && holds(out, swapped, 6));
    clear(out);
    check("a copy", hamrisk_commit(raw, 6, out, 6) == HAMRISK_DONE && holds(out, raw, 6));

    check("a place that would wrap", hamrisk_read_word(raw, 6, SIZE_MAX, 2, true, &word) == HAMRISK_TRUNCATED && word == 77);
    check("three bytes", hamrisk_read_word(raw, 6, 3, 3, true, &word) == HAMRISK_DONE && word == 0x060504
                             && hamrisk_read_word(raw, 6, 3, 3, false, &word) == HAMRISK_DONE && word == 0x040506);
    check("a word", hamrisk_read_word(raw, 6, 2, 4, false, &word) == HAMRISK_DONE && word == 0x03040506);
    check("a sample past the end", hamrisk_load(raw, 6, 3, true, true, &sample) == HAMRISK_TRUNCATED && sample == 77);
    check("a sample", hamrisk_load(raw, 6, 2, true, true, &sample) == HAMRISK_DONE && sample == 0x0605);
}

static void packed_rows(void) {
    const uint8_t packed[8] = {1, 7, 8, 128, 254, 9, 0, 5};
    const uint8_t row[5] = {7, 8, 9, 9, 9};
    const uint8_t kinds[2] = {0, 1}, lengths[2] = {2, 3}, third[2] = {0, 2};
    const uint8_t by_plan[5] = {1, 7, 8, 254, 9};
    const uint8_t as_literals[6] = {4, 7, 8, 9, 9, 9};
    uint8_t out[ROOM];
    size_t number = 77;

    clear(out);
    check("a packet past the row, whole or cut", hamrisk_unpack_row(packed, 8, out, 4, &number) == HAMRISK_INVALID
                                                     && hamrisk_unpack_row(packed, 5, out, 4, &number) == HAMRISK_INVALID
                                                     && holds(out, out, 0) && number == 77);
    check("packets that end early", hamrisk_unpack_row(packed, 5, out, 5, &number) == HAMRISK_TRUNCATED
                                        && hamrisk_unpack_row(packed, 4, out, 5, &number) == HAMRISK_TRUNCATED
                                        && holds(out, out, 0) && number == 77);
    check("a row of packets",
          hamrisk_unpack_row(packed, 8, out, 5, &number) == HAMRISK_DONE && holds(out, row, 5) && number == 6);
    check("a row of none", hamrisk_unpack_row(packed, 8, out, 0, &number) == HAMRISK_DONE && holds(out, row, 5) && number == 0);

    clear(out);
    number = 77;
    check("a kind of 2, unequal bytes, too few packets",
          hamrisk_write_plan(row, 5, third, lengths, 2, out, ROOM, &number) == HAMRISK_INVALID
              && hamrisk_write_plan(row, 5, kinds + 1, lengths, 1, out, ROOM, &number) == HAMRISK_INVALID
              && hamrisk_write_plan(row, 5, kinds, lengths, 1, out, 0, &number) == HAMRISK_INVALID && holds(out, out, 0)
              && number == 77);
    check("a plan without room", hamrisk_write_plan(row, 5, kinds, lengths, 2, out, 4, &number) == HAMRISK_OUTPUT_TOO_SMALL
                                     && holds(out, out, 0) && number == 77);
    check("a plan", hamrisk_write_plan(row, 5, kinds, lengths, 2, out, ROOM, &number) == HAMRISK_DONE && holds(out, by_plan, 5)
                        && number == 5);

    clear(out);
    number = 77;
    check("literals without room",
          hamrisk_pack_row(row, 5, out, 5, &number) == HAMRISK_OUTPUT_TOO_SMALL && holds(out, out, 0) && number == 77);
    check("literals",
          hamrisk_pack_row(row, 5, out, ROOM, &number) == HAMRISK_DONE && holds(out, as_literals, 6) && number == 6);
}

static void damage(void) {
    const uint8_t predicted[8] = {0, 1, 1, 1, 0, 0, 0, 0};
    const uint8_t unpredicted[8] = {0, 1, 0, 0, 0, 0, 0, 0};
    const uint8_t two_channels[8] = {0, 1, 0, 1, 0, 0, 0, 0};
    uint8_t map[16] = {0};
    uint8_t out[ROOM];
    size_t count = 77;

    map[3] = 1;
    clear(out);
    check("L, short marks", hamrisk_marks(map, 16, 8, 1, 2, true, out, 7, &count) == HAMRISK_OUTPUT_TOO_SMALL
                                && count == 77 && holds(out, NULL, 0));
    check("L, predicted", hamrisk_marks(map, 16, 8, 1, 2, true, out, ROOM, &count) == HAMRISK_DONE && count == 3
                              && holds(out, predicted, 8));
    clear(out);
    check("L, unpredicted", hamrisk_marks(map, 16, 8, 1, 2, false, out, 8, &count) == HAMRISK_DONE && count == 1
                                && holds(out, unpredicted, 8));
    clear(out);
    check("L, 2 channels", hamrisk_marks(map, 16, 8, 2, 2, true, out, 8, &count) == HAMRISK_DONE && count == 2
                               && holds(out, two_channels, 8));
}

static void pictures(void) {
    const uint8_t planes[6] = {1, 2, 3, 4, 5, 6};
    const uint8_t picture[6] = {1, 3, 5, 2, 4, 6};
    const uint8_t j_raw[2] = {0x34, 0x12};
    const uint8_t j_out[2] = {0x12, 0x34};
    const uint8_t grey[1] = {7};
    uint8_t out[ROOM];
    size_t derived[7] = {77, 77, 77, 77, 77, 77, 77};
    size_t place = 77;

    const hamrisk_layout apart = {.w = 2, .h = 1, .ch = 3, .bytes = 1, .slots = 1, .separate = 1};
    const hamrisk_layout word = {.w = 1, .h = 1, .ch = 1, .bytes = 2, .slots = 1, .le = 1};
    const hamrisk_layout indexed = {.w = 1, .h = 1, .ch = 3, .bytes = 1, .slots = 8, .palette = 1, .map = SIZE_MAX};
    const hamrisk_layout bilevel = {.w = 9, .h = 2, .ch = 1, .bytes = 1, .slots = 8};
    const hamrisk_layout dot = {.w = 1, .h = 1, .ch = 1, .bytes = 1, .slots = 8};
    const hamrisk_layout wide = {.w = 16385, .h = 1, .ch = 1, .bytes = 1, .slots = 1};
    const hamrisk_layout flag = {.w = 0, .h = 1, .ch = 1, .bytes = 1, .slots = 1, .white = 2};

    clear(out);
    check("I", hamrisk_render(&apart, planes, 0, planes, 6, out, ROOM) == HAMRISK_DONE && holds(out, picture, 6));
    clear(out);
    check("I, written", hamrisk_write_planes(&apart, picture, 6, out, 6) == HAMRISK_DONE && holds(out, planes, 6));
    clear(out);
    check("J", hamrisk_render(&word, planes, 0, j_raw, 2, out, 2) == HAMRISK_DONE && holds(out, j_out, 2));

    clear(out);
    check("a palette past the file",
          hamrisk_render(&indexed, planes, 6, planes, 6, out, ROOM) == HAMRISK_TRUNCATED && holds(out, NULL, 0));
    check("a bilevel 7", hamrisk_write_planes(&dot, grey, 1, out, 1) == HAMRISK_INVALID && holds(out, NULL, 0));
    check("a flag of 2, before w 0", hamrisk_render(&flag, planes, 6, planes, 6, out, ROOM) == HAMRISK_UNSUPPORTED
                                         && hamrisk_write_planes(&flag, grey, 1, out, 1) == HAMRISK_UNSUPPORTED
                                         && hamrisk_index(&flag, 0, &place) == HAMRISK_UNSUPPORTED
                                         && hamrisk_check_layout(&flag, derived) == HAMRISK_UNSUPPORTED
                                         && holds(out, NULL, 0) && place == 77 && derived[0] == 77);
    check("w 16385",
          hamrisk_check_layout(&wide, derived) == HAMRISK_LIMIT && derived[0] == 77 && derived[6] == 77);
    check("w 9, bilevel", hamrisk_check_layout(&bilevel, derived) == HAMRISK_DONE && derived[0] == 2 && derived[4] == 4
                              && derived[5] == 18 && derived[6] == 2);
    check("past the picture", hamrisk_index(&apart, 6, &place) == HAMRISK_INVALID && place == 77);
    check("its second byte", hamrisk_index(&apart, 1, &place) == HAMRISK_DONE && place == 2);
}

/* Bytes of the file that `make_file` writes: header, a directory of nine entries, values of two tags, two strips. */
enum { DIRECTORY = 8, VALUES = DIRECTORY + 2 + 9 * 12 + 4, FIRST = VALUES + 16, FILE_LEN = FIRST + 8 };

static void put(uint8_t *at, size_t size, uint32_t value) {
    for (size_t k = size; k > 0; k -= 1) {
        at[k - 1] = (uint8_t)value;
        value >>= 8;
    }
}

/* Grey of 16 bits, two columns and two rows, most significant byte first, predicted, a strip for each row. */
static void make_file(uint8_t *file) {
    static const uint32_t tags[9][4] = {
        {256, 3, 1, 2}, {257, 3, 1, 2}, {258, 3, 1, 16}, {262, 3, 1, 1}, {273, 4, 2, VALUES},
        {277, 3, 1, 1}, {278, 3, 1, 1}, {279, 4, 2, VALUES + 8}, {317, 3, 1, 2},
    };
    static const uint8_t header[8] = {'M', 'M', 0, 42, 0, 0, 0, DIRECTORY};
    static const uint8_t strips[8] = {0x01, 0x02, 0x00, 0x01, 0x03, 0x04, 0xFF, 0xFF};

    memset(file, 0, FILE_LEN);
    memcpy(file, header, 8);
    put(file + DIRECTORY, 2, 9);
    for (size_t k = 0; k < 9; k += 1) {
        uint8_t *entry = file + DIRECTORY + 2 + 12 * k;
        put(entry, 2, tags[k][0]);
        put(entry + 2, 2, tags[k][1]);
        put(entry + 4, 4, tags[k][2]);
        put(entry + 8, tags[k][1] == 3 ? 2 : 4, tags[k][3]);
    }
    for (uint32_t k = 0; k < 2; k += 1) {
        put(file + VALUES + 4 * k, 4, FIRST + 4 * k);
        put(file + VALUES + 8 + 4 * k, 4, 4);
    }
    memcpy(file + FIRST, strips, 8);
}

static void pages(const uint8_t *file, hamrisk_page *found) {
    hamrisk_page before;

    memset(found, CANARY, sizeof *found);
    before = *found;
    check("21 numbers of a page", sizeof *found == 21 * sizeof(size_t));
    check("a page that is not there", hamrisk_directory(file, FILE_LEN, 1, found) == HAMRISK_INVALID
                                          && memcmp(found, &before, sizeof before) == 0);
    check("page 16",
          hamrisk_directory(file, FILE_LEN, 16, found) == HAMRISK_LIMIT && memcmp(found, &before, sizeof before) == 0);
    check("a file that lost its end", hamrisk_directory(file, FILE_LEN - 1, 0, found) == HAMRISK_TRUNCATED
                                          && memcmp(found, &before, sizeof before) == 0);
    check("a page", hamrisk_directory(file, FILE_LEN, 0, found) == HAMRISK_DONE && found->layout.w == 2 && found->layout.h == 2
                        && found->layout.ch == 1 && found->layout.bytes == 2 && found->layout.slots == 1
                        && found->layout.le == 0 && found->derived[0] == 2 && found->derived[1] == 2 && found->derived[4] == 8
                        && found->derived[5] == 8 && found->predictor == 2 && found->strips == 2
                        && found->compression == 1);
}

static void strips(const uint8_t *file) {
    const size_t places[4] = {FIRST, 4, FIRST + 4, 4};
    size_t parts[4] = {77, 77, 77, 77};
    size_t place = 77, length = 77;

    check("a strip past the end", hamrisk_strip(file, FILE_LEN - 1, 0, 1, &place, &length) == HAMRISK_TRUNCATED && place == 77
                                      && length == 77);
    check("a strip that is not there",
          hamrisk_strip(file, FILE_LEN, 0, 2, &place, &length) == HAMRISK_INVALID && place == 77 && length == 77);
    check("a sound strip of the same file", hamrisk_strip(file, FILE_LEN - 1, 0, 0, &place, &length) == HAMRISK_DONE
                                                && place == FIRST && length == 4);
    check("too few parts", hamrisk_strips(file, FILE_LEN, 0, parts, 3) == HAMRISK_OUTPUT_TOO_SMALL && parts[0] == 77
                               && parts[2] == 77);
    check("all strips",
          hamrisk_strips(file, FILE_LEN, 0, parts, 4) == HAMRISK_DONE && memcmp(parts, places, sizeof parts) == 0);
}

static void files(void) {
    const uint8_t picture[8] = {0x01, 0x02, 0x01, 0x03, 0x03, 0x04, 0x03, 0x03};
    uint8_t file[FILE_LEN], planes[ROOM], out[ROOM];
    hamrisk_page found;

    make_file(file);
    pages(file, &found);
    strips(file);
    clear(planes);
    clear(out);
    check("its samples", hamrisk_convert(file + FIRST, found.derived[4], found.derived[0] * found.derived[1],
                                         found.derived[1] / found.layout.bytes, found.layout.bytes, found.layout.le,
                                         found.predictor == 2, found.layout.le, planes, ROOM)
                                 == HAMRISK_DONE
                             && holds(planes, picture, 8));
    check("its picture", hamrisk_render(&found.layout, file, FILE_LEN, planes, 8, out, ROOM) == HAMRISK_DONE
                             && holds(out, picture, 8));
}

/* The same file with each of its rows packed into two bytes: tag 259 is put in, and 277 left out, whose default is meant. */
static void packed_file(void) {
    const uint8_t rows[8] = {253, 7, 0, 0, 253, 9, 0, 0};
    uint8_t file[FILE_LEN], row[ROOM];
    hamrisk_page found;
    size_t parts[4] = {77, 77, 77, 77}, used = 77;

    make_file(file);
    memmove(file + DIRECTORY + 2 + 4 * 12, file + DIRECTORY + 2 + 3 * 12, 2 * 12);
    put(file + DIRECTORY + 2 + 3 * 12, 2, 259);
    put(file + DIRECTORY + 2 + 3 * 12 + 8, 2, 32773);
    put(file + VALUES + 8, 4, 2);
    put(file + VALUES + 12, 4, 2);
    memcpy(file + FIRST, rows, 8);
    check("a packed page", hamrisk_directory(file, FILE_LEN, 0, &found) == HAMRISK_DONE && found.compression == 32773
                               && found.predictor == 2 && found.strips == 2 && found.derived[4] == 8);
    check("its packed strips", hamrisk_strips(file, FILE_LEN, 0, parts, 4) == HAMRISK_DONE && parts[0] == FIRST
                                   && parts[1] == 2 && parts[2] == FIRST + 4 && parts[3] == 2);
    clear(row);
    check("a row of it", hamrisk_unpack_row(file + parts[2], parts[3], row, 4, &used) == HAMRISK_DONE && used == 2
                             && row[0] == 9 && row[3] == 9 && row[4] == CANARY);
    put(file + VALUES + 12, 4, 3);
    check("a packed strip with a byte left over", hamrisk_directory(file, FILE_LEN, 0, &found) == HAMRISK_INVALID);
    put(file + VALUES + 12, 4, 1);
    check("a packed strip that is short", hamrisk_strip(file, FILE_LEN, 0, 1, parts, &used) == HAMRISK_TRUNCATED
                                              && parts[0] == FIRST && used == 2);
}

/* Bytes of a file of three rows of two grey pixels, a strip for each row: header, directory, values of four tags, strips. */
enum { WRITTEN_PLANES = 8 + 2 + 14 * 12 + 4 + 2 * 12 + 2 * 8, WRITTEN_LEN = WRITTEN_PLANES + 6 };

static void written(void) {
    const hamrisk_layout grey = {.w = 2, .h = 3, .ch = 1, .bytes = 1, .slots = 1, .le = 1, .map = 9};
    const hamrisk_layout big = {.w = 2, .h = 3, .ch = 1, .bytes = 1, .slots = 1};
    const hamrisk_layout flag = {.w = 2, .h = 3, .ch = 1, .bytes = 1, .slots = 1, .le = 2};
    const uint8_t planes[6] = {1, 2, 3, 4, 5, 6};
    const size_t places[6] = {WRITTEN_PLANES, 2, WRITTEN_PLANES + 2, 2, WRITTEN_PLANES + 4, 2};
    uint8_t file[WRITTEN_LEN + 1];
    hamrisk_page found;
    size_t parts[6];
    size_t length = 77;

    memset(file, CANARY, sizeof file);
    check("a file of be, and of a flag of 2", hamrisk_file_length(&big, 1, &length) == HAMRISK_UNSUPPORTED
                                                  && hamrisk_file_length(&flag, 0, &length) == HAMRISK_UNSUPPORTED
                                                  && length == 77);
    check("strips of 0 rows, and of 4", hamrisk_file_length(&grey, 0, &length) == HAMRISK_INVALID
                                            && hamrisk_file_length(&grey, 4, &length) == HAMRISK_INVALID && length == 77);
    check("short planes, before a short file",
          hamrisk_write_file(&grey, 1, planes, 5, file, 0, &length) == HAMRISK_TRUNCATED && length == 77);
    check("a short file", hamrisk_write_file(&grey, 1, planes, 6, file, WRITTEN_LEN - 1, &length) == HAMRISK_OUTPUT_TOO_SMALL
                              && length == 77 && file[0] == CANARY && file[WRITTEN_PLANES] == CANARY);
    check("its length", hamrisk_file_length(&grey, 1, &length) == HAMRISK_DONE && length == WRITTEN_LEN);
    length = 77;
    check("a file", hamrisk_write_file(&grey, 1, planes, 6, file, sizeof file, &length) == HAMRISK_DONE
                        && length == WRITTEN_LEN && memcmp(file, "II*", 4) == 0
                        && memcmp(file + WRITTEN_PLANES, planes, 6) == 0 && file[WRITTEN_LEN] == CANARY);
    check("read back", hamrisk_directory(file, length, 0, &found) == HAMRISK_DONE && found.layout.w == 2 && found.layout.h == 3
                           && found.layout.ch == 1 && found.layout.bytes == 1 && found.layout.le == 1 && found.layout.map == 0
                           && found.predictor == 1 && found.strips == 3);
    check("its strips",
          hamrisk_strips(file, length, 0, parts, 6) == HAMRISK_DONE && memcmp(parts, places, sizeof parts) == 0);
}

int main(void) {
    samples();
    packets();
    packets_of_three();
    bytes();
    packed_rows();
    damage();
    pictures();
    files();
    packed_file();
    written();
    printf("%d checks, %d differ\n", checks, differ);
    return differ == 0 ? 0 : 1;
}
