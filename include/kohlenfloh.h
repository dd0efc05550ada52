/* Kohlenfloh: the shades of a drawing, certain.
 *
 * The calls of the proved library libkohlenfloh.a. Every function behind them is proved against a definition: on every
 * input, refused ones too, the returned number and all that a call writes are determined.
 *
 * Every call
 *   - returns KF_DONE (0) or the number of one refusal, the first of its list whose condition holds;
 *   - asks nothing of the values it is handed: any record, table, count, limit, strip, palette or input is accepted or
 *     refused, and the call ends;
 *   - writes nothing to a lent slice when it refuses, KF_FULL apart; answer arrays are always written, and hold zeros
 *     after a refusal but for what the call says below;
 *   - keeps no state and allocates nothing; it uses less than 1 MiB of stack; threads may call at once on memory of
 *     their own.
 *
 * Memory. A slice is a pointer and the number of its elements; the pointer of an empty slice is not read and not
 * written, but must not be NULL. A fixed array is one pointer to as many elements as its type says; its places have
 * names, KF_, what it belongs to, and what stands there. What a call may write must not overlap anything else it is
 * handed. Elements are aligned as their type wants.
 *
 * Words
 *   colour     three bytes R, G, B; its key is 65536 R + 256 G + B
 *   table      keys, strictly rising, and beside them weights, the pixels of each colour; at most 1,048,576 entries and
 *              16,777,216 pixels
 *   record     how much of a table is used, and its channel sums: an array of KF_RECORD_PLACES numbers, all zeros for
 *              an empty table
 *   strip      pixels from first to last, three bytes each
 *   shade      three coordinates in sixteenths of a level, 0 to 4080; colour (r, g, b) stands at (16 r, 16 g, 16 b)
 *   fixed      of a shade: it is from stock, in whole levels, and never moves; the other shades of its run are free
 *   distance   the sum of three squared differences
 *   member     the number of the shade that a table colour has joined, by the entry's place
 *   total      the sum over colours of weight times distance to the shade joined
 *
 * Link with -lkohlenfloh, or by `pkg-config --cflags --libs kohlenfloh` where it is installed; nothing else is needed.
 */
#ifndef KOHLENFLOH_H
#define KOHLENFLOH_H

#include <stddef.h>
#include <stdint.h>

#ifdef __cplusplus
extern "C" {
#endif

/* The version of the library that this header belongs to. */
#define KF_VERSION "0.6.1"

/* The refusals. */
enum kf_refusal {
    KF_DONE = 0,         /* nothing is refused */
    KF_BAD_STRIP = 1,    /* pixel bytes not a multiple of 3 */
    KF_BAD_TABLE = 2,    /* used entries above the room, a used key above 16,777,215 or not above the one before, a used
                            weight of 0, a pixel total that is not the sum of the used weights or is above 16,777,216,
                            or a channel sum that is not that of the used entries */
    KF_FULL = 3,         /* the next pixel meets a total of 16,777,216, or is a new colour with no room */
    KF_BAD_COUNT = 4,    /* shades not 1 to 64; lent coordinates not 3 to 192 or not a multiple of 3; or no free shade
                            left beside the fixed ones */
    KF_FEW_COLOURS = 5,  /* a run wants more shades than used entries; with fixed shades, more free shades than used
                            entries unlike every fixed one */
    KF_BAD_LIMIT = 6,    /* round limit above 200 */
    KF_SHORT_ROOM = 7,   /* members fewer than the used entries; totals fewer than the round limit (100 for 0); palette
                            bytes fewer than 3 for each shade; or the stretch past the end of the index picture */
    KF_BAD_CENTRE = 8,   /* a coordinate above 4080 */
    KF_BAD_MEMBER = 9,   /* a used entry's shade number not below the count */
    KF_BAD_PALETTE = 10, /* palette bytes not 3 to 192, bytes of fixed shades not 3 to 189, or either not a multiple of
                            3 */
    KF_MANY_PIXELS = 11, /* mapping over 16,777,216 pixels */
    KF_BAD_HEADER = 12,  /* a byte of the header cannot stand where it does, or the input ends early */
    KF_BAD_SIZE = 13,    /* a side not 1 to 16,384, or more than 16,777,216 pixels */
    KF_BAD_DEPTH = 14,   /* depth not 255 */
    KF_BAD_RASTER = 15,  /* raster shorter or longer than 3 bytes for each pixel */
    KF_TWIN_SHADE = 18   /* two entries of the palette are equal */
};

/* A refusal's name, in capitals: "BAD STRIP" for KF_BAD_STRIP. "DONE" for KF_DONE; "UNKNOWN" for any other number, as a
 * later library may return. */
static inline const char *kf_refusal_name(uint32_t number)
{
    switch (number) {
    case KF_DONE: return "DONE";
    case KF_BAD_STRIP: return "BAD STRIP";
    case KF_BAD_TABLE: return "BAD TABLE";
    case KF_FULL: return "FULL";
    case KF_BAD_COUNT: return "BAD COUNT";
    case KF_FEW_COLOURS: return "FEW COLOURS";
    case KF_BAD_LIMIT: return "BAD LIMIT";
    case KF_SHORT_ROOM: return "SHORT ROOM";
    case KF_BAD_CENTRE: return "BAD CENTRE";
    case KF_BAD_MEMBER: return "BAD MEMBER";
    case KF_BAD_PALETTE: return "BAD PALETTE";
    case KF_MANY_PIXELS: return "MANY PIXELS";
    case KF_BAD_HEADER: return "BAD HEADER";
    case KF_BAD_SIZE: return "BAD SIZE";
    case KF_BAD_DEPTH: return "BAD DEPTH";
    case KF_BAD_RASTER: return "BAD RASTER";
    case KF_TWIN_SHADE: return "TWIN SHADE";
    default: return "UNKNOWN";
    }
}

/* When a refusal is given, as a sentence for a person. */
static inline const char *kf_refusal_sentence(uint32_t number)
{
    switch (number) {
    case KF_DONE: return "nothing is refused";
    case KF_BAD_STRIP: return "pixel bytes not a multiple of 3";
    case KF_BAD_TABLE:
        return "used entries above the room, a used key above 16,777,215 or not above the one before, a used weight of "
               "0, a pixel total that isn't the sum of the used weights or is above 16,777,216, or a channel sum that "
               "isn't that of the used entries";
    case KF_FULL: return "the next pixel meets a total of 16,777,216, or is a new colour with no room";
    case KF_BAD_COUNT:
        return "shades not 1 to 64; for a single round or a palette from shades or groups, coordinates not 3 to 192 or "
               "not a multiple of 3";
    case KF_FEW_COLOURS: return "a run wants more shades than used entries";
    case KF_BAD_LIMIT: return "round limit above 200";
    case KF_SHORT_ROOM:
        return "members fewer than the used entries; totals fewer than the round limit (100 for 0); palette bytes "
               "fewer than 3 for each shade; or the stretch's first place plus the strip's pixels above the index "
               "length";
    case KF_BAD_CENTRE: return "a coordinate above 4080";
    case KF_BAD_MEMBER: return "a used entry's shade number not below the count";
    case KF_BAD_PALETTE: return "palette bytes not 3 to 192 or not a multiple of 3";
    case KF_MANY_PIXELS: return "mapping over 16,777,216 pixels";
    case KF_BAD_HEADER:
        return "the offset is that of the first byte that cannot stand there, or the input's length if it ends early";
    case KF_BAD_SIZE: return "sides or product out of range";
    case KF_BAD_DEPTH: return "depth not 255";
    case KF_BAD_RASTER: return "raster shorter or longer";
    case KF_TWIN_SHADE: return "two entries of the palette are equal";
    default: return "a number that has no name here";
    }
}

/* Bounds. */
#define KF_MOST_ENTRIES 1048576u /* entries of a table */
#define KF_MOST_SHADES 64u       /* shades of a round or a run */
#define KF_MOST_FIXED 63u        /* fixed shades of a run, each three bytes */
#define KF_MOST_ROUNDS 200u      /* rounds of a run */
#define KF_USUAL_LIMIT 100u      /* the round limit that 0 means */
#define KF_MOST_PIXELS 16777216u /* pixels of a table, a mapping or a picture */
#define KF_MOST_COORDINATES 192u /* coordinates of the most shades, and bytes of their palette */

/* The places of a record. The channel sums are in whole levels, each at most 4,278,190,080. A sum divided by the pixels
 * is the channel's mean over all pixels; the level nearest to it, halves up, is (2 * sum + pixels) / (2 * pixels).
 * Every call that takes a table refuses sums that are not those of its entries, by KF_BAD_TABLE. A table that is kept
 * without sums gets them from its entries: the levels of a key are key / 65536, key / 256 % 256 and key % 256. */
enum kf_record_place {
    KF_RECORD_USED = 0,   /* used entries of the table */
    KF_RECORD_PIXELS = 1, /* its pixels, the sum of the used weights */
    KF_RECORD_RED = 2,    /* the sum of weight times level R over the used entries */
    KF_RECORD_GREEN = 3,  /* that of G */
    KF_RECORD_BLUE = 4,   /* that of B */
    KF_RECORD_PLACES = 5  /* how many places there are */
};

/* Adds a strip's pixels to the table, from first to last.
 * Reads record, keys, weights, strip. Writes record, the pixels taken to taken[0], and the table: a colour's weight is
 * raised, or the colour enters at its sorted place. The room is the shorter of keys and weights, at most
 * KF_MOST_ENTRIES; places past the used entries keep their values.
 * Refuses, in this order: KF_BAD_STRIP, KF_BAD_TABLE, KF_FULL.
 * KF_BAD_STRIP and KF_BAD_TABLE leave the record and the table as they came, and 0 in taken. KF_FULL leaves in taken
 * the pixels that went in, and record and table are those of exactly these pixels. */
uint32_t kf_add_strip(uint64_t record[KF_RECORD_PLACES], uint32_t *keys, size_t keys_len, uint32_t *weights,
                      size_t weights_len, const uint8_t *strip, size_t strip_len, uint64_t taken[1]);

/* The places of the answer of kf_plain_round and kf_short_round. */
enum kf_round_place {
    KF_ROUND_TOTAL = 0,     /* the round's total, against the shades before the move */
    KF_ROUND_MOVED = 1,     /* how many shades moved */
    KF_ROUND_DISTANCES = 2, /* how many distances were worked out */
    KF_ROUND_PLACES = 3     /* how many places there are */
};

/* One round in which each colour looks at every shade: it joins the nearest, the lowest number at a tie; then each
 * shade moves to the rounded mean of its group, and a shade with no group stays.
 * The count of shades is a third of coordinates_len. Writes the moved shades to coordinates, each used entry's shade to
 * members (those past the used entries stay), and the answer.
 * Refuses, in this order: KF_BAD_TABLE, KF_BAD_COUNT, KF_BAD_CENTRE, KF_SHORT_ROOM. */
uint32_t kf_plain_round(const uint64_t record[KF_RECORD_PLACES], const uint32_t *keys, size_t keys_len,
                        const uint32_t *weights, size_t weights_len, uint32_t *coordinates, size_t coordinates_len,
                        uint32_t *members, size_t members_len, uint64_t answer[KF_ROUND_PLACES]);

/* The same round by the shortened search, from the former shades in members: it leaves what kf_plain_round leaves, and
 * counts the distances it worked out.
 * Refuses, in this order: KF_BAD_TABLE, KF_BAD_COUNT, KF_BAD_CENTRE, KF_SHORT_ROOM, KF_BAD_MEMBER. */
uint32_t kf_short_round(const uint64_t record[KF_RECORD_PLACES], const uint32_t *keys, size_t keys_len,
                        const uint32_t *weights, size_t weights_len, uint32_t *coordinates, size_t coordinates_len,
                        uint32_t *members, size_t members_len, uint64_t answer[KF_ROUND_PLACES]);

/* The places of the answer of kf_run, kf_run_jancey and kf_run_fixed. */
enum kf_run_place {
    KF_RUN_ROUNDS = 0,    /* rounds made */
    KF_RUN_SETTLED = 1,   /* 1 if the last round moved no shade, 0 if it moved one */
    KF_RUN_DISTANCES = 2, /* the distances worked out in all rounds */
    KF_RUN_TOTAL = 3,     /* the final total: the last grouping against the final shades */
    KF_RUN_PLACES = 4     /* how many places there are */
};

/* A run: count starting shades, every colour in shade 0, then shortened rounds to the first that moves no shade
 * ("settled") or to the limit. A limit of 0 means KF_USUAL_LIMIT, and as many totals: a caller who lends fewer names a
 * limit.
 * Writes the last round's grouping to members, each round's total to totals (places past those filled stay), to shades
 * three coordinates a shade and zeros past the count, and the answer.
 * Refuses, in this order: KF_BAD_TABLE, KF_BAD_COUNT, KF_FEW_COLOURS, KF_BAD_LIMIT, KF_SHORT_ROOM. */
uint32_t kf_run(const uint64_t record[KF_RECORD_PLACES], const uint32_t *keys, size_t keys_len, const uint32_t *weights,
                size_t weights_len, size_t count, size_t limit, uint32_t *members, size_t members_len, uint64_t *totals,
                size_t totals_len, uint32_t shades[KF_MOST_COORDINATES], uint64_t answer[KF_RUN_PLACES]);

/* A run by Jancey's rule, like kf_run in everything but where a shade with a group moves: it steps past the mean of its
 * group. Per coordinate the value it moves to is old + 9/5 * (mean - old) with the exact mean, rounded to the nearest
 * sixteenth, halves up, then held to 0 to 4080. If that lies as far from the exact mean as the old value did, or
 * farther, the rounded mean is used instead. A shade with no group stays.
 * The totals never rise, and the final total is not above the last of them; in a settled run each shade with a group
 * stands on its group's rounded mean. Two promises are kf_run's alone: that no other shades give the last grouping a
 * smaller total, and that this total is at most three quarters of the pixels above the least that fractional shades
 * could give it. The two can end with different shades, and either can make fewer rounds.
 * Reads and writes what kf_run does, and the places of its answer are the same.
 * Refuses, in this order: KF_BAD_TABLE, KF_BAD_COUNT, KF_FEW_COLOURS, KF_BAD_LIMIT, KF_SHORT_ROOM. */
uint32_t kf_run_jancey(const uint64_t record[KF_RECORD_PLACES], const uint32_t *keys, size_t keys_len,
                       const uint32_t *weights, size_t weights_len, size_t count, size_t limit, uint32_t *members,
                       size_t members_len, uint64_t *totals, size_t totals_len, uint32_t shades[KF_MOST_COORDINATES],
                       uint64_t answer[KF_RUN_PLACES]);

/* A run with shades fixed from stock, like kf_run in everything but where its shades begin, and that a fixed one never
 * moves. The fixed shades are whole levels R, G, B, three bytes each; they are part of the count and have the lowest
 * numbers, each at sixteen times its bytes. Each further start is the table colour whose distance to its nearest shade
 * so far is greatest, the lowest key at a tie: no shade begins on the table's mean. A colour joins a fixed shade as it
 * joins any other; a free shade with a group moves to its rounded mean. The run is settled by a round in which no free
 * shade moves.
 * The totals, which are those of all groups, never rise. What kf_run promises of the last grouping holds here over the
 * groups of the free shades: no other free shades give these a smaller total, and it is at most three quarters of their
 * pixels above the least that fractional shades could give them.
 * Table colours may equal fixed shades, and fixed shades may equal each other; of two equal ones the higher number gets
 * no colour, and kf_map_strip refuses their palette. With no shade to fix use kf_run: an empty list is refused.
 * Reads the fixed bytes; besides these it reads and writes what kf_run does, and the places of its answer are the same.
 * For the palette, kf_palette_from_groups_fixed is told how many shades are fixed, a third of fixed_len.
 * Refuses, in this order: KF_BAD_TABLE, KF_BAD_PALETTE (fixed_len not 3 to 189 or not a multiple of 3), KF_BAD_COUNT
 * (also a count that is not above the number of fixed shades), KF_FEW_COLOURS (fewer used entries unlike every fixed
 * shade than there are free shades; weights do not matter, and the count may be above the used entries), KF_BAD_LIMIT,
 * KF_SHORT_ROOM. */
uint32_t kf_run_fixed(const uint64_t record[KF_RECORD_PLACES], const uint32_t *keys, size_t keys_len,
                      const uint32_t *weights, size_t weights_len, const uint8_t *fixed, size_t fixed_len, size_t count,
                      size_t limit, uint32_t *members, size_t members_len, uint64_t *totals, size_t totals_len,
                      uint32_t shades[KF_MOST_COORDINATES], uint64_t answer[KF_RUN_PLACES]);

/* The palette of some shades: three bytes each, in whole levels, (coordinate + 8) / 16. The count is a third of
 * coordinates_len; of a run's shades lend the first 3 * count coordinates. Palette bytes past the last shade's stay.
 * After a run kf_palette_from_groups is the one to use: the run has rounded its means to sixteenths, and to round these
 * again can leave a level one too high.
 * Refuses, in this order: KF_BAD_COUNT, KF_BAD_CENTRE, KF_SHORT_ROOM. */
uint32_t kf_palette_from_shades(const uint32_t *coordinates, size_t coordinates_len, uint8_t *palette,
                                size_t palette_len);

/* The palette of a run, rounded once: three bytes a shade, in each channel the level nearest to the exact mean of the
 * shade's group, halves up. The group of shade q is the used entries whose member is q; with W the sum of their weights
 * and S that of weight times level, the byte is (2 S + W) / (2 W). A shade with no group has (coordinate + 8) / 16, as
 * by kf_palette_from_shades.
 * Lend table, members and shades as the run left them, of the shades the first 3 * count coordinates: the count is a
 * third of coordinates_len. The members are taken as they are, whichever round or caller they come from; those past the
 * used entries are not looked at. Reads record, keys, weights, coordinates, members. Writes palette; its bytes past the
 * last shade's stay.
 * Refuses, in this order: KF_BAD_TABLE, KF_BAD_COUNT, KF_BAD_CENTRE (also where the shade has a group), KF_SHORT_ROOM
 * (members fewer than the used entries, or palette bytes fewer than 3 for each shade), KF_BAD_MEMBER. */
uint32_t kf_palette_from_groups(const uint64_t record[KF_RECORD_PLACES], const uint32_t *keys, size_t keys_len,
                                const uint32_t *weights, size_t weights_len, const uint32_t *coordinates,
                                size_t coordinates_len, const uint32_t *members, size_t members_len, uint8_t *palette,
                                size_t palette_len);

/* The palette of a run with fixed shades: like kf_palette_from_groups in everything but the first shades, as many as
 * fixed tells. These have (coordinate + 8) / 16, as by kf_palette_from_shades, group or none: after kf_run_fixed their
 * own bytes. fixed is a third of that run's fixed_len; for 0 it is the palette of kf_palette_from_groups.
 * Reads and writes what kf_palette_from_groups does.
 * Refuses what that does, in the same order; KF_BAD_COUNT also where fixed is not below the count. */
uint32_t kf_palette_from_groups_fixed(const uint64_t record[KF_RECORD_PLACES], const uint32_t *keys, size_t keys_len,
                                      const uint32_t *weights, size_t weights_len, const uint32_t *coordinates,
                                      size_t coordinates_len, const uint32_t *members, size_t members_len, size_t fixed,
                                      uint8_t *palette, size_t palette_len);

/* The places of the answer of kf_map_strip. */
enum kf_map_strip_place {
    KF_MAP_STRIP_ERROR = 0,       /* the strip's error: the sum of squared level differences */
    KF_MAP_STRIP_RED_ERROR = 1,   /* that of R */
    KF_MAP_STRIP_GREEN_ERROR = 2, /* that of G */
    KF_MAP_STRIP_BLUE_ERROR = 3,  /* that of B */
    KF_MAP_STRIP_HAS_MEAN = 4,    /* 1 where there is a mean, which is wherever the strip has pixels; 0 elsewhere */
    KF_MAP_STRIP_LOWER = 5,       /* after KF_TWIN_SHADE the lower number of two equal entries; 0 elsewhere */
    KF_MAP_STRIP_HIGHER = 6,      /* after KF_TWIN_SHADE the higher one, the smallest number of an entry that equals one
                                     before it; 0 elsewhere */
    KF_MAP_STRIP_PLACES = 7       /* how many places there are */
};

/* The places of the means of kf_map_strip, each one division in binary64; zeros where there is no mean. */
enum kf_map_strip_mean_place {
    KF_MAP_STRIP_MEAN = 0,       /* the mean square error */
    KF_MAP_STRIP_RED_MEAN = 1,   /* that of R */
    KF_MAP_STRIP_GREEN_MEAN = 2, /* that of G */
    KF_MAP_STRIP_BLUE_MEAN = 3,  /* that of B */
    KF_MAP_STRIP_MEAN_PLACES = 4 /* how many places there are */
};

/* Maps a strip into its stretch of the index picture, which begins at place first and has a byte for each pixel: the
 * number of the nearest palette entry, the lowest at a tie. Every other index byte stays. Writes the answer and the
 * means.
 * A palette with two equal entries is refused, with an empty strip too: a call with one tells of a palette whether
 * pixels can be mapped to it. The palette calls make such a palette where two shades come to the same three levels; ask
 * the run for fewer shades then, or fix each shade once.
 * Refuses, in this order: KF_BAD_STRIP, KF_BAD_PALETTE, KF_TWIN_SHADE, KF_MANY_PIXELS, KF_SHORT_ROOM.
 * KF_TWIN_SHADE leaves in the answer the numbers of the two entries; every other place holds 0. */
uint32_t kf_map_strip(const uint8_t *strip, size_t strip_len, const uint8_t *palette, size_t palette_len,
                      uint8_t *index, size_t index_len, size_t first, uint64_t answer[KF_MAP_STRIP_PLACES],
                      double means[KF_MAP_STRIP_MEAN_PLACES]);

/* The places of the answer of kf_read_picture. */
enum kf_read_picture_place {
    KF_READ_PICTURE_OFFSET = 0, /* after KF_BAD_HEADER the offset of the first byte that cannot stand where it does, or
                                   input_len if the input ends early; 0 elsewhere */
    KF_READ_PICTURE_WIDTH = 1,  /* pixels in a row */
    KF_READ_PICTURE_HEIGHT = 2, /* rows */
    KF_READ_PICTURE_RASTER = 3, /* the place in input at which the raster begins; the raster is the rest of the input */
    KF_READ_PICTURE_PLACES = 4  /* how many places there are */
};

/* Reads a P6 picture (Netpbm's, depth 255). Writes the answer.
 * After "P6" and before the depth, wherever a white byte may stand, `#` opens a comment: it has any bytes up to and
 * including the first CR or LF, and counts as one white byte. The offset and the raster's place count all its bytes. A
 * comment that never ends is KF_BAD_HEADER at input_len. After the depth there is one white byte and no comment.
 * Refuses, in this order: KF_BAD_HEADER, KF_BAD_SIZE, KF_BAD_DEPTH, KF_BAD_RASTER. */
uint32_t kf_read_picture(const uint8_t *input, size_t input_len, uint64_t answer[KF_READ_PICTURE_PLACES]);

#ifdef __cplusplus
}
#endif

#endif
