/* order COUNT < PICTURE.ppm: the shades of a P6 picture, from C.
 *
 * The whole way through the library: read the picture, fill the table, make the run, make the palette, map the picture,
 * count the pixels of each shade. Prints what the listing program prints, for pictures of any size that the library
 * takes. A refusal is one line on standard error, and its number the exit status.
 *
 *   cc -O2 -Iinclude examples/order.c target/library/libkohlenfloh.a -o order
 */
#include "kohlenfloh.h"

#include <inttypes.h>
#include <stdio.h>
#include <stdlib.h>

/* Memory, or an end of the program. */
static void *room(size_t bytes)
{
    void *p = calloc(bytes + 1, 1);
    if (p == NULL) {
        fprintf(stderr, "order: no memory\n");
        exit(71);
    }
    return p;
}

/* Ends the program by a refusal, if there is one. */
static void check(const char *job, uint32_t number)
{
    if (number != KF_DONE) {
        fprintf(stderr, "order: %s refused %" PRIu32 " %s: %s\n", job, number, kf_refusal_name(number),
                kf_refusal_sentence(number));
        exit((int)number);
    }
}

/* All of standard input. */
static uint8_t *all_input(size_t *length)
{
    size_t space = 1 << 16, used = 0;
    uint8_t *bytes = room(space);
    for (;;) {
        size_t n = fread(bytes + used, 1, space - used, stdin);
        used += n;
        if (n == 0) {
            break;
        }
        if (used == space) {
            uint8_t *wider = realloc(bytes, space * 2);
            if (wider == NULL) {
                fprintf(stderr, "order: no memory\n");
                exit(71);
            }
            bytes = wider;
            space *= 2;
        }
    }
    *length = used;
    return bytes;
}

int main(int argc, char **argv)
{
    if (argc != 2) {
        fprintf(stderr, "usage: order COUNT < PICTURE.ppm\n");
        return 64;
    }
    size_t count = (size_t)strtoul(argv[1], NULL, 10);

    /* the picture: its raster is that stretch of the input, uncopied */
    size_t length;
    uint8_t *input = all_input(&length);
    uint64_t picture[KF_READ_PICTURE_PLACES];
    check("the picture", kf_read_picture(input, length, picture));
    const uint8_t *raster = input + picture[KF_READ_PICTURE_RASTER];
    size_t raster_length = length - (size_t)picture[KF_READ_PICTURE_RASTER];
    size_t pixels = raster_length / 3;

    /* the table: no more entries than pixels */
    size_t entries = pixels < KF_MOST_ENTRIES ? pixels : KF_MOST_ENTRIES;
    uint32_t *keys = room(entries * sizeof *keys);
    uint32_t *weights = room(entries * sizeof *weights);
    uint64_t record[KF_RECORD_PLACES] = {0};
    uint64_t taken[1];
    check("the table", kf_add_strip(record, keys, entries, weights, entries, raster, raster_length, taken));

    /* the run, with the usual limit */
    uint32_t *members = room(entries * sizeof *members);
    uint64_t totals[KF_USUAL_LIMIT];
    uint32_t shades[KF_MOST_COORDINATES];
    uint64_t run[KF_RUN_PLACES];
    check("the run", kf_run(record, keys, entries, weights, entries, count, 0, members, entries, totals, KF_USUAL_LIMIT,
                            shades, run));

    /* the palette, from the groups that the run left, and the index picture */
    uint8_t palette[KF_MOST_COORDINATES];
    check("the palette", kf_palette_from_groups(record, keys, entries, weights, entries, shades, 3 * count, members,
                                                entries, palette, sizeof palette));
    uint8_t *index = room(pixels);
    uint64_t mapping[KF_MAP_STRIP_PLACES];
    double means[KF_MAP_STRIP_MEAN_PLACES];
    uint32_t refusal = kf_map_strip(raster, raster_length, palette, 3 * count, index, pixels, 0, mapping, means);
    if (refusal == KF_TWIN_SHADE) {
        fprintf(stderr, "order: the mapping refused %d %s: shades %" PRIu64 " and %" PRIu64 " are equal\n",
                KF_TWIN_SHADE, kf_refusal_name(refusal), mapping[KF_MAP_STRIP_LOWER], mapping[KF_MAP_STRIP_HIGHER]);
        return KF_TWIN_SHADE;
    }
    check("the mapping", refusal);

    /* the order: the pixels of each shade */
    uint64_t mapped[KF_MOST_SHADES] = {0};
    for (size_t i = 0; i < pixels; i++) {
        mapped[index[i]]++;
    }
    printf("%" PRIu64 " %" PRIu64 " %" PRIu64 " %" PRIu64 " %" PRIu64 " %" PRIu64 "\n", record[KF_RECORD_USED],
           record[KF_RECORD_PIXELS], run[KF_RUN_ROUNDS], run[KF_RUN_SETTLED], run[KF_RUN_TOTAL],
           run[KF_RUN_DISTANCES]);
    for (size_t q = 0; q < count; q++) {
        printf("%zu %d %d %d %" PRIu64 "\n", q, palette[3 * q], palette[3 * q + 1], palette[3 * q + 2], mapped[q]);
    }
    printf("%" PRIu64 "\n", mapping[KF_MAP_STRIP_ERROR]);

    free(input);
    free(keys);
    free(weights);
    free(members);
    free(index);
    return 0;
}
