/* What each call of the library holds of the stack: the call is made on a thread whose stack is filled with a mark, and
 * the deepest byte that lost it is looked up. Prints a line for each call, with the bytes in use beyond those of a thread
 * that does nothing; ends with 1 where one is above a mebibyte.
 *
 *     cc -O2 -Iinclude tools/stack.c target/library/libkohlenfloh.a -lpthread -o stack && ./stack
 */
#define _GNU_SOURCE
#include <pthread.h>
#include <stdio.h>
#include <stdlib.h>
#include <string.h>

#include "kohlenfloh.h"

enum { STACK = 8 << 20, MOST = 1 << 20, MARK = 0xA5, SIDE = 256, PIXELS = SIDE * SIDE, SHADES = 64, FIXED = 3 * 63 };

static uint8_t picture[32 + 3 * PIXELS];
static size_t picture_len;
static uint8_t *raster;
static uint64_t record[KF_RECORD_PLACES];
static uint32_t keys[PIXELS], weights[PIXELS], members[PIXELS];
static uint64_t totals[200];
static uint32_t shades[192];
static uint8_t palette[192], index_bytes[PIXELS];
static uint32_t refusal;

static void nothing(void) { refusal = 0; }

static void read_picture(void) {
    uint64_t answer[KF_READ_PICTURE_PLACES];
    refusal = kf_read_picture(picture, picture_len, answer);
}

/* One call with few pixels and one with many go different ways. */
static void add_few(void) {
    uint64_t taken[1];
    refusal = kf_add_strip(record, keys, PIXELS, weights, PIXELS, raster, 3 * 31, taken);
}

static void add_strip(void) {
    uint64_t taken[1];
    refusal = kf_add_strip(record, keys, PIXELS, weights, PIXELS, raster, 3 * PIXELS, taken);
}

static void run(void) {
    uint64_t answer[KF_RUN_PLACES];
    refusal = kf_run(record, keys, PIXELS, weights, PIXELS, SHADES, 3, members, PIXELS, totals, 200, shades, answer);
}

static void run_jancey(void) {
    uint64_t answer[KF_RUN_PLACES];
    refusal = kf_run_jancey(record, keys, PIXELS, weights, PIXELS, SHADES, 3, members, PIXELS, totals, 200, shades,
                            answer);
}

static void run_fixed(void) {
    uint64_t answer[KF_RUN_PLACES];
    refusal = kf_run_fixed(record, keys, PIXELS, weights, PIXELS, raster, FIXED, SHADES, 3, members, PIXELS, totals,
                           200, shades, answer);
}

static void plain_round(void) {
    uint64_t answer[KF_ROUND_PLACES];
    refusal = kf_plain_round(record, keys, PIXELS, weights, PIXELS, shades, 192, members, PIXELS, answer);
}

static void short_round(void) {
    uint64_t answer[KF_ROUND_PLACES];
    refusal = kf_short_round(record, keys, PIXELS, weights, PIXELS, shades, 192, members, PIXELS, answer);
}

static void palette_from_shades(void) { refusal = kf_palette_from_shades(shades, 192, palette, 192); }

static void palette_from_groups(void) {
    refusal = kf_palette_from_groups(record, keys, PIXELS, weights, PIXELS, shades, 192, members, PIXELS, palette, 192);
}

static void palette_from_groups_fixed(void) {
    refusal = kf_palette_from_groups_fixed(record, keys, PIXELS, weights, PIXELS, shades, 192, members, PIXELS,
                                           SHADES - 1, palette, 192);
}

static void map_strip(void) {
    uint64_t answer[KF_MAP_STRIP_PLACES];
    double means[KF_MAP_STRIP_MEAN_PLACES];
    refusal = kf_map_strip(raster, 3 * PIXELS, palette, 192, index_bytes, PIXELS, 0, answer, means);
}

static void *on_thread(void *call) {
    (*(void (**)(void))call)();
    return NULL;
}

/* The bytes of the stack that a thread making this call has written to. */
static size_t used_by(void (*call)(void)) {
    uint8_t *stack = NULL;
    pthread_attr_t attributes;
    pthread_t thread;
    size_t untouched = 0;
    if (posix_memalign((void **)&stack, 4096, STACK) != 0) exit(70);
    memset(stack, MARK, STACK);
    if (pthread_attr_init(&attributes) != 0 || pthread_attr_setstack(&attributes, stack, STACK) != 0) exit(70);
    if (pthread_create(&thread, &attributes, on_thread, &call) != 0 || pthread_join(thread, NULL) != 0) exit(70);
    while (untouched < STACK && stack[untouched] == MARK) untouched++;
    free(stack);
    return STACK - untouched;
}

int main(void) {
    static const struct {
        const char *name;
        void (*call)(void);
    } calls[] = {
        {"kf_read_picture", read_picture},
        {"kf_add_strip, 31 pixels", add_few},
        {"kf_add_strip, 65536 pixels", add_strip},
        {"kf_run_jancey", run_jancey},
        {"kf_run_fixed", run_fixed},
        {"kf_run", run},
        {"kf_plain_round", plain_round},
        {"kf_short_round", short_round},
        {"kf_palette_from_shades", palette_from_shades},
        {"kf_palette_from_groups", palette_from_groups},
        {"kf_palette_from_groups_fixed", palette_from_groups_fixed},
        {"kf_map_strip", map_strip},
    };
    size_t idle, i;
    uint32_t mixed = 1;
    int status = 0;
    picture_len = (size_t)sprintf((char *)picture, "P6\n%d %d\n255\n", SIDE, SIDE);
    raster = picture + picture_len;
    for (i = 0; i < 3 * PIXELS; i++) {
        mixed = mixed * 1664525u + 1013904223u;
        raster[i] = (uint8_t)(mixed >> 24);
    }
    picture_len += 3 * PIXELS;
    idle = used_by(nothing);
    printf("%-28s %7zu bytes, beyond which each call holds\n", "a thread that does nothing", idle);
    for (i = 0; i < sizeof calls / sizeof *calls; i++) {
        size_t bytes = used_by(calls[i].call);
        bytes = bytes > idle ? bytes - idle : 0;
        printf("%-28s %7zu bytes\n", calls[i].name, bytes);
        if (refusal != 0 || bytes > MOST) status = 1;
    }
    return status;
}
