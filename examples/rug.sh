#!/usr/bin/env bash
# Draws a small rug of six yarns as a P6 picture on standard output: 64 by 96 pixels, a border of three stripes, a field
# with crosses, corners in steps and a medallion, each colour a little uneven as in a scan.
#     examples/rug.sh > examples/rug.ppm
set -euo pipefail
export LC_ALL=C

awk 'BEGIN {
    wide = 64; high = 96
    printf "P6\n%d %d\n255\n", wide, high
    red = "124 22 30"; blue = "28 44 92"; ivory = "228 212 178"
    gold = "188 140 52"; green = "52 92 64"; dark = "34 24 26"
    for (y = 0; y < high; y++) for (x = 0; x < wide; x++) {
        # Pixels from the middle to the right and down: the four quarters mirror each other.
        right = x < wide / 2 ? wide / 2 - 1 - x : x - wide / 2
        down = y < high / 2 ? high / 2 - 1 - y : y - high / 2
        edge = wide / 2 - 1 - right
        if (high / 2 - 1 - down < edge) edge = high / 2 - 1 - down
        medallion = 3 * int(right / 2) + 3 * int(down / 3)
        corner = int((wide / 2 - 1 - right - 9) / 2) + int((high / 2 - 1 - down - 9) / 3)
        colour = red
        across = right % 8 - 4; along = (down + 2) % 8 - 4
        if (across * across + along * along < 2) colour = green
        if (corner < 6) colour = gold
        if (corner < 5) colour = blue
        if (corner < 2) colour = green
        if (medallion < 36) colour = blue
        if (medallion < 30) colour = ivory
        if (medallion < 27) colour = gold
        if (medallion < 18) colour = green
        if (medallion < 15) colour = dark
        if (medallion < 6) colour = ivory
        if (edge < 9) colour = ivory
        if (edge < 7) colour = (right + down) % 6 < 3 ? blue : gold
        if (edge < 3) colour = dark
        split(colour, level, " ")
        uneven = (7 * x + 13 * y + x * y) % 7 - 3
        for (channel = 1; channel <= 3; channel++) printf "%c", level[channel] + uneven
    }
}'
