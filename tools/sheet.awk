# Lays a letter's pictures side by side: each enlarged to the same box, and its true size beneath.
#
# Reads plain PGM files. Prints width and height of the sheet on a line, each scanline of a PNG on a line, and the
# Adler-32 of all scanlines on the last, everything as octal escapes for printf(1): not every awk can write a byte 0.

BEGIN {
    box = 192 # a multiple of every side that a tile can have; twice as much is one of every sheet's
    gap = 16
    paper = 176 # the sheet around the tiles, told apart from white and from ink
    low = 1 # the two sums of the Adler-32
    high = 0
}

FNR == 1 { tiles++; places = 0 }
FNR == 2 { side[tiles] = $1; if ($1 > tallest) tallest = $1 }
FNR > 3 { for (i = 1; i <= NF; i++) pixel[tiles, places++] = $i }

# A number as four bytes, the highest first.
function bytes(number) {
    return sprintf("\\%03o\\%03o\\%03o\\%03o",
        int(number / 16777216), int(number / 65536) % 256, int(number / 256) % 256, number % 256)
}

# Adds the same byte to the scanline many times over. The sums take a run in one step.
function run(value, count,   i, text) {
    if (!((value, count) in runs)) {
        for (i = 1; i <= count; i++) text = text sprintf("\\%03o", value)
        runs[value, count] = text
    }
    line = line runs[value, count]
    high = (high + count * low + value * count * (count + 1) / 2) % 65521
    low = (low + count * value) % 65521
}

# A scanline begins with its filter, 0, none.
function begin() { line = ""; run(0, 1) }
function end() { print line }

function blank(rows) { for (; rows > 0; rows--) { begin(); run(paper, width); end() } }

# Row y of a tile, each pixel as wide as scale, in the middle of its box.
function row(tile, y, scale,   x, free) {
    free = box - scale * side[tile]
    run(paper, gap + int(free / 2))
    for (x = 0; x < side[tile]; x++) run(pixel[tile, y * side[tile] + x], scale)
    run(paper, free - int(free / 2))
}

END {
    if (tallest > 64) box *= 2
    width = gap + tiles * (box + gap)
    print bytes(width) bytes(gap + box + gap + tallest + gap)
    blank(gap)
    for (y = 0; y < box; y++) {
        begin()
        for (t = 1; t <= tiles; t++) row(t, int(y * side[t] / box), box / side[t])
        run(paper, gap)
        end()
    }
    blank(gap)
    for (y = 0; y < tallest; y++) {
        begin()
        for (t = 1; t <= tiles; t++)
            if (y < side[t]) row(t, y, 1)
            else run(paper, gap + box)
        run(paper, gap)
        end()
    }
    blank(gap)
    print bytes(high * 65536 + low)
}
