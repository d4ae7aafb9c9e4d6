# Compares outlines and pictures of printable ASCII with FreeType's, at the sizes that `sizes` has, with commas. Files
# are told apart by what=table, lines of sums_by_freetype.c, which says what they hold; what=answers, lines of
# `tt_test_answers outlines` with the size in front; and what=picture, for each size a line `size SIZE WIDTH`, and
# after it the bytes of the rows of `tt_render draw`, from the top: of a line in which 4 spaces follow each character,
# with a margin of `margin` pixels. For each glyph and size of the table prints a line, SIZE GLYPH and whether the
# outline, and the picture, is `same` or `other`.
what == "table" && $1 == "units" { em = $2; ascent = $3; next }
what == "table" { glyph[++glyphs] = $1; sums[glyphs] = $0 }
what == "answers" { outline[$1 " " $2] = sum_of_outline() }
what == "picture" && $1 == "size" { begin($2, $3); next }
what == "picture" { for (i = 1; i <= NF; i++) take($i) }

BEGIN {
  count = split(sizes, size, ",")
  for (i = 0; i < 8; i++) place_of[2 ^ i] = 7 - i
}

END {
  for (s = 1; s <= count; s++) {
    for (g = 1; g <= glyphs; g++) {
      split(sums[g], words)
      print size[s], glyph[g], judged(outline[size[s] " " glyph[g]], words[2 + s]), \
        judged(picture[size[s] " " g], words[2 + count + s])
    }
  }
}

function judged(sum, wanted) { return sum "" == wanted "" ? "same" : "other" }

function with(sum, v) { return (31 * sum + v + 2097152) % 2147483647 }

function to_pixels(v) { return int((v + 65568) / 64) * 64 - 65536 }

# The sum of the outline that the words of a line are; none of a glyph that is not fitted.
function sum_of_outline(    sum, i) {
  if ($3 != "phantom") return "none"
  for (i = 13; $i != "points"; i++) sum = with(sum, $i)
  sum = with(sum, to_pixels($6 - $4))
  for (i++; i <= NF; i += 3) sum = with(with(with(sum, $i - $4), $(i + 1)), $(i + 2))
  return sum
}

# Begins a picture: takes the pen of each glyph, and finds of each column whose it is; of what lies between the advance
# of a glyph and the next pen, half is its, and half the next one's.
function begin(of_size, of_width,    g, between) {
  ppem = of_size
  width = of_width
  base = int((ascent * ppem + em - 1) / em) + margin - 1
  column = row = last = 0
  for (g = 1; g <= glyphs; g++) {
    pen[g] = $(2 * g + 2)
    between = g < glyphs ? (pen[g] + $(2 * g + 3) + $(2 * g + 4)) / 2 : width
    while (last < between) owner[last++] = g
    picture[ppem " " g] = 0
  }
}

# Takes a byte of a picture, which is eight pixels.
function take(byte,    bit, c, at) {
  for (bit = 128; byte > 0; bit /= 2) {
    if (byte < bit) continue
    byte -= bit
    c = column + place_of[bit]
    at = ppem " " owner[c]
    picture[at] = with(with(picture[at], c - pen[owner[c]]), base - row)
  }
  column += 8
  if (column < width) return
  column = 0
  row++
}
