# Compares outlines with FreeType's, at the sizes that `sizes` has, with commas. Files are told apart by
# what=answers, lines of `tt_test_answers outlines` with the size in front; what=listed, lines SIZE GLYPH MOST of the
# differences that are known; and what=table, lines of fitted_by_freetype.c, which says what they hold. For each glyph
# and size of the table prints a line, SIZE GLYPH and the greatest difference of a coordinate in 1/64 pixel, or `other`
# and why the two can't be compared; `known` stands behind a difference that is listed.
what == "answers" { answer[$1 " " $2] = $0 }
what == "listed" { known[$1 " " $2] = $3 }
what == "table" {
  for (i = 1; i <= count; i++) print size[i], $1, judged(size[i] " " $1, $2, $(3 * i), $(3 * i + 1), $(3 * i + 2))
}

BEGIN { count = split(sizes, size, ",") }

# Leaves the coordinates that the differences of a text lead to in the list, and in flags whether the point is on the
# curve, and returns how many they are.
function coordinates(text, list, flags,    n, at, sign) {
  n = at = 0
  while (match(text, /^[-+<>][0-9]+|^[.:]/)) {
    sign = substr(text, 1, 1)
    if (sign ~ /[+>]/) at += substr(text, 2, RLENGTH - 1)
    if (sign ~ /[-<]/) at -= substr(text, 2, RLENGTH - 1)
    flags[n] = sign ~ /[-+.]/
    list[n++] = at
    text = substr(text, RLENGTH + 1)
  }
  return n
}

function distance(a, b) { return a < b ? b - a : a - b }

function to_pixels(v) { return int((v + 65568) / 64) * 64 - 65536 }

# What is to be said of a glyph at a size, where FreeType has these ends, this advance and these points.
function judged(place, ends, advance, x, y,    words, n, first, got, i, most, d) {
  n = split(answer[place], words)
  if (words[3] != "phantom") return "other: " answer[place]
  for (i = 13; words[i] != "points"; i++) got = got (i > 13 ? "," : "") words[i]
  if ((got == "" ? "-" : got) != ends) return "other: contours end at " got ", and not " ends
  first = i + 1
  if (coordinates(x, xs, on) != (n - i) / 3 || coordinates(y, ys, each) != (n - i) / 3) return "other: number of points"
  most = distance(to_pixels(words[6] - words[4]), advance)
  for (i = first; i <= n; i += 3) {
    if (words[i + 2] != on[(i - first) / 3]) return "other: a point on the curve in one alone"
    d = distance(words[i] - words[4], xs[(i - first) / 3])
    if (d > most) most = d
    d = distance(words[i + 1], ys[(i - first) / 3])
    if (d > most) most = d
  }
  if (!(place in known)) return most
  return most (known[place] == most ? " known" : " and not " known[place])
}
