# shellcheck shell=sh
# What the tests of the installed packages share; they begin at the top of the sources. Each draws the first picture of
# README, at which is_hello looks.
set -eu
sources=$PWD
font=/usr/share/fonts/truetype/dejavu/DejaVuSans.ttf
cd -- "$AUTOPKGTEST_TMP"

# shown FILE: prints the rows of a picture in PBM that have black pixels, as # and dots.
shown() {
  width=$(LC_ALL=C sed -n '2s/ .*//p;2q' "$1")
  tail -c "+$(($(head -n 2 "$1" | wc -c) + 1))" "$1" | od -An -v -tx1 "-w$(((width + 7) / 8))" |
    sed 's/ //g; s/0/..../g; s/1/...#/g; s/2/..#./g; s/3/..##/g; s/4/.#../g; s/5/.#.#/g; s/6/.##./g; s/7/.###/g
      s/8/#.../g; s/9/#..#/g; s/a/#.#./g; s/b/#.##/g; s/c/##../g; s/d/##.#/g; s/e/###./g; s/f/####/g' |
    cut -c "1-$width" | grep '#'
}

# is_hello FILE: whether a picture is the one that README shows.
is_hello() {
  shown "$1" >"$1.shown"
  sed -n 's/^    \([.#][.#]*\)$/\1/p' "$sources/README.md" | diff - "$1.shown"
}
