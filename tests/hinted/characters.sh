# shellcheck shell=bash
# characters FIT: prints the characters of a table: printable ASCII where FIT is best; where it is accents, the letters of
# Latin-1, some of Latin Extended-A, and Greek and Cyrillic ones of which many have accents.
characters() {
  local code codes=({32..126})
  [ "$1" = best ] || codes=({192..214} {216..246} {248..255} {336..382} {940..974} 1025 1031 1049 1081 1105 1111)
  for code in "${codes[@]}"; do
    LC_ALL=C.UTF-8 printf "\\U$(printf '%08x' "$code")"
  done
}
