# shellcheck shell=bash
# What the scripts of the folders beside this file share: which program they run, and how one run of it is compared with
# what is wanted. Each script sources this file, and at its end calls `report`.
set -Eeuo pipefail
trap 'echo "tests: ${BASH_SOURCE[0]##*/}, line $LINENO: a command of the script itself failed" >&2' ERR

root=$(cd -- "$(dirname -- "${BASH_SOURCE[0]}")/.." && pwd)

# Each way to fit.
fits=(full none fallback best)
export TT_FITS=${fits[*]}

room=$(mktemp -d)
trap 'rm -rf -- "$room"' EXIT

passed=0
failed=0

# no_source_after PROGRAM: whether a program is there, and no source is newer.
no_source_after() {
  local sources=("$root"/crates.txt "$root"/crates/*/{src,specs,proofs})
  [ -x "$1" ] && [ -z "$(find "${sources[@]}" -newer "$1" -print -quit 2>/dev/null)" ]
}

# test_program CRATE PATH WORD..: leaves a program for tests as $program: that of PATH, or where it is empty our own,
# which is proved and built here if it lacks or a source is newer; `rt run` starts it too, with the words.
test_program() {
  local crate=$root/crates/$1
  program=${2:-$crate/out/$1}
  if [ -z "$2" ] && ! no_source_after "$program"; then
    echo "tests: proving and building $1" >&2
    (cd -- "$crate" && rt run -- "${@:3}") </dev/null >"$room/log" 2>&1 || tail -n 20 -- "$room/log" >&2
  fi
  if [ ! -x "$program" ]; then
    echo "tests: there is no program $program" >&2
    exit 1
  fi
}

# until_so WORD..: waits until a command succeeds, a minute at most. What comes then is for the case to judge.
until_so() {
  local tries
  for ((tries = 0; tries < 1200; tries++)); do
    ! "$@" || return 0
    sleep 0.05
  done
}

# skip NAME REASON..: says that a part was not tried, and why. tests/run prints such lines again at its end.
skip() {
  echo "skipped $1: ${*:2}"
}

# no_font NAME FONT: says that a part was not tried, as its font is not here.
no_font() {
  skip "$1" "$2 is not here; tests/real_fonts/install installs it"
}

# Leaves the one that prints what the libraries say, or that of TT_ANSWERS=PATH, as $program.
answers_program() {
  test_program tt_test_answers "${TT_ANSWERS:-}" machine
}

# Leaves our program, or that of TT_RENDER=PATH, as $program. It is started once here, so that the time of building it
# falls on no case, nor its lines on the case's standard error.
render_program() {
  program=${TT_RENDER:-$root/tt_render}
  program=$(readlink -f -- "$program")
  if ! "$program" --help >/dev/null; then
    echo "tests: $program does not start" >&2
    exit 1
  fi
}

# A script that uses the program for tests alone says `asks=answers` before it sources this file. tests/run skips the
# script where that program is not there, and sets TT_ANSWERS=none: a script that also uses our program then skips a part
# of its cases.
case ${asks:-render} in
  answers) answers_program ;;
  *) render_program ;;
esac

# bytes HEX: prints the bytes that hexadecimal digits name.
bytes() {
  printf '%b' "$(sed 's/../\\x&/g' <<<"$1")"
}

# verdict NAME WORD..: counts the case, which failed if there are any words, and prints what they say.
verdict() {
  if [ $# -eq 1 ]; then
    passed=$((passed + 1))
    return
  fi
  failed=$((failed + 1))
  printf 'FAILED %s\n' "$1"
  shift
  printf '  %s\n' "$@"
}

# tried NAME STATUS: compares the run that left $room/status, $room/stdout and $room/stderr with the status and the
# files $room/wanted_stdout and $room/wanted_stderr.
tried() {
  local part why=()
  local got
  got=$(<"$room/status")
  [ "$got" = "$2" ] || why+=("status $got, and not $2")
  for part in stdout stderr; do
    if ! cmp -s -- "$room/$part" "$room/wanted_$part"; then
      why+=("$part has $(wc -c <"$room/$part") bytes, and not the $(wc -c <"$room/wanted_$part") that are wanted:")
      why+=("$(diff -a -- "$room/wanted_$part" "$room/$part" | head -n 6 | cut -c 1-160 || true)")
    fi
  done
  verdict "$1" "${why[@]}"
}

# run WORD..: runs the program and leaves its status, standard output and standard error in the room.
run() {
  local status=0
  "$program" "$@" </dev/null >"$room/stdout" 2>"$room/stderr" || status=$?
  echo "$status" >"$room/status"
}

# wanted STDERR-LINE: the run writes nothing but that line, or with an empty line nothing at all, on standard error.
# Standard input becomes what standard output must have.
wanted() {
  cat >"$room/wanted_stdout"
  : >"$room/wanted_stderr"
  [ -z "$1" ] || printf '%s\n' "$1" >"$room/wanted_stderr"
}

# differs CASE WANTED GOT: prints the first case that differs, in which '/' ends a row.
differs() {
  [ -z "${told:-}" ] || return 0
  told=1
  printf '  the case: %s\n  wanted:\n' "$1"
  tr '/' '\n' <<<"$2" | cut -c 1-160
  printf '  and not:\n'
  tr '/' '\n' <<<"$3" | cut -c 1-160
}

# ask_all NAME WORD..: asks the program, started with the words, each line of $room/cases, and counts the answers that
# are those of $room/wanted, and the others.
ask_all() {
  local status=0 right wrong first
  "$program" "${@:2}" <"$room/cases" >"$room/answers" 2>"$room/stderr" || status=$?
  [ "$status" -eq 0 ] || verdict "$1" "status $status: $(<"$room/stderr")"
  read -r right wrong first < <(awk -v answers="$room/answers" '
    { if ((getline got <answers) <= 0) got = "" }
    got == $0 { right++; next }
    { wrong++; if (!first) first = NR }
    END { print right + 0, wrong + 0, first + 0 }' "$room/wanted")
  passed=$((passed + right))
  failed=$((failed + wrong))
  [ "$wrong" -eq 0 ] || differs "$(sed -n "${first}p" "$room/cases")" "$(sed -n "${first}p" "$room/wanted")" \
    "$(sed -n "${first}p" "$room/answers")"
}

# refuses NAME LINE WHY WORD..: the program, started with the words, takes the line for no question, and says why.
refuses() {
  local status=0
  "$program" "${@:4}" <<<"$2" >"$room/stdout" 2>"$room/stderr" || status=$?
  if [ "$status" -ne 1 ] || ! grep -qF -- "$3" "$room/stderr"; then
    verdict "$1" "status $status, and standard error $(<"$room/stderr")"
  else
    verdict "$1"
  fi
}

# spaced TEXT: prints it with 4 spaces behind each character.
spaced() {
  LC_ALL=C.UTF-8 sed 's/./&    /g' <<<"$1"
}

# is_made_of NAME TABLE FONT: whether a table was made from this file of a font; else the case failed.
is_made_of() {
  if [ ! -e "$3" ]; then
    verdict "$1" "$3 is not here; tests/real_fonts/install installs it"
    return 1
  fi
  if ! grep -q "MD5 $(md5sum <"$3" | cut -d ' ' -f 1)" "$2"; then
    verdict "$1" "$3 is not the version that the table was made from"
    return 1
  fi
}

# report NAME: the script's last line, and its status.
report() {
  echo "$1: $passed passed, $failed failed"
  [ "$failed" -eq 0 ] || exit 1
}
