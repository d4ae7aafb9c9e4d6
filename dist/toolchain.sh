# shellcheck shell=bash
# What dist/make and dist/check share: they build a crate once more with the Rattle toolchain, over the libraries that
# the gate, `rt ci`, left in crates/*/out/rlib, and keep the assembler text that its compiler can print. Sourced after
# common.sh.
root=$(cd -- "$dist/.." && pwd)
gates_program=$root/crates/tt_program/out/tt_program

# The targets, by the folder that has their texts, each with what its assembler takes the text for. Where code is
# aligned, what fills the gap depends on the processor; this is the one that the compiler fills it for.
declare -A triple_of=([x86-64]=x86_64-unknown-linux-gnu [aarch64]=aarch64-unknown-linux-gnu)
declare -A march_of=([x86-64]=x86-64-v2 [aarch64]=armv8-a)

# The crates, by the names that their texts have.
declare -A crate_of=([tt_render]=tt_program [libtt_render]=tt_c)

# find_kit: leaves as $kit the folder of the Rattle toolchain.
find_kit() {
  command -v rt >/dev/null || stop 'rt, the command of the Rattle toolchain, is not on the PATH'
  kit=$(dirname -- "$(rt doc)")
}

# find_toolchain ROOM [text]: leaves the kit's folder as $kit, and in the room a toolchain that differs from the kit's in
# one thing: where its compiler is to make an object, it also leaves the text of it as the room's file `text`; with the
# word `text` it makes the object of that, and so compiles once and not twice. rattle hands its compiler no environment,
# so all that it is to know is written into the script.
find_toolchain() {
  local tool
  find_kit
  of_text=${2:-}
  mkdir -p -- "$1/toolchain/bin"
  ln -s -- "$kit/toolchain/lib" "$1/toolchain/lib"
  for tool in "$kit"/toolchain/bin/*; do
    ln -s -- "$tool" "$1/toolchain/bin/"
  done
  rm -- "$1/toolchain/bin/clang"
  cat >"$1/toolchain/bin/clang" <<WRAPPER
#!/usr/bin/env bash
clang=$(printf %q "$kit/toolchain/bin/clang")
text=$(printf %q "$1/text")
of_text=$of_text
WRAPPER
  cat >>"$1/toolchain/bin/clang" <<'WRAPPER'
given=("$@")
words=()
for word; do
  [[ $word != --target=* ]] || target=$word
done
while [ $# -gt 0 ]; do
  case $1 in
    -c) compiles=1 words+=(-S -fno-verbose-asm) ;;
    -o) made=$2 words+=(-o "$text") && shift ;;
    *) words+=("$1") ;;
  esac
  shift
done
[ -n "${compiles:-}" ] || exec "$clang" "${given[@]}"
"$clang" "${words[@]}" || exit
[ -n "$of_text" ] || exec "$clang" "${given[@]}"
exec "$clang" "$target" --no-default-config -c -x assembler -o "$made" "$text"
WRAPPER
  chmod +x "$1/toolchain/bin/clang"
}

# assemble MACHINE TEXT OBJECT: makes of the compiler's text the object that the compiler made.
assemble() {
  "$kit/toolchain/bin/clang" --target="${triple_of[$1]}" -march="${march_of[$1]}" --no-default-config -Werror \
    -c -x assembler -o "$3" "$2"
}

# GNU's assembler does not know the directives of LLVM that name the symbols whose addresses matter, which only LLVM's
# linker asks for, and then only to fold functions that are the same. So they stand in dist/ as comments.
hide_addrsig() {
  sed 's/^\t\.addrsig/#&/'
}

show_addrsig() {
  sed 's/^#\(\t\.addrsig\)/\1/'
}

# tell_of CRATE: leaves as ${told[@]} what rattle is told of a crate, whose folder is the current one: its root, and the
# libraries below it in crates/*/out/rlib.
tell_of() {
  local dep from folder
  told=(--crate-name "$1")
  case $1 in
    tt_program) told+=(src/main.rt) ;;
    tt_c) told+=(src/lib.rt --crate-type staticlib) ;;
    *) told+=(src/lib.rt) ;;
  esac
  told+=(--extern "std=$kit/rlibs/std.rlib" -L "dependency=$kit/rlibs")
  for dep in $(libraries_of "$1"); do
    from=$root/crates/$dep/out/rlib
    [ -d "$root/crates/$dep" ] || from=$kit/rlibs
    [ -d "$from/$dep.rlib" ] || stop "there is no library $from/$dep.rlib, which the gate leaves"
    told+=(--extern "$dep=$from/$dep.rlib")
  done
  for folder in "$root"/crates/*/out/rlib; do
    told+=(-L "dependency=$folder")
  done
  told+=(--antt-project "$kit/rattle/logic/antt-project.json" --logic-built "$kit/logic_built" --links "$1=")
}

# libraries_of CRATE: prints the libraries that crates.txt gives a crate.
libraries_of() {
  sed -n "s/^$1 *: *//p" "$root/crates.txt"
}

# build NAME MACHINE ROOM TEXT OBJECT: proves and compiles a crate again, and leaves its text, as dist/ has it, and its
# object, and rattle's report as the room's file `log`. What is proved for one processor is kept in the room, so that it
# is not proved again for the other; the verdict then says `incremental=trusted`.
build() {
  local crate=${crate_of[$1]} made=$3/made jobs words told
  cd -- "$root/crates/$crate"
  tell_of "$crate"
  # The few short proofs of the library are no sooner done by several jobs, which each read all that it stands on.
  jobs=$(nproc)
  [ "$crate" != tt_c ] || jobs=1
  words=("${told[@]}" --incremental "$3/incremental.$crate" --jobs "$jobs")
  words+=(--target "${triple_of[$2]}" --toolchain "$3/toolchain" --backend llvm)
  rm -rf -- "$made" "$3/text"
  "$kit/bin/rattle" build "${words[@]}" -o "$made" >"$3/log" 2>&1 || {
    grep -v ': proved$' "$3/log" | tail -n 20 >&2
    stop "$crate was not built for $2"
  }
  [ -s "$3/text" ] || stop "the compiler printed no text of $crate for $2"
  case $1 in
    lib*) (cd -- "$3" && "$kit/toolchain/bin/llvm-ar" p made) >"$5" ;;
    *) mv -- "$made" "$5" ;;
  esac
  if [ -z "$of_text" ]; then
    assemble "$2" "$3/text" "$3/again.o" || stop "the text of $crate for $2 does not assemble"
    cmp -s -- "$3/again.o" "$5" || stop "the text of $crate for $2 makes another object than its compiler made"
  fi
  hide_addrsig <"$3/text" >"$4"
}

# link_as_gate OBJECT PROGRAM: links a program as the gate does.
link_as_gate() {
  "$kit/bin/rattle-link" --target "${triple_of[x86-64]}" --toolchain "$kit/toolchain" -o "$2" "$1" \
    "$kit/c/libos_c.a" "$kit/c/liblibc_c.a" 2>/dev/null
}
