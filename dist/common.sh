# shellcheck shell=bash
# What the scripts of this folder share with each other and with the launcher, ../tt_render. A script sources it, and
# its messages begin with $me.
dist=$(cd -- "$(dirname -- "${BASH_SOURCE[0]}")" && pwd)

# stop WORD..: says why there is nothing more to be done.
stop() {
  printf '%s: %s\n' "$me" "$*" >&2
  exit 1
}

# proved WORD: prints what the file PROVED says by that word.
proved() {
  sed -n "s/^$1 //p" "$dist/PROVED"
}

# Whether the files are those that were made together.
is_whole() {
  (cd -- "$dist" && sha256sum --quiet --strict -c SHA256SUMS >/dev/null 2>&1)
}

# sum_of_sources ROOT: prints one sum of all that the proofs read of a repository.
sum_of_sources() {
  (
    cd -- "$1" || exit 1
    shopt -s nullglob
    { printf '%s\0' crates.txt HANDLES && find crates/*/{src,specs,proofs} -type f -print0; } | LC_ALL=C sort -z |
      xargs -0 sha256sum | sha256sum | cut -d ' ' -f 1
  )
}

# is_made_of ROOT: whether the files were made of the sources as they are.
is_made_of() {
  local sum
  sum=$(sum_of_sources "$1") && [ -n "$sum" ] && [ "$sum" = "$(proved sources)" ]
}

# find_compiler ROOM [static|dynamic]: leaves as ${cc[@]} and ${flags[@]} the C compiler and its flags, those of CC and
# CFLAGS where they are given; as $machine the folder of the processor that it compiles for; and as ${link[@]} the flag
# for a program that is static or dynamic. Without a word the program is static, if the C library has the files.
find_compiler() {
  local target tool way tried said
  read -ra cc <<<"${CC:-cc}"
  read -ra flags <<<"${CFLAGS--O2}"
  command -v "${cc[0]}" >/dev/null ||
    stop "${cc[0]} is not on the PATH; a C compiler is needed, on Debian: apt-get install gcc libc6-dev"
  for tool in gzip sha256sum; do
    command -v "$tool" >/dev/null || stop "$tool is not on the PATH"
  done
  target=$("${cc[@]}" -dumpmachine 2>/dev/null) || target=$(uname -m)-linux
  case $target in
    x86_64-*) machine=x86-64 ;;
    aarch64-*) machine=aarch64 ;;
    *) machine= ;;
  esac
  [ -n "$machine" ] && fits_text "$1" ||
    stop "${cc[*]} ${flags[*]} compiles for a target without a text; there are texts for x86-64 and aarch64, 64-bit ELF"
  echo 'int main(void) { return 0; }' >"$1/tried.c"
  for way in ${2:-static dynamic}; do
    link=()
    [ "$way" = dynamic ] || link=(-static)
    tried=("${cc[@]}" "${flags[@]}" "${link[@]}")
    ! said=$("${tried[@]}" -o "$1/tried" "$1/tried.c" 2>&1) || return 0
  done
  stop "${tried[*]} makes no program here: an assembler, a linker or the C library's files lack${said:+$'\n'$said}"
}

# fits_text ROOM: whether the compiler, with its flags, compiles for what the texts are for. Its own name of its target
# says nothing of flags such as -m32, with which an assembler refuses each line of a text.
fits_text() {
  cat >"$1/tried.c" <<'C'
#if !defined(__LP64__) || !defined(__ELF__) || !(defined(__x86_64__) || defined(__aarch64__)) || defined(__AARCH64EB__)
#error another target
#endif
C
  "${cc[@]}" "${flags[@]}" -E -o "$1/tried.i" "$1/tried.c" >/dev/null 2>&1
}

# lacks_of_processor FILE: prints what a processor lacks of x86-64-v2, as FILE tells it in the form of /proc/cpuinfo.
lacks_of_processor() {
  local word has lacking=()
  while read -r word has; do
    [ "$word" = flags ] || continue
    for word in cx16 lahf_lm popcnt pni sse4_1 sse4_2 ssse3; do
      [[ " $has " == *" $word "* ]] || lacking+=("$word")
    done
    break
  done <"$1"
  printf '%s' "${lacking[*]}"
}

# text_of NAME FILE: unpacks the assembler text of the program or the library.
text_of() {
  [ -f "$dist/$machine/$1.s.gz" ] || stop "there is no text for $machine"
  gzip -dc <"$dist/$machine/$1.s.gz" >"$2"
}

# compile WORD..: calls the C compiler. Of one that fails a line is shown, as it may complain of each line of a text, but
# of a linker its first lines, which name what lacks.
compile() {
  local said line
  if said=$(LC_ALL=C "${cc[@]}" "${flags[@]}" "$@" 2>&1); then
    [ -z "$said" ] || printf '%s\n' "$said" >&2
    return
  fi
  if [[ $said == *'ld returned'* || $said == *'linker command failed'* ]]; then
    stop "${cc[*]} ${flags[*]} does not link:"$'\n'"$(head -n 20 <<<"$said")"
  fi
  while read -r line && [[ ${line,,} != *error* ]]; do :; done <<<"$said"
  stop "${cc[*]} ${flags[*]} failed: ${line:-${said%%$'\n'*}}"
}

# link_program ROOM FILE: makes the program, in a folder for what stands between.
link_program() {
  text_of tt_render "$1/tt_render.s"
  compile "${link[@]}" -o "$2" "$1/tt_render.s" "$dist"/{host,heap,processor}.c -Wl,--gc-sections -Wl,--wrap=main
}

# archive_library ROOM FOLDER [FLAG..]: makes of the library's text, in the room, and of heap.c and processor.c of a
# folder the archive. It has three members: a host that defines the three functions of the heap itself omits heap.o.
archive_library() {
  local part
  command -v ar >/dev/null || stop 'ar is not on the PATH'
  compile -fPIC -c -o "$1/libtt_render.o" "$1/libtt_render.s"
  for part in heap processor; do
    compile "${@:3}" -fPIC -c -o "$1/$part.o" "$2/$part.c"
  done
  rm -f -- "$1/libtt_render.a"
  ar rcs "$1/libtt_render.a" "$1"/{libtt_render,heap,processor}.o || stop 'ar failed'
}
