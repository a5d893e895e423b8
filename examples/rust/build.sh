#!/usr/bin/env bash
# usage: examples/rust/build.sh [FOLDER [OPTION..]]
#        examples/rust/build.sh --config
#
# Builds levels.elf in the folder out beside this script, or in FOLDER with more options of rustc, by gcc-riscv64-unknown-elf and one of
#
# - a compiler of Rust that has the target, by `rustup target add riscv32im-unknown-none-elf`;
# - one that has the source of core and alloc, as Debian 12 has it in rustc and rust-src. These two are built first, once, into
#   out/sysroot or the folder that RUST_SYSROOT names.
#
# It takes the compiler that RUSTC names, or rustc on the path, or /usr/bin/rustc. One version of the tools makes the same bytes each time,
# wherever the folders lie. --config prints what cargo has to know of a compiler of the second kind, and nothing of one of the first.
# Exit status: 0 built, 1 not, 2 something is missing.
set -euo pipefail
case ${1-} in
  --help) sed -n '2,14s/^# \{0,1\}//p' "$0"; exit 0 ;;
  --config) into='' ;;
  -*) sed -n '2,3s/^# //p' "$0" >&2; exit 2 ;;
  *) into=${1:-$(dirname "$0")/out}; into=$(mkdir -p "$into" && cd "$into" && pwd) ;;
esac
shift $(($# > 0))
sysroot=$(realpath -m "${RUST_SYSROOT:-$(dirname "$0")/out/sysroot}")
cd "$(dirname "$(readlink -f "$0")")"
target=riscv32im-unknown-none-elf
gcc=(riscv64-unknown-elf-gcc -march=rv32im -mabi=ilp32 --specs=picolibc.specs)
# What a program without a handler of its own does where an allocation fails: panic. Compilers of Rust before 1.68 ask for this word.
handler='crate-attr=feature(default_alloc_error_handler)'

fail() {
  echo "build.sh: $*" >&2
  exit 2
}

# has_target RUSTC, has_source RUSTC: what a compiler has.
has_target() { compgen -G "$("$1" --print target-libdir --target $target 2>/dev/null)/libcore*.rlib" >/dev/null; }
has_source() { [ -e "$("$1" --print sysroot 2>/dev/null)/lib/rustlib/src/rust/library/core/src/lib.rs" ]; }

# chosen WHAT: the first compiler that has it.
chosen() {
  local each
  for each in "${compilers[@]}"; do
    if command -v "$each" >/dev/null && "$1" "$each"; then
      command -v "$each"
      return
    fi
  done
}

# rust WORD..: the compiler, for the target. The names of folders on this machine have no place in the file.
rust() {
  "$rustc" --edition 2021 --target $target -C panic=abort --remap-path-prefix "$PWD=." ${source:+--remap-path-prefix "$source=/rust"} "$@"
}

# library OPTION..: builds a crate of the compiler's source.
library() {
  rust --sysroot "$sysroot" --out-dir "$sysroot/lib/rustlib/$target/lib" --crate-type rlib -C opt-level=s -C debuginfo=1 \
    --cap-lints allow "$@"
}

build_libraries() {
  [ "$(cat "$sysroot/built-by" 2>/dev/null)" != "$("$rustc" -vV)" ] || return 0
  rm -rf "$sysroot"
  mkdir -p "$sysroot/lib/rustlib/$target/lib"
  library -Z force-unstable-if-unmarked --crate-name core "$source/core/src/lib.rs"
  library --crate-name compiler_builtins builtins.rs
  library -Z force-unstable-if-unmarked --crate-name alloc "$source/alloc/src/lib.rs"
  "$rustc" -vV >"$sysroot/built-by"
}

print_config() {
  printf '[build]\nrustc = "%s"\n\n[target.%s]\nrustflags = ["--sysroot", "%s", "-Z", "%s"]\n' "$rustc" $target "$sysroot" "$handler"
}

# The file is to be small. So it has the code that is called, and of debugging information the lines; and the thousands of symbols that
# LLVM gives no name are taken out.
build_program() {
  local name
  objects=$(mktemp -d)
  trap 'rm -rf "$objects"' EXIT
  for name in start.S system.c memory.c heap_by_name.c; do
    "${gcc[@]}" -Og -g "-ffile-prefix-map=$PWD=." "-Wa,--debug-prefix-map=$PWD=." -c ../firmware/$name -o "$objects/${name%.*}.o"
  done
  rust "${libraries[@]}" --crate-name levels --crate-type bin -C opt-level=1 -C debuginfo=1 -C lto=fat -C codegen-units=1 \
    -C relocation-model=static -C linker="${gcc[0]}" -C linker-flavor=gcc \
    -C link-args="${gcc[*]:1} -nostartfiles -T../firmware/firmware.ld -Wl,--compress-debug-sections=zlib" \
    -C link-args="$(echo "$objects"/*.o) -lgcc" src/main.rs -o "$objects/levels" "$@"
  riscv64-unknown-elf-objcopy --wildcard --strip-symbol '!?*' --strip-symbol '*' --remove-section '.debug_pub*' \
    "$objects/levels" "$into/levels.elf"
}

command -v "${gcc[0]}" >/dev/null || fail "no ${gcc[0]}: on Debian, apt install gcc-riscv64-unknown-elf picolibc-riscv64-unknown-elf"
compilers=(rustc /usr/bin/rustc)
[ -z "${RUSTC-}" ] || compilers=("$RUSTC")
source='' libraries=()
rustc=$(chosen has_target)
if [ -z "$rustc" ]; then
  rustc=$(chosen has_source)
  [ -n "$rustc" ] || fail "no compiler of Rust for $target: rustup target add $target; or on Debian 12, apt install rustc rust-src"
  source=$(readlink -f "$("$rustc" --print sysroot)/lib/rustlib/src/rust/library")
  # The source of core and alloc needs what a release of the compiler holds back.
  export RUSTC_BOOTSTRAP=1
  build_libraries
  libraries=(--sysroot "$sysroot" -Z "$handler")
fi
if [ -n "$into" ]; then
  build_program "$@"
elif [ -n "$source" ]; then
  print_config
fi
