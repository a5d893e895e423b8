#!/usr/bin/env bash
# usage: examples/firmware/build.sh [FOLDER [MARCH]]
#
# Builds the programs of this folder and of the one above, each beside its source, and some for rv32imc and rv32imac into the folders of
# these names; or all of them into FOLDER, there perhaps for other instructions than rv32im, such as rv32imac. ring.elf needs atomic ones,
# and tasks.elf and meter.elf control registers, which come with those of 16 bits.
# One version of the tools makes the same bytes each time, wherever the folders lie; the section .comment says which compiler it was.
#
# The files that are checked in hold code of this repository alone. average.elf, labels.elf and library.elf have picolibc in them,
# and are left to who has it. Wants gcc-riscv64-unknown-elf and picolibc-riscv64-unknown-elf.
set -euo pipefail
case ${1-} in
  --help) sed -n '2,10s/^# \{0,1\}//p' "$0"; exit 0 ;;
  -*) sed -n 2p "$0" >&2; exit 2 ;;
esac
march=${2:-rv32im}
into=${1:+$(mkdir -p "$1" && cd "$1" && pwd)}
cd "$(dirname "$(readlink -f "$0")")"
declare -A also=([rv32imc]='boot boot-twice differences kinds station' [rv32imac]='ring tasks meter') # what these folders have
gcc=riscv64-unknown-elf-gcc
command -v $gcc >/dev/null || { echo "build.sh: no $gcc" >&2; exit 2; }

# The names of folders on this machine have no place in the files, nor have those of temporary objects.
moved=("$PWD=." "${PWD%/*}=.." "/usr/lib/=")
target=("-march=$march" -mabi=ilp32 --specs=picolibc.specs)
flags=("${target[@]}" -Og -g -Wall -Wextra "${moved[@]/#/-ffile-prefix-map=}" "${moved[@]/#/-Wa,--debug-prefix-map=}")
objects=$(mktemp -d)
trap 'rm -rf "$objects"' EXIT

for source in *.S *.c ../*.s; do
  name=${source##*/}
  $gcc "${flags[@]}" -c "$source" -o "$objects/${name%.*}.o"
done
$gcc "${flags[@]}" -include heap_by_number.h -c station.c -o "$objects/station-by-number.o"
$gcc "${flags[@]}" -DTWICE -c boot.c -o "$objects/boot-twice.o"
for name in names heap; do
  $gcc "${flags[@]}" -c board/$name.c -o "$objects/board-$name.o"
done
for source in board/start.S vendor/start.S vendor/tasks.c chip/start.S chip/meter.c; do
  name=${source//\//-}
  $gcc "${flags[@]}" "-march=${march}_zicsr_zifencei" -c "$source" -o "$objects/${name%.*}.o"
done

# linked FILE SCRIPT WORD..: names of objects, and options for the linker.
linked() {
  (cd "$objects" && $gcc "${target[@]}" -nostartfiles -T "$OLDPWD/$2" "${@:3}" -o linked)
  mv "$objects/linked" "$1"
}

for name in three-words use-after-free undefined-branches packet; do
  linked "${into:-..}/$name.elf" ../words.ld -nostdlib -n -Wl,--no-gc-sections $name.o
done

# What each has, and after it the program's own. The heap comes last, so that all else has the same addresses with either.
firmware() {
  linked "${into:-.}/$1.elf" firmware.ld start.o system.o "${@:2}"
}
by_vendor() {
  linked "${into:-.}/$1.elf" firmware.ld vendor-start.o system.o "${@:2}"
}

firmware kinds -nostdlib kinds.o memory.o heap_by_name.o
firmware differences -nostdlib differences.o memory.o heap_by_name.o
firmware station -nostdlib station.o memory.o heap_by_name.o
firmware station-by-number -nostdlib station-by-number.o memory.o heap_by_number.o
firmware polled -nostdlib polled.o
firmware boot -nostdlib boot.o
firmware boot-twice -nostdlib boot-twice.o
[[ $march != rv32ima* ]] || firmware ring -nostdlib ring.o memory.o heap_by_name.o
[[ $march != rv32im*c ]] || by_vendor tasks -nostdlib vendor-tasks.o memory.o heap_by_name.o
[[ $march != rv32im*c ]] || linked "${into:-.}/meter.elf" chip/chip.ld -nostdlib chip-start.o chip-meter.o system.o
linked "${into:-.}/board.elf" board/board.ld -nostdlib board-{start,names,heap}.o system.o memory.o
firmware average average.o console.o -DPICOLIBC_INTEGER_PRINTF_SCANF
firmware library library.o console.o heap_by_name.o -lm
firmware labels labels.o heap_by_name.o --picolibc-buildtype=release

if [ -z "$into" ]; then
  for isa in "${!also[@]}"; do
    ./build.sh "$objects/$isa" "$isa"
    mkdir -p "$isa"
    for name in ${also[$isa]}; do
      mv "$objects/$isa/$name.elf" "$isa"
    done
  done
fi
