# The same by clang 14. gcc assembles and links.
include(${CMAKE_CURRENT_LIST_DIR}/gcc.cmake)
set(CMAKE_C_COMPILER clang-14)
set(CMAKE_C_COMPILER_TARGET riscv32-unknown-elf)
set(CMAKE_C_FLAGS_INIT "${target} -mno-relax -isystem /usr/lib/picolibc/riscv64-unknown-elf/include -O2 -g")
set(CMAKE_C_LINK_EXECUTABLE "riscv64-unknown-elf-gcc ${target} --specs=picolibc.specs <LINK_FLAGS> <OBJECTS> -o <TARGET> <LINK_LIBRARIES>")
