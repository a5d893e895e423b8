set(CMAKE_SYSTEM_NAME Generic)
set(CMAKE_SYSTEM_PROCESSOR riscv32)
set(CMAKE_TRY_COMPILE_TARGET_TYPE STATIC_LIBRARY)
set(CMAKE_C_COMPILER riscv64-unknown-elf-gcc)
set(CMAKE_ASM_COMPILER riscv64-unknown-elf-gcc)
# Boards have rv32imc or rv32imac, with instructions of 16 bits too: tests built so need --isa=rv32imc or --isa=rv32imac.
set(MARCH rv32im CACHE STRING "the instructions that programs are built of")
set(target "-march=${MARCH} -mabi=ilp32 --specs=picolibc.specs")
set(CMAKE_C_FLAGS_INIT "${target} -DPICOLIBC_INTEGER_PRINTF_SCANF -Og -g")
set(CMAKE_ASM_FLAGS_INIT "${target} -DARGUMENTS -g")
# What stands before each test: a program, and its options after semicolons.
set(RUNNER qemu-riscv32 CACHE STRING "what runs a test")
list(APPEND CMAKE_TRY_COMPILE_PLATFORM_VARIABLES MARCH RUNNER)
set(CMAKE_CROSSCOMPILING_EMULATOR ${RUNNER})
