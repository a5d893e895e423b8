# make -f plain.mk check RUNNER='replaycheck exec -q --error-exitcode=9'
RUNNER ?= qemu-riscv32
BUILD ?= build
CC = riscv64-unknown-elf-gcc
CFLAGS = -march=rv32im -mabi=ilp32 --specs=picolibc.specs -DPICOLIBC_INTEGER_PRINTF_SCANF -DARGUMENTS -Og -g -I.
KIT = ../firmware
SOURCES = gauge.c $(addprefix $(KIT)/,start.S system.c console.c heap_by_name.c)
TESTS = crc fails filter illegal leak null overflow skip undefined

check: $(TESTS:%=$(BUILD)/%.done)

programs: $(patsubst tests/%.c,$(BUILD)/%,$(wildcard tests/*.c))

$(BUILD)/%: tests/%.c $(SOURCES)
	@mkdir -p $(BUILD)
	$(CC) $(CFLAGS) -nostartfiles -T $(KIT)/firmware.ld $^ -o $@

# A status other than 0 fails the test, and its log is shown.
$(BUILD)/%.done: $(BUILD)/%
	@$(RUNNER) $< </dev/null >$(BUILD)/$*.out 2>$(BUILD)/$*.log; status=$$?; \
	case $$status in 0) echo "PASS $*" ;; *) echo "FAIL $*: $$status"; head -n 3 $(BUILD)/$*.log ;; esac

.PHONY: check programs
.PRECIOUS: $(BUILD)/%

# What a program in Rust is linked with.
cargo/start.o: $(SOURCES)
	cd cargo && $(CC) $(CFLAGS) -c $(addprefix ../$(KIT)/,start.S system.c heap_by_name.c)
