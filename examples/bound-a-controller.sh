#!/bin/sh
# Bounds the step of a small controller, compiled from examples/controller/controller.c by GCC for ARM:
#   arm-none-eabi-gcc -O1 -marm -march=armv7ve -mfloat-abi=soft -ffreestanding -nostdlib -Wl,-Ttext=0x8000
# The compiled file lies beside the source, so that this script runs without the compiler.
top=$(cd "$(dirname "$0")/.." && pwd)
files=$top/examples/controller
echo "without a cache, one cycle an instruction:"
"$top/wcet" bound "$files/controller.elf" "$files/controller.f4" - step || exit 1
echo "with the cycles and the instruction cache of hardware.json:"
"$top/wcet" bound "$files/controller.elf" "$files/controller.f4" "$files/hardware.json" step || exit 1
echo "without what is known of its flow:"
"$top/wcet" bound "$files/controller.elf" - - step
[ $? -eq 1 ]
