#!/bin/sh
# Bounds a function of an executable that a stock ARM linker made. It needs the Debian package
# binutils-arm-none-eabi, and is skipped where that isn't installed.
top=$(cd "$(dirname "$0")/.." && pwd)
for tool in arm-none-eabi-as arm-none-eabi-ld; do
    if ! command -v "$tool" >/dev/null; then
        echo "skipped: $tool isn't installed"
        exit 0
    fi
done
room=$(mktemp -d)
trap 'rm -rf "$room"' EXIT
cat >"$room/clamp.s" <<'S'
    .arch armv7-a
    .text
    .global _start
    .type _start, %function
_start:
    bx lr
    .global clamp
    .type clamp, %function
@ The lesser of r0 and 100, and never less than 0: at most five instructions.
clamp:
    cmp r0, #100
    movgt r0, #100
    cmp r0, #0
    movlt r0, #0
    bx lr
S
arm-none-eabi-as -o "$room/clamp.o" "$room/clamp.s" &&
    arm-none-eabi-ld -Ttext=0x8000 -o "$room/clamp.elf" "$room/clamp.o" &&
    "$top/wcet" bound "$room/clamp.elf" - - clamp
