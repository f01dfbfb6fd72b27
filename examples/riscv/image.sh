#!/usr/bin/env bash
# Makes an image of a C file by clang and lld: image.sh hello.c hello.image
# Another compiler by its words in CC, and OBJCOPY; other options in FLAGS.
set -eu
work=$(mktemp -d)
trap 'rm -rf "$work"' EXIT
${CC-clang --target=riscv32 -fuse-ld=lld} -march=rv32im -mabi=ilp32 ${FLAGS--O2} -ffreestanding -nostdlib -Wl,-T,"${0%/*}/image.ld" -o "$work/elf" "$1"
for part in text data; do
  ${OBJCOPY-llvm-objcopy} -O binary -j ".$part" "$work/elf" "$work/$part"
done
python3 - "$work/text" "$work/data" > "$2" <<'END'
import struct, sys
code, data = (open(name, 'rb').read() for name in sys.argv[1:])
code += bytes(-len(code) % 4)
header = struct.pack('<16s2H5I6H', b'\x7fELF\1\1\1', 2, 243, 1, 0x1000, 52, 0, 0, 52, 32, 2, 0, 0, 0)
for at, address, size, room, rights in ((116, 0x1000, len(code), len(code), 5), (116 + len(code), 0x2000000, len(data), 0x1000000, 6)):
    header += struct.pack('<8I', 1, at, address, address, size, room, rights, 4)
sys.stdout.buffer.write(header + code + data)
END
