#!/usr/bin/env bash
# Makes the sample segments of crates/okw/data anew, with okw itself: a good one, and from it one that is cut inside the last entry, one with a wrong byte,
# and one that ends in a stray mark. Usage: tests/samples.sh [OKW], from anywhere; OKW is crates/okw/out/okw by default.
set -euo pipefail
cd "$(dirname "$0")/.."
okw=$(realpath "${1:-crates/okw/out/okw}")
cd crates/okw/data
rm -f -- *.okw

"$okw" new journal.okw 7 256
"$okw" append journal.okw 7 7 'power up' 'QNH 1013'
"$okw" append journal.okw 7 8 'altitude 3500 ft'
"$okw" append journal.okw 7 9 'heading 274' 'power down'

# inside the data of the last chunk
head -c 125 journal.okw > cut.okw
# a byte of the first chunk
cp journal.okw damaged.okw
printf 'P' | dd of=damaged.okw bs=1 seek=19 conv=notrunc status=none
# three bytes of version info, and behind the last entry a chunk's mark with no more than two bytes of its length
{ printf 'okw\000\003v1.'; tail -c +6 journal.okw | head -c 128; printf '\002\005\000'; } > stray.okw
