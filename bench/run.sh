#!/bin/sh
# How fast the built program paints, copies, converts and combines surfaces of 1024 by 768, beside memory.
#
#     bench/run.sh [--program PATH] [--runs N]
#
# The speed of memory is that of a small C program; where no C compiler is at hand, these columns are left out.
here=$(cd "$(dirname "$0")" && pwd) || exit 1
cd "$here/.." || exit 1
room=$(mktemp -d) || exit 1
trap 'rm -rf "$room"' EXIT
memory=
if command -v cc >/dev/null 2>&1; then
  cc -O2 -o "$room/memory" bench/memory.c && memory=$room/memory
else
  echo "bench: no C compiler is here, so nothing stands beside the speeds" >&2
fi
python3 bench/run.py --memory "$memory" "$@"
