#!/bin/sh
# Builds the shared object that gives a program's pipes to the layer: library/preload/build.sh PREFIX OUT
#
# PREFIX is what library/install.sh installed, and OUT the file to write. CC is the compiler, without it cc.
set -eu
if [ $# -ne 2 ]; then
    echo "usage: build.sh PREFIX OUT" >&2
    exit 2
fi
here=$(CDPATH='' cd -- "$(dirname -- "$0")" && pwd)
"${CC:-cc}" -std=c11 -O2 -g -fPIC -Wall -Wextra -Werror -U_FORTIFY_SOURCE "-I$1/include" -shared -o "$2" "$here"/*.c -Wl,-z,defs -Wl,--exclude-libs,ALL \
    -Wl,--wrap=malloc,--wrap=calloc,--wrap=realloc,--wrap=free "-L$1/lib" -lbindingclay_shared -lbindingclay -ldl -pthread
