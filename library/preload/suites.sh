#!/bin/sh
# Runs the test programs of the list suites on the host and over the layer, and compares what each of their tests tells: suites.sh [short]
#
# Environment: PREFIX, what library/install.sh installed; without it rust/library builds the library by Cargo. PYTHON, without it python3, PERL_TESTS,
# the folder t of perl's source, TCL_TESTS, the folder tests of Tcl's source, and GLIB_TESTS, the folder of GLib's installed tests, name where
# programs are. What isn't there is passed over. The last line is 'N passed, M failed', and the status is 1 if one failed.
set -eu
here=$(CDPATH='' cd -- "$(dirname -- "$0")" && pwd)
work=$(mktemp -d)
trap 'rm -rf "$work"' EXIT
prefix=${PREFIX:-}
if [ -z "$prefix" ]; then
    prefix=$work/prefix
    "$here/../../rust/library" "$work/library"
    ARCHIVE=$work/library/libbindingclay.a MEMORY=$work/library/libmemory.a "$here/../install.sh" "$prefix"
fi
"$here/build.sh" "$prefix" "$work/bindingclay_preload.so"
mkdir "$work/runs"
PYTHON=${PYTHON:-python3} python3 -B "$here/suites.py" "$work/bindingclay_preload.so" "$work/runs" "$@"
