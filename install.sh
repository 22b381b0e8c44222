#!/bin/sh
# Proves and installs the programs, the archive, its header, the man pages and a pkg-config file under a prefix.
set -eu
usage() { echo "install.sh [--prefix DIR]   (default /usr/local; DESTDIR is put before it)"; }
prefix=/usr/local
while [ $# -gt 0 ]; do
    case $1 in
    --prefix) [ $# -gt 1 ] || { usage >&2; exit 2; }; prefix=$2; shift ;;
    --prefix=*) prefix=${1#*=} ;;
    -h | --help) usage; exit ;;
    *) usage >&2; exit 2 ;;
    esac
    shift
done
case $prefix in /*) ;; *) prefix=$(pwd)/$prefix ;; esac
cd "$(dirname "$0")"
mkdir -p target
for program in charge convert watch; do
    (cd crates/$program && rt run <stdin) >target/$program.log 2>&1 || { cat target/$program.log >&2; exit 1; }
done
(cd crates/runcefo_c && rt lib)
version=$(sed -n 's/^#define RUNCEFO_VERSION "\(.*\)"/\1/p' include/runcefo.h)
to=${DESTDIR-}$prefix
mkdir -p "$to/bin" "$to/include" "$to/lib/pkgconfig" "$to/share/man/man1"
install -m 755 crates/charge/out/charge "$to/bin/charge"
install -m 755 crates/convert/out/convert "$to/bin/convert"
install -m 755 crates/watch/out/watch "$to/bin/watch"
install -m 644 include/runcefo.h "$to/include/runcefo.h"
install -m 644 crates/runcefo_c/out/libruncefo_c.a "$to/lib/libruncefo.a"
install -m 644 docs/charge.1 "$to/share/man/man1/charge.1"
install -m 644 docs/convert.1 "$to/share/man/man1/convert.1"
install -m 644 docs/watch.1 "$to/share/man/man1/watch.1"
cat >"$to/lib/pkgconfig/runcefo.pc" <<PC
prefix=$prefix
libdir=\${prefix}/lib
includedir=\${prefix}/include

Name: runcefo
Description: The proved charge planner: the mixed integer knapsack problem, solved exactly
Version: $version
Cflags: -I\${includedir}
Libs: -L\${libdir} -lruncefo
PC
echo "installed under $to"
