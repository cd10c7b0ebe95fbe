#!/bin/sh
# install.sh LIBRARY: what `make install` leaves below a folder is enough to build and to run a program, and names neither
# the repository nor the folder of the library. The status says whether it is.
set -e
top=$(cd "$(dirname "$0")/../.." && pwd)
library=$(cd "$1" && pwd)
room=$(mktemp -d)
trap 'rm -rf "$room"' EXIT
prefix="$room/a prefix"
make -s -C "$top/c" install LIBRARY="$library" PREFIX="$prefix" >"$room/said"
cat >"$room/program.c" <<'END'
#include <ndf.h>
int main(void) {
    ndf_handle h = NDF_NONE;
    if (ndf_version() != NDF_VERSION || ndf_new(&h, 0)) return 1;
    ndf_free(&h);
    return 0;
}
END
cd "$room"
if command -v pkg-config >/dev/null; then
    words=$(PKG_CONFIG_PATH="$prefix/lib/pkgconfig" pkg-config --cflags --libs ndf)
    eval "set -- $words"
else
    set -- "-I$prefix/include" "-L$prefix/lib" -lndf
fi
${CC:-cc} program.c "$@" -o program
LD_LIBRARY_PATH="$prefix/lib" ./program
readelf -d program | grep -q 'NEEDED.*\[libndf\.so\.0\]'
readelf -d "$prefix/lib/libndf.so.0" | grep -q 'SONAME.*\[libndf\.so\.0\]'
! grep -rqF -e "$top" -e "$library" "$prefix"
make -s -C "$top/c" uninstall PREFIX="$prefix"
[ -z "$(find "$prefix" ! -type d)" ]
