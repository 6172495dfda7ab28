#!/usr/bin/env bash
# Makes Debian packages: packaging/deb.sh PROGRAM FOLDER, as `make deb` does.
#   pocket          the program, its manual page and the completions of bash and zsh
#   libpocket1      the shared library
#   libpocket-dev   the header, the static library, the file of pkg-config
#   python3-pocket  the Python module
# Their version is that which the program tells, their time that of the commit, or of CHANGELOG.md without git: two builds of one commit
# are equal to the bit. What `make install` needs (PROVED, KIT) is taken from the environment if it stands there.
set -eu
program=$(realpath "$1")
mkdir -p "$2"
folder=$(realpath "$2")
top=$(cd "$(dirname "$0")/.." && pwd)
version=$("$program" --version | cut -d' ' -f2)
kind=$(dpkg --print-architecture)
place=/usr/lib/$(gcc -print-multiarch)
maintainer="pocket maintainers <maintainers@users.noreply.bingomyrtle.example>"
SOURCE_DATE_EPOCH=$(git -C "$top" log -1 --format=%ct 2> /dev/null || stat -c %Y "$top/CHANGELOG.md")
export SOURCE_DATE_EPOCH
room=$(mktemp -d)
trap 'rm -rf "$room"' EXIT
umask 022
all=$room/all
make -s -C "$top" install DESTDIR="$all" PREFIX=/usr LIBDIR="$place" ZSHDIR=/usr/share/zsh/vendor-completions MODULES=/usr/lib/python3/dist-packages \
    BUILD="$room/build" PROGRAM="$program" ${PROVED:+PROVED="$PROVED"} ${KIT:+KIT="$KIT"}
strip "$all/usr/bin/pocket"
strip --strip-unneeded --remove-section=.comment --remove-section=.note "$all$place/libpocket.so.$version"
strip --strip-debug --enable-deterministic-archives "$all$place/libpocket.a"
gzip -9n "$all/usr/share/man/man1/pocket.1"

# The version of the C library that a file needs.
libc_of() {
    objdump -T "$1" | grep -o 'GLIBC_[0-9.]*' | sort -uV | tail -n 1 | cut -d_ -f2
}

# Moves files of the installation into a package: take PACKAGE FILE..
take() {
    local package=$1 file
    shift
    for file in "$@"; do
        mkdir -p "$room/$package$(dirname "$file")"
        mv "$all$file" "$room/$package$file"
    done
}

# Builds a package, whose description comes from standard input: pack PACKAGE ARCHITECTURE SECTION DEPENDS [FIELD]
pack() {
    local stage=$room/$1 docs=$room/$1/usr/share/doc/$1 name=${1}_${version}_$2.deb
    mkdir -p "$docs" "$stage/DEBIAN"
    cp "$top/packaging/copyright" "$docs/copyright"
    gzip -9nc "$top/CHANGELOG.md" > "$docs/NEWS.gz"
    printf 'pocket (%s) unstable; urgency=medium\n\n  * NEWS.gz says what changed for users.\n\n -- %s  %s\n' \
        "$version" "$maintainer" "$(date -R -u -d "@$SOURCE_DATE_EPOCH")" | gzip -9n > "$docs/changelog.gz"
    {
        printf 'Package: %s\nSource: pocket\nVersion: %s\nArchitecture: %s\nMaintainer: %s\n' "$1" "$version" "$2" "$maintainer"
        printf 'Installed-Size: %s\nDepends: %s\nSection: %s\nPriority: optional\n' \
            "$(find "$stage/usr" -printf '%y %s\n' | awk '{sum += $1 == "f" ? int(($2 + 1023) / 1024) : 1} END {print sum}')" "$4" "$3"
        [ -z "${5:-}" ] || echo "$5"
        cat
    } | if [ "$1" = pocket ]; then sed '/^Source: /d'; else cat; fi > "$stage/DEBIAN/control"
    (cd "$stage" && find usr -type f -print0 | sort -z | xargs -0 md5sum > DEBIAN/md5sums)
    dpkg-deb --root-owner-group --build "$stage" "$folder/$name" > "$room/log" || { cat "$room/log"; exit 1; }
    echo "$folder/$name"
}

take pocket /usr/bin/pocket /usr/share/man/man1/pocket.1.gz /usr/share/bash-completion/completions/pocket /usr/share/zsh/vendor-completions/_pocket
pack pocket "$kind" science "libc6 (>= $(libc_of "$room/pocket/usr/bin/pocket"))" << 'END'
Description: proved POCKET+ compression of housekeeping packets
 Compresses the housekeeping packets of a spacecraft into a store of Space
 Packets, and from what arrives of it gives back each packet exactly as it
 was, or lists it as one that it can't give back, with the cause.
END

take libpocket1 "$place/libpocket.so.$version" "$place/libpocket.so.1"
mkdir -p "$room/libpocket1/DEBIAN"
library=$room/libpocket1$place/libpocket.so.$version
echo "libpocket 1 libpocket1 (>= $version)" > "$room/libpocket1/DEBIAN/shlibs"
{
    printf "libpocket.so.1 libpocket1 #MINVER#\n* Build-Depends-Package: libpocket-dev\n"
    { echo "POCKET_1@POCKET_1"; nm -D --defined-only "$library" | sed -n 's/.* T \(.*\)@@/\1@/p'; } | LC_ALL=C sort | sed "s/.*/ & $version/"
} > "$room/libpocket1/DEBIAN/symbols"
echo "activate-noawait ldconfig" > "$room/libpocket1/DEBIAN/triggers"
pack libpocket1 "$kind" libs "libc6 (>= $(libc_of "$library"))" "Multi-Arch: same" << 'END'
Description: proved POCKET+ senders and receivers, the shared library
 Senders and receivers of compressed housekeeping packets for programs, and
 the commands of pocket over bytes in memory. The functions are proved; the
 checks of null before them are tested.
END

take libpocket-dev "$place/libpocket.so" "$place/libpocket.a" "$place/pkgconfig/pocket.pc" /usr/include/pocket.h
pack libpocket-dev "$kind" libdevel "libpocket1 (= $version)" "Multi-Arch: same" << 'END'
Description: proved POCKET+ senders and receivers, for development
 The header for C and C++, the static library and the file of pkg-config of
 libpocket: senders and receivers of compressed housekeeping packets.
END

take python3-pocket /usr/lib/python3/dist-packages/pocket
mkdir -p "$room/python3-pocket/DEBIAN"
install -m 755 "$top/packaging/python3-pocket.postinst" "$room/python3-pocket/DEBIAN/postinst"
install -m 755 "$top/packaging/python3-pocket.prerm" "$room/python3-pocket/DEBIAN/prerm"
pack python3-pocket all python "python3 (>= 3.9), libpocket1 (>= $version)" << 'END'
Description: proved POCKET+ senders and receivers, for Python
 The Python module of libpocket, with tools: what a receiver finds of a pipe,
 frames, records of stations joined, tables with numbers and times.
END
left=$(find "$all" -type f -o -type l)
[ -z "$left" ] || { echo "no package has $left"; exit 1; }
