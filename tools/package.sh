#!/usr/bin/env bash
# Makes a Debian package from the built program.
#
# Use: tools/package.sh [--unproved] [--arch amd64|arm64] [--version VERSION] [--output DIR]
#
#   --unproved          packs the program that `tools/build.sh --unproved` made; its version and its description say so
#   --arch arm64        packs the program that `tools/build.sh --arch arm64` made; the package is made on either machine
#   --version VERSION   the package's version; left out, it is made from the release and the commit
#   --output DIR        where the package goes; out/ of this checkout if left out
#
# It builds nothing: `tools/build.sh` does, before. PROGRAM is the path of another build to pack. The package's architecture is that of its
# program. The maintainer is DEBFULLNAME with DEBEMAIL, or who git says. The package installs what tools/install.sh installs, below /usr. At
# its first installation it makes /etc/gpsrelay.env, and never changes it later: an upgrade asks nothing. The service is not enabled: its
# receivers must be named first. A file COPYRIGHT of this checkout goes into it.
set -eu
umask 022

top=$(cd "$(dirname "${BASH_SOURCE[0]}")/.." && pwd)
. "$top/tools/architecture.sh"
refuse() { # STATUS TEXT
    echo "package.sh: $2" >&2
    exit "$1"
}

unproved=
arch=
version=
output=$top/out
while [ $# -gt 0 ]; do
    case $1 in
    --unproved) unproved=1 ;;
    --arch | --version | --output)
        [ $# -ge 2 ] || refuse 2 "$1 needs a word"
        case $1 in
        --arch) arch=$2 ;;
        --version) version=$2 ;;
        --output) output=$2 ;;
        esac
        shift
        ;;
    -h | --help)
        sed -n '2,14s/^# \{0,1\}//p' "${BASH_SOURCE[0]}"
        exit 0
        ;;
    *) refuse 2 "$1: no such option; see package.sh --help" ;;
    esac
    shift
done
case $arch in
'' | amd64 | arm64) ;;
*) refuse 2 "--arch $arch: the program is built for amd64 and arm64 alone" ;;
esac
if [ "$arch" = arm64 ] && [ -z "${PROGRAM:-}" ]; then
    PROGRAM=$top/out/${unproved:+unproved/}arm64/gpsrelay
    [ -e "$PROGRAM" ] || refuse 1 "nothing is built for arm64 yet: tools/build.sh --arch arm64${unproved:+ --unproved} does so"
    export PROGRAM
    unproved= # the program says so itself
fi
command -v dpkg-deb >/dev/null || refuse 1 "dpkg-deb is not installed: this needs a Debian system, or its package dpkg"

room=$(mktemp -d)
trap 'rm -rf "$room"' EXIT
stage=$room/stage
DESTDIR=$stage "$top/tools/install.sh" --prefix /usr ${unproved:+--unproved} >"$room/installed"
release=$(sed -n '1s/^gpsrelay-\([0-9.]*\).*/\1/p' "$room/installed")
if head -n 1 "$room/installed" | grep -q 'without proof'; then unproved=1; fi

git_says() { git -C "$top" "$@" 2>/dev/null; }
# The time of the commit is that of all files, so that the same commit gives the same package.
SOURCE_DATE_EPOCH=${SOURCE_DATE_EPOCH:-$(git_says log -1 --format=%ct || stat -c %Y "$top/docs/CHANGELOG.md")}
export SOURCE_DATE_EPOCH
commit=$(git_says rev-parse --short=10 HEAD) || commit=
if [ -z "$version" ]; then
    version=$release~$(date -u -d "@$SOURCE_DATE_EPOCH" +%Y%m%d)
    if [ -n "$commit" ]; then
        version+=.git$commit
        [ -z "$(git_says status --porcelain --untracked-files=no)" ] || version+=+changed
    fi
    version+=${unproved:++unproved}-1local
fi
[[ $version =~ ^[0-9][A-Za-z0-9.+~-]*$ ]] || refuse 2 "$version: no version that Debian knows"
architecture=$(architecture_of "$stage/usr/bin/gpsrelay")
[ -n "$architecture" ] || architecture=$(dpkg --print-architecture) # a script, in a test
[ "${arch:-$architecture}" = "$architecture" ] || refuse 1 "the program is for $architecture, and not for $arch"
[[ $architecture != *\ * ]] || refuse 1 "the program is for neither amd64 nor arm64"
name=${DEBFULLNAME:-$(git_says config user.name || echo gpsrelay)}
maintainer="$name <${DEBEMAIL:-$(git_says config user.email || echo root@localhost)}>"

# --- the files

docs=$stage/usr/share/doc/gpsrelay
rm "$stage/usr/share/gpsrelay/installed" # dpkg has a list of its own
gzip -9n "$stage"/usr/share/man/man*/*
# Units of packages are in /lib up to Debian 12.
mkdir -p "$stage/lib/systemd"
mv "$stage/usr/lib/systemd/system" "$stage/lib/systemd/system"
rmdir "$stage/usr/lib/systemd" "$stage/usr/lib"
find "$stage/usr/share/gpsrelay" -name '*.py' -exec sed -i '1s|^#!/usr/bin/env python3$|#!/usr/bin/python3|' {} +
strip=strip
runs_here "$stage/usr/bin/gpsrelay" || strip=aarch64-linux-gnu-strip
$strip --strip-unneeded "$stage/usr/bin/gpsrelay" 2>/dev/null || echo "package.sh: note: there is no $strip for it, so the program keeps its symbols" >&2
install -m 644 "$top/examples/usb.env" "$stage/usr/share/gpsrelay/gpsrelay.env"
gzip -9nc "$top/docs/CHANGELOG.md" >"$docs/changelog.gz"
{
    echo "gpsrelay ($version) unstable; urgency=medium"
    echo
    echo "  * Packed by tools/package.sh${commit:+ from commit $commit}."
    echo "  * The changes are in changelog.gz."
    echo
    echo " -- $maintainer  $(date -u -R -d "@$SOURCE_DATE_EPOCH")"
} | gzip -9nc >"$docs/changelog.Debian.gz"
if [ -r "$top/COPYRIGHT" ]; then
    install -m 644 "$top/COPYRIGHT" "$docs/copyright"
else
    cat >"$docs/copyright" <<COPYRIGHT
Copyright (C) $(date -u -d "@$SOURCE_DATE_EPOCH" +%Y) the owner of gpsrelay

No licence has been chosen yet. Whoever wants to pass this package on, changed or not, asks the owner
of the repository that it was made from.
COPYRIGHT
    chmod 644 "$docs/copyright"
    echo "package.sh: note: no licence has been chosen yet, and the package says so; a file COPYRIGHT of this checkout would take its place" >&2
fi

# --- what dpkg reads

control=$stage/DEBIAN
mkdir "$control"
glibc=$(grep -ao 'GLIBC_2\.[0-9]*' "$stage/usr/bin/gpsrelay" | sort -uV | tail -n 1)
{
    cat <<CONTROL
Package: gpsrelay
Version: $version
Architecture: $architecture
Maintainer: $maintainer
Installed-Size: $(du -sk --apparent-size "$stage" | cut -f 1)
Depends: libc6 (>= ${glibc#GLIBC_}), python3 (>= 3.10)
Suggests: chrony, gpsd-clients
Section: misc
Priority: optional
Description: satellite receiver daemon modelled on gpsd, with filters
 It reads NMEA 0183 and u-blox receivers and pulse edges, and serves them to
 up to 64 clients in gpsd's JSON protocol. Its filters decode recorded logs,
 and tools draw a track and show a live page.
CONTROL
    [ -z "$unproved" ] || printf ' .\n This program was built without proof.\n'
} >"$control/control"
units=$(cd "$stage/lib/systemd/system" && echo *.service)
script() { # NAME, its body on standard input
    { printf '#!/bin/sh\nset -e\n'; cat; printf 'exit 0\n'; } >"$control/$1"
    chmod 755 "$control/$1"
}
# /etc/gpsrelay.env is no conffile of dpkg, which would ask about an edited one whenever the example has changed.
# The links of `systemctl enable` go when the package is purged.
script postinst <<POSTINST
if [ "\$1" = configure ]; then
    root=\${DPKG_ROOT:-}
    if [ -z "\$2" ] && [ ! -e "\$root/etc/gpsrelay.env" ]; then
        mkdir -p "\$root/etc"
        cp "\$root/usr/share/gpsrelay/gpsrelay.env" "\$root/etc/gpsrelay.env"
    fi
    for unit in $units; do
        other=/usr/local/lib/systemd/system/\$unit
        [ ! -e "\$root\$other" ] || echo "gpsrelay: \$other is used in place of this package's unit: tools/install.sh --remove removes it" >&2
    done
    for unit in $units; do deb-systemd-helper update-state "\$unit" >/dev/null || true; done
    if [ -z "\${DPKG_ROOT:-}" ] && [ -d /run/systemd/system ]; then
        systemctl --system daemon-reload >/dev/null || true
        if [ -n "\$2" ]; then deb-systemd-invoke try-restart $units >/dev/null || true; fi
    fi
fi
POSTINST
script prerm <<PRERM
if [ "\$1" = remove ] && [ -z "\${DPKG_ROOT:-}" ] && [ -d /run/systemd/system ]; then
    deb-systemd-invoke stop $units >/dev/null || true
fi
rm -rf "\${DPKG_ROOT:-}/usr/share/gpsrelay/__pycache__"
PRERM
script postrm <<POSTRM
if [ "\$1" = remove ] && [ -z "\${DPKG_ROOT:-}" ] && [ -d /run/systemd/system ]; then
    systemctl --system daemon-reload >/dev/null || true
fi
if [ "\$1" = purge ]; then
    rm -f "\${DPKG_ROOT:-}/etc/gpsrelay.env"
    if command -v deb-systemd-helper >/dev/null; then
        for unit in $units; do deb-systemd-helper purge "\$unit" >/dev/null || true; done
    fi
fi
POSTRM
(cd "$stage" && find . -type f ! -path './DEBIAN/*' -printf '%P\0' | LC_ALL=C sort -z | xargs -0 md5sum) >"$control/md5sums"

mkdir -p "$output"
package=$(cd "$output" && pwd)/gpsrelay_${version}_$architecture.deb
dpkg-deb --root-owner-group -Zxz --build "$stage" "$package" >/dev/null
echo "$package"
echo "To install it: sudo apt install '$package'"
