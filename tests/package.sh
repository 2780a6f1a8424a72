#!/usr/bin/env bash
# Makes a Debian package of the program, installs it in a root of its own, upgrades it, removes it and purges it.
#
# Use: tests/package.sh PROGRAM. It prints each check that fails, and how many passed; it takes some twenty seconds.
set -u
top=$(cd "$(dirname "${BASH_SOURCE[0]}")/.." && pwd)
PROGRAM=$(realpath "$1")
export PROGRAM DEBFULLNAME="A Name" DEBEMAIL=name@example.org
if ! command -v dpkg-deb >/dev/null || ! command -v dpkg >/dev/null; then
    echo "skipped: dpkg is not installed"
    exit 0
fi
room=$(mktemp -d)
trap 'rm -rf "$room"' EXIT
passed=0
failed=0
check() { # NAME COMMAND..
    local name=$1
    shift
    if "$@" >"$room/said" 2>&1; then
        passed=$((passed + 1))
    else
        failed=$((failed + 1))
        echo "FAILED: $name"
        head -5 "$room/said"
    fi
}
refuses() { ! "$@"; }
package_sh=$top/tools/package.sh
field() { dpkg-deb -f "$1" "$2"; }

# --- the package

pack() { # DIR OPTION..: makes a package in a folder of its own, whose path is then $package
    local out=$room/$1
    shift
    "$package_sh" --output "$out" "$@" && package=$(echo "$out"/*.deb) && [ -f "$package" ]
}
check "it makes a package" pack first
first=$package
release=$("$PROGRAM" --version 2>&1 | sed -n 's/^gpsrelay-\([0-9.]*\).*/\1/p')
check "its file is named after what it holds" test "$(basename "$first")" = "gpsrelay_$(field "$first" Version)_$(dpkg --print-architecture).deb"
check "its version sorts before the release" dpkg --compare-versions "$(field "$first" Version)" lt "$release"
check "its maintainer" test "$(field "$first" Maintainer)" = "A Name <name@example.org>"
check "it needs the C library and Python" bash -c "[[ '$(field "$first" Depends)' =~ ^'libc6 (>= 2.'[0-9]+'), python3' ]]"
check "it packs twice" pack again
check "the same files give the same package" cmp "$first" "$package"
without=$("$PROGRAM" --version 2>&1 | grep -c 'without proof')
check "its description says whether the program is built without proof" test "$(field "$first" Description | grep -c 'built without proof')" = "$without"
printf '#!/bin/sh\n# GLIBC_2.34\necho "gpsrelay-%s, built without proof"\n' "$release" >"$room/stand-in"
chmod 755 "$room/stand-in"
check "a program without proof is packed" env PROGRAM="$room/stand-in" "$package_sh" --output "$room/without"
check "its version says so" bash -c "[[ '$(echo "$room"/without/*.deb)' == *+unproved-* ]]"
check "its description says so" bash -c "dpkg-deb -f '$room'/without/*.deb Description | grep -q 'built without proof'"

check "its list can be read" bash -c "dpkg-deb -c '$first' >'$room/list'"
check "all is root's" refuses grep -v ' root/root ' "$room/list"
check "nobody else may write" refuses grep -E '^[-d]....w|^[-d].......w' "$room/list"
check "it has files of these folders alone" refuses grep -vE ' \./((lib|usr)(/|$)|$)' "$room/list"
check "the manual pages are compressed" refuses grep -E 'usr/share/man/.*[0-9]$' "$room/list"
for it in usr/share/man/man8/gpsrelay.8.gz usr/share/bash-completion/completions/gpsrelay usr/share/doc/gpsrelay/changelog.gz lib/systemd/system/gpsrelay.service \
    usr/share/doc/gpsrelay/changelog.Debian.gz usr/share/gpsrelay/gpsrelay.env usr/bin/gpsrelay-track usr/bin/gpsrelay-view usr/share/doc/gpsrelay/examples/60-gpsrelay.rules; do
    check "it has $it" grep -q " \./$it\( \|$\)" "$room/list"
done
check "it is unpacked" dpkg-deb -R "$first" "$room/tree"
check "the sums are those of its files" bash -c "cd '$room/tree' && md5sum --quiet -c DEBIAN/md5sums"
check "each file has a sum" test "$(wc -l <"$room/tree/DEBIAN/md5sums")" = "$(find "$room/tree" -type f ! -path '*/DEBIAN/*' | wc -l)"
check "dpkg has nothing to ask about" test ! -e "$room/tree/DEBIAN/conffiles"
check "the service starts the program of the package" grep -q '^ExecStart="/usr/bin/gpsrelay" serve' "$room/tree/lib/systemd/system/gpsrelay.service"
for it in postinst prerm postrm; do check "$it is a shell's" sh -n "$room/tree/DEBIAN/$it"; done
if [ ! -e "$top/COPYRIGHT" ]; then
    check "it says that no licence has been chosen yet" grep -q "No licence has been chosen yet" "$room/tree/usr/share/doc/gpsrelay/copyright"
fi
for it in "$top"/docs/gpsrelay-*.[18]; do
    check "it has $(basename "${it%.*}") and its page" test -x "$room/tree/usr/bin/$(basename "${it%.*}")" -a -s "$room/tree/usr/share/man/man${it##*.}/$(basename "$it").gz"
done
check "the tools ask for Debian's Python" refuses grep -l '^#!/usr/bin/env' -r "$room/tree/usr/share/gpsrelay"

if command -v lintian >/dev/null; then
    lintian --allow-root "$first" >"$room/lintian" 2>&1
    check "lintian names nothing" diff /dev/null "$room/lintian"
else
    echo "skipped: lintian is not installed: what it says of the package"
fi

# --- a root of its own

root=$room/root
as_root=()
if [ "$(id -u)" != 0 ]; then as_root=(fakeroot); fi
in_root() { "${as_root[@]}" dpkg --root="$root" --log="$room/log" --force-not-root --force-script-chrootless --force-depends --force-unsafe-io "$@" </dev/null; }
status() { dpkg --admindir="$root/var/lib/dpkg" -s gpsrelay | sed -n 's/^Status: //p'; }
here() { (cd "$root" && find . ! -type d ! -path './var/lib/dpkg/*' ! -path './var/lib/systemd/*' | sort); }
if [ "$(id -u)" = 0 ] || command -v fakeroot >/dev/null; then
    mkdir -p "$root/var/lib/dpkg/updates" "$root/var/lib/dpkg/info" "$root/var/lib/dpkg/triggers"
    touch "$root/var/lib/dpkg/status" "$root/var/lib/dpkg/available"
    mkdir -p "$root/usr/local/lib/systemd/system" && touch "$root/usr/local/lib/systemd/system/gpsrelay.service"
    check "it is installed" in_root -i "$first"
    check "it says which unit below /usr/local is used in its place" test "$(grep -c 'is used in place of' "$room/said")$(grep -o '/usr/local/[^ ]*service' "$room/said")" = 1/usr/local/lib/systemd/system/gpsrelay.service
    rm -r "$root/usr/local"
    check "it makes /etc/gpsrelay.env" cmp "$root/etc/gpsrelay.env" "$top/examples/usb.env"
    check "dpkg says so" test "$(status)" = "install ok installed"
    check "every file is as it was packed" in_root -V gpsrelay
    check "the installed program decodes the installed sample" bash -c "'$root/usr/bin/gpsrelay' decode <'$root/usr/share/doc/gpsrelay/samples/drive.nmea' | '$root/usr/bin/gpsrelay' lines | grep -q 'tpv 180 sky 180'"
    check "the installed tool runs" "$root/usr/bin/gpsrelay-track" --help
    check "the service is not enabled" test -z "$(find "$root/etc" -name '*.wants')"
    echo 'LISTEN=127.0.0.1:2999' >>"$root/etc/gpsrelay.env"
    mkdir "$room/changed" && cp -r "$top/tools" "$top/docs" "$top/examples" "$top/samples" "$top/README.md" "$room/changed"
    echo '# A later version has another example.' >>"$room/changed/examples/usb.env"
    package_sh=$room/changed/tools/package.sh
    check "a later version, with another example" pack later --version "$release-1"
    package_sh=$top/tools/package.sh
    check "it is upgraded, and asks nothing" in_root -i "$package"
    check "it says nothing of /usr/local" refuses grep -q /usr/local "$room/said"
    check "the version is that" test "$(dpkg --admindir="$root/var/lib/dpkg" -s gpsrelay | sed -n 's/^Version: //p')" = "$release-1"
    check "what was edited stays" cmp "$root/etc/gpsrelay.env" <(cat "$top/examples/usb.env"; echo 'LISTEN=127.0.0.1:2999')
    rm "$root/etc/gpsrelay.env"
    check "it is installed once more" in_root -i "$first"
    check "what was deleted stays so" test ! -e "$root/etc/gpsrelay.env"
    echo 'LISTEN=127.0.0.1:2999' >"$root/etc/gpsrelay.env"
    mkdir -p "$root/usr/share/gpsrelay/__pycache__" && touch "$root/usr/share/gpsrelay/__pycache__/track_marks.cpython-311.pyc"
    check "it is removed" in_root -r gpsrelay
    check "what was edited is all that is left" test "$(here)" = ./etc/gpsrelay.env
    check "it is purged" in_root -P gpsrelay
    check "nothing is left" test -z "$(here)"
    check "nor what systemd's helper noted" test -z "$(find "$root/var/lib/systemd" ! -type d 2>/dev/null)"
    check "no folder of its own is left" test -z "$(find "$root" -name 'gpsrelay*')"
else
    echo "skipped: the installation needs root, or fakeroot"
fi

# --- what is refused

check "a wrong option is refused" refuses "$package_sh" --outptu "$room"
check "a wrong version is refused" refuses "$package_sh" --output "$room/none" --version 'one two'
check "a program that is not there is refused" refuses env PROGRAM="$room/no-such" "$package_sh" --output "$room/none"
check "nothing was written" test ! -e "$room/none"
check "package.sh --help" bash -c "'$package_sh' --help | grep -q '^Use: tools/package.sh'"

echo "$passed passed, $failed failed"
[ "$failed" = 0 ]
