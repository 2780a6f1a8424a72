#!/usr/bin/env bash
# Builds the program.
#
# Use: tools/build.sh [--unproved] [--arch amd64|arm64]
#
# Without an option it proves the program and builds it from what is proved, as crates/gpsrelay/out/gpsrelay. It proves several crates
# at one time, as many as processors and memory allow, and says how far it is. That takes about an hour on four processors. It says so if
# there is too little memory, or too little room on the disk. The gate's whole run is in docs/LESSONS.md. If it is ended early, the next
# call goes on where it was. What the prover says is kept in out/proved.log. Then the program decodes the recorded drive of samples/, and
# says how many lines of each class that gave.
#
# --unproved builds it without any proof, as out/unproved/gpsrelay, in some three minutes. `gpsrelay --version` then says
# that it is built without proof. It has checks of its own and is slower.
#
# --arch arm64 builds the program for 64-bit ARM, as out/arm64/gpsrelay, or out/unproved/arm64/gpsrelay with --unproved. After the proof for
# x86-64 it proves the program for arm64 too, in some two minutes more. It needs Debian's packages gcc-aarch64-linux-gnu and
# libc6-dev-arm64-cross. The toolchain runs on x86-64 machines alone, so the build begins there.
#
# Both programs need only the C library. tools/install.sh installs them, and tools/package.sh makes a Debian package.
set -eu

top=$(cd "$(dirname "${BASH_SOURCE[0]}")/.." && pwd)
refuse() { # STATUS TEXT
    echo "build.sh: $2" >&2
    exit "$1"
}

unproved=
arch=amd64
while [ $# -gt 0 ]; do
    case $1 in
    --unproved) unproved=1 ;;
    --arch)
        [ $# -ge 2 ] || refuse 2 "--arch needs a word: amd64 or arm64"
        arch=$2
        shift
        ;;
    --arch=*) arch=${1#--arch=} ;;
    -h | --help)
        sed -n '2,20s/^# \{0,1\}//p' "${BASH_SOURCE[0]}"
        exit 0
        ;;
    *) refuse 2 "$1: no such option; see build.sh --help" ;;
    esac
    shift
done
case $arch in
amd64 | arm64) ;;
*) refuse 2 "--arch $arch: the program is built for amd64 and arm64 alone" ;;
esac
machine=$(uname -m)
[ "$machine" = x86_64 ] || refuse 1 "the toolchain runs on x86-64 machines alone, and this one is $machine: build there, with --arch arm64 for 64-bit ARM"

if ! command -v rt >/dev/null; then
    [ -z "${SUDO_USER:-}" ] || refuse 1 "the toolchain's command rt is not on root's PATH: build without sudo"
    refuse 1 "the toolchain's command rt is not on the PATH"
fi
[ "$arch" = amd64 ] || python3 "$top/tools/build_arm64.py" --look
if [ -n "$unproved" ] && [ "$arch" = arm64 ]; then
    echo "Building for arm64 without proof: some four minutes ..."
    exec python3 "$top/tools/build_arm64.py" --unproved "$top/out/unproved/arm64/gpsrelay"
fi
if [ -n "$unproved" ]; then
    echo "Building without proof: some three minutes ..."
    exec python3 "$top/tools/build_unproved.py" "$top/out/unproved/gpsrelay"
fi
echo "Proving and building: about an hour on four processors (the gate's whole run is in docs/LESSONS.md), less if parts of it are proved already ..."
python3 "$top/tools/build_proved.py" "$top" gpsrelay decode </dev/null
cd "$top/crates/gpsrelay"
echo "$PWD/out/gpsrelay: built from what is proved"
if [ -e "$top/samples/drive.nmea" ]; then
    echo "samples/drive.nmea, decoded and counted by class:"
    out/gpsrelay decode <"$top/samples/drive.nmea" | out/gpsrelay lines
fi
[ "$arch" = amd64 ] || exec python3 "$top/tools/build_arm64.py" "$top/out/arm64/gpsrelay"
