#!/usr/bin/env bash
# Boots Debian 12 in a container, with the package in it, and goes through what only a real systemd shows: pulses and FIFOs under the unit,
# what `systemctl start` says, stops, gpsd beside it, a boot without a network, upgrades and removal. systemd_inside.py has the checks.
#
# Use: tests/by_hand/systemd.sh PROGRAM [FOLDER]. It needs root, debootstrap, systemd-nspawn, nsenter and a mirror of Debian. FOLDER keeps
# the root of the container, some 400 MB, which is used again by the next call; without it one is made and removed. From nothing it takes
# some twelve minutes. It prints a line for each check, and ends with 1 if one fails.
set -eu
here=$(cd "$(dirname "${BASH_SOURCE[0]}")" && pwd)
top=$(cd "$here/../.." && pwd)
PROGRAM=$(realpath "$1")
export PROGRAM
for it in debootstrap systemd-nspawn nsenter dpkg-deb; do
    command -v "$it" >/dev/null || { echo "skipped: $it is not installed"; exit 0; }
done
[ "$(id -u)" = 0 ] || { echo "skipped: it is not run by root"; exit 0; }

room=$(mktemp -d)
folder=${2:-$room}
run=$room/run
container=
finish() {
    if [ -n "$container" ]; then kill -KILL "$container" 2>/dev/null || true; fi
    rm -rf --one-file-system "$room"
}
trap finish EXIT
failed=0

# --- the root of the container

if [ ! -e "$folder/root/ready" ]; then
    echo "== debootstrap ($(date +%T))"
    rm -rf "$folder/root"
    mkdir -p "$folder"
    debootstrap --variant=minbase --include=systemd,systemd-sysv,dbus,procps,iproute2,python3,init-system-helpers,kmod bookworm "$folder/root" >"$room/log"
    # gpsd is left there as a package file; what it needs stays installed.
    chroot "$folder/root" sh -ec 'apt-get -qq install -y --no-install-recommends gpsd; dpkg --purge gpsd
        apt-get -qq install -y --download-only --no-install-recommends libnss-mdns; cp /var/cache/apt/archives/gpsd_*.deb /var/cache/apt/archives/libnss-mdns_*.deb /root' >>"$room/log" 2>&1
    touch "$folder/root/ready"
fi
cp -a "$folder/root" "$run"

# --- two packages: the second has another example of /etc/gpsrelay.env

"$top/tools/package.sh" --version 1-1 --output "$run/root" >"$room/log" 2>&1
mkdir "$room/changed"
cp -r "$top/tools" "$top/docs" "$top/examples" "$top/samples" "$top/README.md" "$room/changed"
echo '# A later version has another example.' >>"$room/changed/examples/usb.env"
"$room/changed/tools/package.sh" --version 1-2 --output "$run/root" >"$room/log" 2>&1
mkdir "$run/checkout"

# --- the container

boot() {
    systemd-nspawn --quiet -b -D "$run" --machine="gpsrelay$$" --private-network --register=no --keep-unit --notify-ready=no \
        --bind-ro="$top:/checkout" </dev/null >"$room/console" 2>&1 &
    container=$!
    local end=$((SECONDS + 600))
    while [ $SECONDS -lt $end ] && kill -0 "$container" 2>/dev/null; do
        leader=$(pgrep -P "$container" || true)
        if [ -n "$leader" ] && enter systemctl is-system-running 2>/dev/null | grep -qE 'starting|running|degraded'; then return; fi
        sleep 0.2
    done
    echo "FAILED  the container does not boot"
    tail -n 20 "$room/console"
    exit 1
}
enter() { nsenter -t "$leader" -m -u -i -n -p -- env -i HOME=/root PATH=/usr/local/sbin:/usr/local/bin:/usr/sbin:/usr/bin:/sbin:/bin "$@"; }
inside() { # PART..: these parts of systemd_inside.py
    enter python3 -B /checkout/tests/by_hand/systemd_inside.py /usr/bin/gpsrelay "$@" </dev/null || failed=1
}
again() { # the container is shut down, and boots
    enter systemctl poweroff 2>/dev/null || true
    wait "$container" || true
    boot
}

echo "== $(dpkg-deb -f "$run/root/gpsrelay_1-1_$(dpkg --print-architecture).deb" Package Version | tr '\n' ' ')($(date +%T))"
boot
inside package starts files pulses names journal stops upgrade
echo "== gpsd is installed beside it ($(date +%T))"
inside gpsd_comes
again
inside gpsd_was_first
again
inside gpsd_is_masked
echo "== a boot without a network ($(date +%T))"
inside no_network_comes
again
inside boots_without_network
echo "== install.sh and the package, and removal ($(date +%T))"
inside install_sh removal
enter systemctl poweroff 2>/dev/null || true
wait "$container" || true
container=
echo "== $([ $failed = 0 ] && echo 'all passed' || echo 'some failed') ($(date +%T))"
exit $failed
