#!/usr/bin/env bash
# Installs the program below folders of its own, tries what was installed, and removes it again. And what install.sh and build.sh refuse.
#
# Use: tests/install.sh PROGRAM. It prints each check that fails, and how many passed; it takes some fifteen seconds.
set -u
top=$(cd "$(dirname "${BASH_SOURCE[0]}")/.." && pwd)
PROGRAM=$(realpath "$1")
export PROGRAM
room=$(mktemp -d)
chmod 755 "$room"
trap 'rm -rf "$room"' EXIT
passed=0
failed=0
check() { # NAME COMMAND..
    local name=$1
    shift
    if "$@" >"$room/said" 2>&1; then
        passed=$((passed + 1))
    else
        failed=$((failed + 1))
        echo "FAILED: $name"
        head -5 "$room/said"
    fi
}
refuses() { ! "$@"; }
# ends STATUS TEXT COMMAND..: it ends so, and says this on standard error
ends() {
    local wanted=$1 text=$2 status
    shift 2
    "$@" >/dev/null 2>"$room/errors"
    status=$?
    cat "$room/errors"
    [ "$status" = "$wanted" ] && grep -qF -e "$text" "$room/errors" || { echo "status $status, not $wanted, or it does not say: $text"; return 1; }
}
files_in() { [ ! -d "$1" ] || find "$1" ! -type d; }
install_sh=$top/tools/install.sh
here=$room/usr/local

# A stand-in for the toolchain, which notes how it was called: no check begins a proof, whatever goes wrong.
mkdir "$room/bin"
cat >"$room/bin/rt" <<'RT'
#!/bin/sh
echo "$PWD: $*" >>"${0%/*}/called"
RT
chmod 755 "$room/bin/rt"
PATH=$room/bin:$PATH

# --- what is installed works

check "it installs" env DESTDIR="$room" "$install_sh"
check "the program decodes the installed sample" bash -c "'$here/bin/gpsrelay' decode <'$here/share/doc/gpsrelay/samples/drive.nmea' | tail -n 1 | grep -q '\"class\":\"SKY\"'"
check "the installed tool draws the track" bash -c "'$here/bin/gpsrelay' decode <'$here/share/doc/gpsrelay/samples/drive.nmea' | '$here/bin/gpsrelay-track' -o '$room/drive.svg' && grep -q '</svg>' '$room/drive.svg'"
commands=0
for it in "$here"/bin/gpsrelay-*; do
    check "$(basename "$it") has all that it needs" "$it" --help
    commands=$((commands + 1))
done
check "the tools are commands" test "$commands" -ge 2
for it in clock export mqtt port top track view; do
    check "tools/$it.py is a command" test -x "$here/bin/gpsrelay-$it"
    check "gpsrelay-$it has a manual page" bash -c "ls '$here'/share/man/man[18]/gpsrelay-$it.[18]"
    check "bash completes gpsrelay-$it" bash -c ". '$here/share/bash-completion/completions/gpsrelay-$it' && complete -p gpsrelay-$it"
done
(umask 077 && DESTDIR=$room/shy "$install_sh" >"$room/told")
check "each folder is for all users, whatever the umask" test -z "$(find "$room/shy" -type d ! -perm 755)"
check "and each file" test -z "$(find "$room/shy" -type f ! -perm 755 ! -perm 644)"
check "what is installed is counted" grep -q ": $(files_in "$room/shy" | grep -vc '/share/gpsrelay/installed$') files are installed" "$room/told"
check "as many are removed" test "$(DESTDIR=$room/shy "$install_sh" --remove | cut -d ' ' -f 1)" = "$(sed -n 's/.*: \([0-9]*\) files are installed.*/\1/p' "$room/told")"
check "and none a second time" test "$(DESTDIR=$room/shy "$install_sh" --remove | cut -d ' ' -f 1)" = 0
check "the page of gpsrelay-view lies beside it" test -r "$here/share/gpsrelay/view.html"
for it in "$top"/docs/*.[1-8]; do
    check "$(basename "$it") is among the manual pages" cmp "$it" "$here/share/man/man${it##*.}/$(basename "$it")"
    if command -v mandoc >/dev/null; then check "$(basename "$it") is clean" mandoc -T lint -W warning "$it"; fi
done
command -v mandoc >/dev/null || echo "skipped: mandoc is not installed: whether the manual pages are clean"
for it in "$top"/examples/*; do
    case $it in
    *.service) ;;
    *) check "$(basename "$it") is among the examples" cmp "$it" "$here/share/doc/gpsrelay/examples/$(basename "$it")" ;;
    esac
done

# links FOLDER: each link and picture of its documents names a file below it, and a heading of that file
links() {
    python3 - "$1" <<'PYTHON'
import glob, os, re, sys
top, number = os.path.realpath(sys.argv[1]), 0
def text_of(name):
    with open(name, encoding="utf-8") as it:
        return re.sub(r"(?ms)^```.*?^```|^    .*?$", "", it.read())
def headings(name):
    return [re.sub(r"[^\w -]", "", row.lower()).strip().replace(" ", "-") for row in re.findall(r"(?m)^#+ (.*)$", text_of(name))]
for name in glob.glob(f"{top}/**/*.md", recursive=True):
    for target in re.findall(r"""\]\(([^)\s]+)\)|(?:src|href)="([^"]+)\"""", re.sub(r"`[^`\n]*`", "", text_of(name))):
        path, _, heading = (target[0] or target[1]).partition("#")
        if re.match(r"[a-z]+:", path):
            continue
        number += 1
        found = os.path.realpath(os.path.join(os.path.dirname(name), path)) if path else name
        if not os.path.isfile(found) or not found.startswith(top + os.sep):
            sys.exit(f"{name}: {path} is not there")
        if heading and heading not in headings(found):
            sys.exit(f"{name}: {path} has no heading #{heading}")
sys.exit(f"only {number} links" if number < 10 else 0)
PYTHON
}
check "the links and pictures of the installed documents hold" links "$here/share/doc/gpsrelay"
mkdir "$room/broken" && cp -r "$here/share/doc/gpsrelay/." "$room/broken" && rm "$room/broken/samples/drive.svg"
check "a picture that is not there would be found" refuses links "$room/broken"
cp "$here/share/doc/gpsrelay/samples/drive.svg" "$room/broken/samples" && sed -i 's/^## A tree of daemons/## A tree/' "$room/broken/docs/RECIPES.md"
check "a heading that is not there would be found" refuses links "$room/broken"

# --- the service

unit=$here/lib/systemd/system/gpsrelay.service
check "the service starts the installed program" grep -q '^ExecStart="/usr/local/bin/gpsrelay" serve --stop /run/gpsrelay/stop --reopen 2 ' "$unit"
for it in "$here"/lib/systemd/system/*; do
    check "no mark is left in $(basename "$it")" refuses grep -q '@PREFIX@' "$it"
    check "a path below the prefix is in quotes in $(basename "$it")" refuses grep -E '^Exec.*[^"]@PREFIX@' "$top/examples/$(basename "$it")"
done
for it in "$here"/share/doc/gpsrelay/examples/*.env; do
    grep -q '^DEVICES=' "$it" || continue
    check "$(basename "$it") sets what the service needs" bash -c "set -eu; . '$it'; : \"\$DEVICES\$TERMINALS\$SPEED\$LISTEN\$OPTIONS\"; [ -n \"\$DEVICES\" ]"
done
if command -v systemd-analyze >/dev/null; then
    # Of 10; that of gpsd's own unit in Debian 12 is 9.6.
    check "the service is hardened" bash -c "systemd-analyze security --offline=true --threshold=20 '$unit'"
else
    echo "skipped: systemd-analyze is not installed: how the service is hardened"
fi
# part KEY N: the N-th command of this key of the unit, as its shell gets it from systemd
part() { sed -n "s/^$1=-\{0,1\}\/bin\/sh -c '\(.*\)'\$/\1/p" "$unit" | sed -n "$2p" | sed 's/\$\$/$/g'; }
in_room() { sed "s#/run/gpsrelay/stop#$room/run/stop#g"; }
mkdir "$room/run"
check "a terminal that is not there keeps nothing from starting" grep -q '^ExecStartPre=-/bin/sh.*stty' "$unit"
check "terminals: none" env TERMINALS= SPEED= sh -c "$(part ExecStartPre 1)"
for once in first second; do
    check "the FIFO is made for the $once time" sh -c "$(part ExecStartPre 2 | in_room)"
    check "and it is a FIFO of its user alone" test -p "$room/run/stop" -a "$(stat -c %a "$room/run/stop")" = 600
done
stops() { # a program that reads the FIFO and ends a second later is waited for
    sh -c "read -r word <'$room/run/stop'; sleep 1; echo \$word >'$room/ended'" &
    local pid=$!
    env MAINPID=$pid sh -c "$(part ExecStop 1 | in_room)" && [ -e "$room/ended" ] && ! kill -0 $pid 2>/dev/null
}
check "the stop writes into the FIFO, and waits for the end" stops
check "a daemon that has ended already is not waited for" timeout 60 env MAINPID= sh -c "$(part ExecStop 1 | in_room)"

completes() { # LINE WANTED: the completion of the line's last word has WANTED
    bash -c '
        . "$1"
        COMP_LINE=$2 COMP_POINT=${#2}
        read -ra COMP_WORDS <<<"$2"
        [[ $2 == *" " ]] && COMP_WORDS+=("")
        COMP_CWORD=$((${#COMP_WORDS[@]} - 1))
        _gpsrelay
        printf "%s\n" "${COMPREPLY[@]}" | grep -qx -- "$3"' - "$here/share/bash-completion/completions/gpsrelay" "$1" "$2"
}
check "a command is completed" completes "gpsrelay dec" decode
check "an option is completed" completes "gpsrelay serve --li" --listen
check "an option of another command is not" refuses completes "gpsrelay decode --" --listen
check "a kind of device is completed" completes "gpsrelay serve gps0=t" tcp:

# --- installed again, and removed

runs_on() { # it is replaced while it runs, by another file
    mkfifo "$room/input" && exec 8<>"$room/input"
    "$here/bin/gpsrelay" decode <"$room/input" 8<&- >/dev/null &
    local pid=$! before
    before=$(stat -c %i "$here/bin/gpsrelay")
    env DESTDIR="$room" "$install_sh" && [ "$(stat -c %i "$here/bin/gpsrelay")" != "$before" ] && kill -0 $pid
    local status=$?
    exec 8>&-
    wait $pid && return $status
}
check "it installs over a program that runs" runs_on
check "it installs the installed program once more" env DESTDIR="$room" PROGRAM="$here/bin/gpsrelay" "$install_sh"
touch "$here/share/gpsrelay/former.py" "$here/share/gpsrelay/own.py" "$here/bin/other"
echo share/gpsrelay/former.py >>"$here/share/gpsrelay/installed"
check "it installs again" env DESTDIR="$room" "$install_sh"
check "what an earlier version installed is removed" test ! -e "$here/share/gpsrelay/former.py"
check "what it did not install is not touched" test -e "$here/share/gpsrelay/own.py"
rm "$here/share/gpsrelay/own.py"
check "it removes what it installed" env DESTDIR="$room" "$install_sh" --prefix /usr/local --remove
check "nothing else is removed, and nothing is left" test "$(files_in "$here")" = "$here/bin/other"
check "no folder of its own is left" test -z "$(find "$here" -name 'gpsrelay*')"

# --- services that run

# A stand-in for systemctl: it uses the unit at the path in $room/used, and notes what it is told, and whether that file is there.
cat >"$room/bin/systemctl" <<'SYSTEMCTL'
#!/bin/sh
used=$(cat "${0%/*}/../used")
[ "$1" != show ] || { [ "${used##*/}" != "$5" ] || echo "$used"; exit 0; }
if [ -e "$used" ]; then there=yes; else there=no; fi
echo "$*, $there" >>"${0%/*}/told"
SYSTEMCTL
chmod 755 "$room/bin/systemctl"
served=$room/served/lib/systemd/system/gpsrelay.service
told() { test "$(cat "$room/bin/told" 2>/dev/null)" = "$1"; }
for used in "$served" /lib/systemd/system/gpsrelay.service; do
    echo "$used" >"$room/used"
    check "it installs a service" "$install_sh" --prefix "$room/served"
    rm -f "$room/bin/told"
    check "it removes a service" "$install_sh" --prefix "$room/served" --remove
    check "nothing of it is left" test -z "$(files_in "$room/served")"
    if [ "$used" = "$served" ]; then
        check "it is stopped and disabled while its unit is there" told "$(printf 'disable --now gpsrelay.service, yes\ndaemon-reload, no')"
    else
        check "a service of another unit is not touched" told ''
    fi
done
echo "$here/lib/systemd/system/gpsrelay.service" >"$room/used"
check "it installs below DESTDIR" env DESTDIR="$room" "$install_sh"
check "it removes below DESTDIR" env DESTDIR="$room" "$install_sh" --remove
check "no service is touched below DESTDIR" told ''
rm "$room/bin/systemctl"

# --- paths with signs

for sign in 'a b' 'a&b' 'a#b' 'a|b' 'a;b*(c)' '-a' '&'; do
    root=$room/signs/opt/$sign
    check "prefix '$sign'" env DESTDIR="$room/signs" "$install_sh" --prefix "/opt/$sign"
    check "prefix '$sign': the service names the program" grep -qF "ExecStart=\"/opt/$sign/bin/gpsrelay\" serve" "$root/lib/systemd/system/gpsrelay.service"
    check "prefix '$sign': the tool runs" "$root/bin/gpsrelay-track" --help
    check "prefix '$sign': it is removed" env DESTDIR="$room/signs" "$install_sh" --prefix "/opt/$sign" --remove
    check "prefix '$sign': nothing is left" test -z "$(files_in "$room/signs")"
done
if command -v systemd-analyze >/dev/null; then
    check "a prefix with signs, without DESTDIR" "$install_sh" --prefix "$room/own & #1 | gps"
    check "systemd reads its units" systemd-analyze verify --man=no "$room/own & #1 | gps/lib/systemd/system/"*
    check "systemd would find a path that is wrong" refuses systemd-analyze verify --man=no "$here/lib/systemd/system/gpsrelay.service"
fi
for sign in 'a"b' "a'b" 'a\b' 'a$b' 'a%b' $'a\nb'; do
    check "prefix '$sign' is refused" ends 2 "the path may have no" env DESTDIR="$room/none" "$install_sh" --prefix "/opt/$sign"
done
check "a wrong option is refused" ends 2 "no such option" env DESTDIR="$room/none" "$install_sh" --prefx /usr
check "a folder that is no whole path is refused" ends 2 "give the whole path" env DESTDIR="$room/none" "$install_sh" --prefix usr

mkdir "$room/programs & such" && cp "$PROGRAM" "$room/programs & such/a program"
at_room() { (cd "$room/programs & such" && "$@"); }
check "a relative PROGRAM, a relative DESTDIR" at_room env PROGRAM="./a program" DESTDIR=down "$install_sh"
check "that program is installed" cmp "$PROGRAM" "$room/programs & such/down/usr/local/bin/gpsrelay"
rm -r "$room/programs & such/down"
for it in "no such file:./another" "not a program:." "not a program:$top/README.md" "no version of gpsrelay:/bin/true"; do
    check "PROGRAM=${it#*:} is refused" ends 1 "${it%%:*}" at_room env PROGRAM="${it#*:}" DESTDIR="$room/none" "$install_sh"
done

copy="$room/check & out #1 | a"
mkdir -p "$copy/crates/gpsrelay/src"
cp -r "$top/tools" "$top/docs" "$top/examples" "$top/samples" "$top/README.md" "$copy"
check "a checkout with signs in its path" env DESTDIR="$room/signs" "$copy/tools/install.sh"
check "has the same files" test "$(files_in "$room/signs" | wc -l)" = "$(wc -l <"$room/signs/usr/local/share/gpsrelay/installed" | awk '{ print $1 + 1 }')"
check "they are removed" env DESTDIR="$room/signs" "$copy/tools/install.sh" --remove
check "and nothing is left" test -z "$(files_in "$room/signs")"

# --- nothing is built: it begins no proof

built() { env -u PROGRAM DESTDIR="$room/none" "$@"; }
check "nothing is built" ends 1 "tools/build.sh proves and builds" built "$copy/tools/install.sh"
check "nothing is built without proof" ends 1 "tools/build.sh --unproved does so" built "$copy/tools/install.sh" --unproved
mkdir -p "$copy/out/unproved" && cp "$PROGRAM" "$copy/out/unproved/gpsrelay"
check "only a program without proof is built" ends 1 "--unproved installs it" built "$copy/tools/install.sh"
check "no proof was begun" test ! -e "$room/bin/called"
check "nothing was written in all of these" test ! -e "$room/none"
check "a program without proof is installed if that is asked for" built "$copy/tools/install.sh" --unproved
check "it is removed" built "$copy/tools/install.sh" --remove
check "not both" ends 2 "not both" env DESTDIR="$room/none" "$copy/tools/install.sh" --unproved
mkdir -p "$copy/crates/gpsrelay/out" && cp "$PROGRAM" "$copy/crates/gpsrelay/out/gpsrelay"
check "the built program is installed" built "$copy/tools/install.sh"
touch -d '+1 minute' "$copy/crates/gpsrelay/src/main.rt"
check "sources that are newer are told of" ends 0 "the sources are newer" built "$copy/tools/install.sh"
check "a tool is called build_unproved.py, and not installed" test -e "$copy/tools/build_unproved.py" -a ! -e "$room/none/usr/local/share/gpsrelay/build_unproved.py"

# --- where nothing can be written

mkdir -p "$room/blocked/usr/local/bin/gpsrelay"
check "a folder in place of a file" ends 1 "is a folder" env DESTDIR="$room/blocked" "$install_sh"
mkdir -p "$room/file/usr" && touch "$room/file/usr/local"
check "a file in place of a folder" ends 1 "cannot be written" env DESTDIR="$room/file" "$install_sh"
check "nothing was written" test "$(files_in "$room/blocked" | wc -l)$(files_in "$room/file" | wc -l)" = 01
mkdir "$room/shut"
chmod 755 "$room/shut"
nobody=()
[ "$(id -u)" != 0 ] || nobody=(setpriv --reuid=65534 --regid=65534 --clear-groups)
cp "$PROGRAM" "$room/program" && chmod 755 "$room/program"
[ "$(id -u)" = 0 ] || chmod 555 "$room/shut"
if [ "$(id -u)" != 0 ] || { command -v setpriv >/dev/null && "${nobody[@]}" test -x "$install_sh"; }; then
    check "no right to write there" ends 1 "call it with sudo" "${nobody[@]}" env DESTDIR="$room/shut" PROGRAM="$room/program" "$install_sh"
    check "no right to remove there" ends 1 "call it with sudo" "${nobody[@]}" env DESTDIR="$room/none" "$install_sh" --remove
    check "what is there stays" test -x "$room/none/usr/local/bin/gpsrelay"
else
    echo "skipped: no other user can read this checkout"
fi

# --- build.sh

bare() { env -u SUDO_USER PATH=/usr/bin:/bin "$@"; }
if ! bare sh -c 'command -v rt' >/dev/null; then
    check "build.sh without the toolchain" ends 1 "rt is not on the PATH" bare "$copy/tools/build.sh"
    check "build.sh without the toolchain, by sudo" ends 1 "build without sudo" bare env SUDO_USER=me "$copy/tools/build.sh"
    check "build.sh --unproved without the toolchain" ends 1 "rt is not on the PATH" bare "$copy/tools/build.sh" --unproved
fi
check "build.sh, a wrong option" ends 2 "no such option" bare "$copy/tools/build.sh" --proved
check "build.sh proves and builds" "$copy/tools/build.sh"
check "by rt, in the program's crate" test "$(cat "$room/bin/called" 2>&1)" = "$copy/crates/gpsrelay: run -- decode"
for it in build.sh install.sh; do check "$it --help" bash -c "'$top/tools/$it' --help | grep -q '^Use: tools/$it'"; done

echo "$passed passed, $failed failed"
[ "$failed" = 0 ]
