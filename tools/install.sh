#!/usr/bin/env bash
# Installs the built program with its tools, manual pages, documents, examples and completion for bash, or removes them.
#
# Use: tools/install.sh [--prefix DIR] [--unproved] [--remove]
#
#   --prefix DIR   the folder to install below, as a whole path; /usr/local if left out
#   --unproved     installs the program that `tools/build.sh --unproved` made
#   --remove       stops and disables its services, and removes what was installed below DIR
#
# It builds nothing: `tools/build.sh` does, before. PROGRAM is the path of another build to install.
# DESTDIR, for packages, is put before each path that is written, and appears in no file. A program for another machine needs it.
set -eu
umask 022 # what is installed is for all users

top=$(cd "$(dirname "${BASH_SOURCE[0]}")/.." && pwd)
. "$top/tools/architecture.sh"
say() { echo "install.sh: $1" >&2; }
refuse() { # STATUS TEXT: nothing was written yet
    say "$2"
    exit "$1"
}

prefix=/usr/local
unproved=
remove=
while [ $# -gt 0 ]; do
    case $1 in
    --prefix)
        [ $# -ge 2 ] || refuse 2 "--prefix needs a folder"
        prefix=$2
        shift
        ;;
    --prefix=*) prefix=${1#--prefix=} ;;
    --unproved) unproved=1 ;;
    --remove) remove=1 ;;
    -h | --help)
        sed -n '2,11s/^# \{0,1\}//p' "${BASH_SOURCE[0]}"
        exit 0
        ;;
    *) refuse 2 "$1: no such option; see install.sh --help" ;;
    esac
    shift
done
case $prefix in
/*) ;;
*) refuse 2 "$prefix: give the whole path of the folder" ;;
esac
# A service has no way to write these in the path of its program that all versions of systemd read alike; and ' ends a word of a shell.
case $prefix in
*[[:cntrl:]\"\'\\%\$]*) refuse 2 "$prefix: the path may have no \", ', \\, %, \$ and no control character" ;;
esac
prefix=${prefix%/}
destdir=${DESTDIR:-}
case $destdir in
'' | /*) ;;
*) destdir=$PWD/$destdir ;;
esac
root=$destdir$prefix
list=share/gpsrelay/installed # what was installed, one path a line

# What is installed: MODE (or link), FROM (or what the link holds), and TO below the prefix.
modes=() froms=() tos=()
file() {
    modes+=("$1") froms+=("$2") tos+=("$3")
}
files() { # PROGRAM
    local it name
    file 755 "$1" bin/gpsrelay
    # A tool of these names is a command; what the tools import lies beside them.
    for it in "$top"/tools/*.py "$top"/tools/*.html; do
        name=${it##*/}
        case $name in
        '*'.* | build_*.py | kept_*.py) ;;
        clock.py | export.py | mqtt.py | port.py | top.py | track.py | view.py)
            file 755 "$it" "share/gpsrelay/$name"
            file link "../share/gpsrelay/$name" "bin/gpsrelay-${name%.py}"
            file link gpsrelay "share/bash-completion/completions/gpsrelay-${name%.py}"
            ;;
        *) file 644 "$it" "share/gpsrelay/$name" ;;
        esac
    done
    file 644 "$top/tools/gpsrelay.bash" share/bash-completion/completions/gpsrelay
    for it in "$top"/docs/*.[1-8]; do file 644 "$it" "share/man/man${it##*.}/${it##*/}"; done
    file 644 "$top/README.md" share/doc/gpsrelay/README.md
    for it in "$top"/docs/*.md; do file 644 "$it" "share/doc/gpsrelay/docs/${it##*/}"; done
    for it in "$top"/samples/*; do
        case $it in
        *.py | */__pycache__) ;;
        *) file 644 "$it" "share/doc/gpsrelay/samples/${it##*/}" ;;
        esac
    done
    for it in "$top"/examples/*; do
        case $it in
        *.service) file unit "$it" "lib/systemd/system/${it##*/}" ;;
        *.sh) file 755 "$it" "share/doc/gpsrelay/examples/${it##*/}" ;;
        *) file 644 "$it" "share/doc/gpsrelay/examples/${it##*/}" ;;
        esac
    done
}

# The version of a program that cannot run here, from its bytes: as `gpsrelay --version` begins.
version_in() { # FILE
    local release
    release=$(grep -aom1 '"release":"gpsrelay-[0-9.]*"' -- "$1" | head -n 1 | cut -d '"' -f 4)
    [ -n "$release" ] || return 1
    if grep -aqF "$release, built without proof" -- "$1"; then release+=", built without proof"; fi
    echo "$release"
}

# The program to install, in $program, or the end with what to do.
choose_program() {
    local proved=$top/crates/gpsrelay/out/gpsrelay without=$top/out/unproved/gpsrelay
    if [ -n "${PROGRAM:-}" ]; then
        [ -z "$unproved" ] || refuse 2 "give PROGRAM or --unproved, not both"
        program=$PROGRAM
    elif [ -n "$unproved" ]; then
        program=$without
        [ -e "$program" ] || refuse 1 "nothing is built without proof yet: tools/build.sh --unproved does so, in some three minutes"
    else
        program=$proved
        if [ ! -e "$program" ]; then
            [ ! -e "$without" ] || say "there is a program that was built without proof: --unproved installs it"
            refuse 1 "nothing is built yet: tools/build.sh proves and builds (about an hour on four processors; the gate's whole run is in docs/LESSONS.md), tools/build.sh --unproved only builds (some three minutes)"
        fi
    fi
    local given=$program
    program=$(realpath -e -- "$given" 2>/dev/null) || refuse 1 "$given: no such file"
    if [ ! -f "$program" ] || [ ! -x "$program" ]; then refuse 1 "$program: not a program"; fi
    if ! runs_here "$program"; then
        [ -n "$destdir" ] || refuse 1 "$program: it is for $(architecture_of "$program"), and this machine is $(architecture_here); tools/package.sh makes a package of it"
        version=$(version_in "$program") || refuse 1 "$program: it gives no version of gpsrelay"
        return
    fi
    version=$("$program" --version </dev/null 2>&1 | grep -a -m 1 '^gpsrelay-') || refuse 1 "$program: it gives no version of gpsrelay, or does not run on this machine"
}

# Whether a path below the root can be written: the nearest folder above it that is there decides.
can_write() { # PATH
    local folder=${1%/*}
    while [ -n "$folder" ] && [ ! -e "$folder" ] && [ ! -L "$folder" ]; do folder=${folder%/*}; done
    [ -d "${folder:-/}" ] && [ -w "${folder:-/}" ]
}

# The end with a reason, if not everything can be installed.
look() {
    local at
    for at in "${!tos[@]}"; do
        [ "${modes[at]}" = link ] || [ -r "${froms[at]}" ] || refuse 1 "${froms[at]}: cannot be read"
        [ ! -d "$root/${tos[at]}" ] || refuse 1 "$root/${tos[at]}: is a folder"
        can_write "$root/${tos[at]}" || refuse 1 "$root/${tos[at]}: cannot be written; call it with sudo, or give another --prefix"
    done
    can_write "$root/$list" || refuse 1 "$root/$list: cannot be written"
}

# A unit with the prefix in place of its mark.
unit() { # FILE
    local text done=
    text=$(cat "$1"; echo .)
    text=${text%.}
    while [[ $text == *@PREFIX@* ]]; do
        done+=${text%%@PREFIX@*}$prefix
        text=${text#*@PREFIX@}
    done
    printf '%s%s' "$done" "$text"
}

put() { # MODE FROM TO, through a new file, so that a program that runs is replaced too
    local new=$3.new$$
    case $1 in
    link) ln -s "$2" "$new" ;;
    unit) unit "$2" >"$new" && chmod 644 "$new" ;;
    *) install -m "$1" -T -- "$2" "$new" ;;
    esac
    mv -fT -- "$new" "$3"
}

# Removes a file of the list, and the folders that have become empty and bear this program's name.
take_away() { # TO
    local folder=${1%/*}
    case /$1/ in
    */../* | //*) return 1 ;; # no path of ours
    esac
    [ -e "$root/$1" ] || [ -L "$root/$1" ] || return 1
    rm -f -- "$root/$1"
    while [[ $folder == */gpsrelay* ]] && rmdir "$root/$folder" 2>/dev/null; do folder=${folder%/*}; done
}

# Whether systemd uses a file of this installation for its unit. DESTDIR is a folder of its own, which systemd does not read.
is_used() { # TO
    [ -z "$destdir" ] && [ "$(systemctl show --property FragmentPath --value "${1##*/}" 2>/dev/null)" = "$root/$1" ]
}

# Stops and disables the services among these files, while systemd still knows how. $stopped says whether there was one.
stopped=
stop_services() { # TO..
    local it
    for it in "$@"; do
        case $it in
        lib/systemd/system/*.service)
            is_used "$it" || continue
            systemctl disable --now "${it##*/}" || say "${it##*/}: could not be stopped and disabled"
            stopped=1
            ;;
        esac
    done
}

install_all() {
    choose_program
    files "$program"
    look
    if [ -z "${PROGRAM:-}" ] && [ -n "$(find "$top/crates" -name out -prune -o -name '*.rt' -newer "$program" -print -quit)" ]; then
        say "note: the sources are newer than this program; tools/build.sh builds it again"
    fi
    local at former=()
    [ ! -r "$root/$list" ] || mapfile -t former <"$root/$list"
    for at in "${!tos[@]}"; do
        [ -d "$root/${tos[at]%/*}" ] || mkdir -p "$root/${tos[at]%/*}"
        put "${modes[at]}" "${froms[at]}" "$root/${tos[at]}"
    done
    printf '%s\n' "${tos[@]}" >"$root/$list"
    # What an earlier version installed and this one does not have.
    for at in "${former[@]}"; do
        grep -Fxq -e "$at" "$root/$list" || take_away "$at" || true
    done
    echo "$version: ${#tos[@]} files are installed below $root. Try:"
    echo "  '$prefix/bin/gpsrelay' decode < '$prefix/share/doc/gpsrelay/samples/drive.nmea'"
    echo "As a service: copy one of $prefix/share/doc/gpsrelay/examples/*.env to /etc/gpsrelay.env, edit it, and call"
    echo "  systemctl daemon-reload && systemctl enable --now gpsrelay"
}

remove_all() {
    local number=0 at all=()
    files ""
    all=("${tos[@]}")
    if [ -r "$root/$list" ]; then
        mapfile -t all <"$root/$list"
    fi
    for at in "${all[@]}"; do
        [ ! -e "$root/$at" ] && [ ! -L "$root/$at" ] || [ -w "$root/${at%/*}" ] || refuse 1 "$root/$at: cannot be removed; call it with sudo"
    done
    stop_services "${all[@]}"
    rm -rf -- "$root/share/gpsrelay/__pycache__"
    for at in "${all[@]}"; do
        if take_away "$at"; then number=$((number + 1)); fi
    done
    take_away "$list" || true
    [ -z "$stopped" ] || systemctl daemon-reload
    echo "$number files are removed from $root. /etc/gpsrelay.env is kept, if it is there."
}

if [ -n "$remove" ]; then remove_all; else install_all; fi
