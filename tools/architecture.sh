# shellcheck shell=bash
# For the other scripts: the architecture of a program and of this machine, as Debian names them.

# The architecture of a program, from its ELF header: its class and byte order, and its machine. Nothing for a script.
architecture_of() { # FILE
    case $(od -An -v -tx1 -N20 -- "$1" 2>/dev/null | tr -d ' \n') in
    7f454c460201*3e00) echo amd64 ;;
    7f454c460201*b700) echo arm64 ;;
    7f454c46*) echo another architecture ;;
    esac
}

architecture_here() {
    case $(uname -m) in
    x86_64) echo amd64 ;;
    aarch64) echo arm64 ;;
    *) uname -m ;;
    esac
}

# Whether a program is for this machine. A script is.
runs_here() { # FILE
    local of
    of=$(architecture_of "$1")
    [ -z "$of" ] || [ "$of" = "$(architecture_here)" ]
}
