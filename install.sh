#!/bin/sh
# Puts the program, its man page and its completions below PREFIX, or takes them away:
#   ./install.sh PREFIX
#   ./install.sh --uninstall PREFIX
# The program is proved and built first where it isn't built.
set -eu
top=$(dirname -- "$(readlink -f -- "$0")")

usage() {
    echo "usage: ./install.sh [--uninstall] PREFIX" >&2
    exit 1
}

away=no
if [ "${1-}" = --uninstall ]; then away=yes; shift; fi
[ $# = 1 ] || usage
case $1 in '' | -*) usage ;; esac
prefix=$1

# What goes where, and with which permissions.
files="\
755 crates/ffrun/out/ffrun bin/ffrun
644 docs/ffrun.1 share/man/man1/ffrun.1
644 completions/ffrun.bash share/bash-completion/completions/ffrun
644 completions/_ffrun share/zsh/site-functions/_ffrun"

[ $away = yes ] || "$top/ffrun" run id </dev/null
echo "$files" | while read -r mode from to; do
    if [ $away = yes ]; then
        rm -f -- "$prefix/$to"
    else
        install -D -m "$mode" -- "$top/$from" "$prefix/$to"
        echo "$prefix/$to"
    fi
done
[ $away = yes ] || case :$PATH: in
*":$prefix/bin:"*) ;;
*) echo "$prefix/bin isn't on the PATH: PATH=\$PATH:$prefix/bin" ;;
esac
