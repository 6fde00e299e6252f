#!/usr/bin/env bash
# Installs the program that 'scripts/build.sh' left at ./pmos, its page for 'man' and its completions for bash under PREFIX,
# which is /usr/local if it is not given, and says what it did. With '--remove' it takes these files away again, and leaves
# the folders.
#
#   scripts/install.sh [PREFIX]
#   scripts/install.sh --remove [PREFIX]
#
# PMOS names another program to install.
set -euo pipefail
top=$(cd "$(dirname "$0")/.." && pwd)

usage() {
    echo "usage: scripts/install.sh [--remove] [PREFIX]"
    exit 1
}

remove=
if [ "${1-}" = --remove ]; then
    remove=yes
    shift
fi
[ $# -le 1 ] || usage
prefix=${1-/usr/local}
case $prefix in '' | -*) usage ;; esac

program=$prefix/bin/pmos
page=$prefix/share/man/man1/pmos.1
completions=$prefix/share/bash-completion/completions/pmos

if [ -n "$remove" ]; then
    for file in "$program" "$page" "$completions"; do
        if [ -e "$file" ]; then
            rm -f "$file"
            echo "Removed $file"
        else
            echo "There is no $file"
        fi
    done
    exit 0
fi

built=${PMOS-$top/pmos}
if ! [ -f "$built" ] || ! [ -x "$built" ]; then
    echo "There is no $built; scripts/build.sh proves and builds it."
    exit 1
fi

# Puts what is read at a path, with this mode, and says so. A program that runs keeps the file that it has.
put() {
    mkdir -p "$(dirname "$2")"
    local new=$2.new.$$
    cat >"$new"
    chmod "$1" "$new"
    mv -f "$new" "$2"
    echo "Installed $2"
}

put 755 "$program" <"$built"
put 644 "$page" <"$top/docs/pmos.1"
put 644 "$completions" <<'BASH'
# Completions of pmos for bash: the commands, files, the modes and places of a run.
_pmos() {
    local word=${COMP_WORDS[COMP_CWORD]} command=${COMP_WORDS[1]-}
    local words='' file=
    COMPREPLY=()
    case $COMP_CWORD:$command in
    1:*) words="init run inspect dump restore why ship make trial" ;;
    2:make) ;;
    2:* | 3:ship) file=yes ;;
    3:run) words="serial threads young" ;;
    4:run) words="first last middle" ;;
    esac
    if [ -n "$file" ]; then
        compopt -o filenames 2>/dev/null
        mapfile -t COMPREPLY < <(compgen -f -- "$word")
    elif [ -n "$words" ]; then
        mapfile -t COMPREPLY < <(compgen -W "$words" -- "$word")
    fi
}
complete -F _pmos pmos
BASH
