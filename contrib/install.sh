#!/bin/sh
# Copies the programs, their manual pages and their completion to a folder, and removes them again.
#
#     install.sh PREFIX               copies each file of the tree beside this script to its place under PREFIX, as /usr/local
#     install.sh --uninstall PREFIX   removes what was copied there
#     install.sh --check PREFIX       says whether PREFIX can be written, and copies nothing
#
# The tree is the one in TREE where that is given. With DESTDIR all of it goes to the same places under that folder, from where a package is
# made. The new files get other names first and are then renamed, so a full disk leaves the old ones. PREFIX/share/fwknopd/manifest has each
# file and each folder that was made, and nothing else is removed.
set -eu

complain() {
    echo "install.sh: $*" >&2
    exit 1
}

usage() {
    complain 'usage: install.sh [--check | --uninstall] PREFIX'
}

action=install
case "${1-}" in
    --check | --uninstall) action=${1#--} && shift ;;
    -*) usage ;;
esac
[ $# -eq 1 ] || usage
prefix=$1
tree=${TREE:-$(dirname "$0")}
manifest=share/fwknopd/manifest

case "$prefix" in /*) ;; *) complain "PREFIX must be an absolute path, and is '$prefix'" ;; esac
to=${DESTDIR-}$prefix
# a package begins with an empty DESTDIR; otherwise a PREFIX that is not there is misspelt
if [ -n "${DESTDIR-}" ] && [ "$action" != uninstall ]; then
    mkdir -p "$to"
fi
[ -d "$to" ] || complain "PREFIX is no folder: $to"

# The folders of the tree, each behind the one that it stands in, and its files.
folders() {
    (cd "$tree" && find bin share -type d | sort)
}

files() {
    (cd "$tree" && find bin share -type f | sort)
}

# Whether each folder is there, or can be made where it is missing.
check() {
    { echo .; [ -d "$tree/bin" ] && folders || echo bin; } | while IFS= read -r it; do
        if [ -e "$to/$it" ] || [ "$it" = . ]; then
            { [ -d "$to/$it" ] && [ -w "$to/$it" ]; } || complain "$to/$it is no folder that you may write"
        fi
    done
}

remove() {
    [ -f "$to/$manifest" ] || complain "nothing was installed there: $to/$manifest is missing"
    # the files first, then the folders, the innermost first
    grep '^file ' "$to/$manifest" | while IFS= read -r it; do
        it=${it#file }
        rm -f "$to/$it"
        echo "removed $to/$it"
    done
    kept=$(mktemp)
    grep '^folder ' "$to/$manifest" | sort -r >"$kept" || :
    rm -f "$to/$manifest"
    while IFS= read -r it; do
        rmdir "$to/${it#folder }" 2>/dev/null || :
    done <"$kept"
    rm -f "$kept"
}

copy() {
    made=
    clean() {
        files | while IFS= read -r it; do rm -f "$to/$(dirname "$it")/.$(basename "$it").new"; done
        rm -f "$to/$manifest.new"
        for it in $made; do rmdir "$to/$it" 2>/dev/null || :; done
    }
    trap clean EXIT
    # the innermost folders stand in front
    for it in $(folders); do
        if [ ! -d "$to/$it" ]; then
            mkdir "$to/$it"
            chmod 755 "$to/$it"
            made="$it $made"
        fi
    done
    for it in $(files); do
        new=$to/$(dirname "$it")/.$(basename "$it").new
        cp "$tree/$it" "$new"
        if [ -x "$tree/$it" ]; then chmod 755 "$new"; else chmod 644 "$new"; fi
    done
    # what an earlier version had and this one has not goes; the folders that were made then are still ours
    if [ -f "$to/$manifest" ]; then
        ours=$(sed -n 's/^folder //p' "$to/$manifest")
        sed -n 's/^file //p' "$to/$manifest" | while IFS= read -r it; do
            [ -f "$tree/$it" ] || rm -f "$to/$it"
        done
    else
        ours=
    fi
    {
        for it in $made $ours; do echo "folder $it"; done | sort -u
        files | sed 's/^/file /'
    } >"$to/$manifest.new"
    chmod 644 "$to/$manifest.new"
    mv -fT "$to/$manifest.new" "$to/$manifest"
    for it in $(files); do
        mv -fT "$to/$(dirname "$it")/.$(basename "$it").new" "$to/$it"
        echo "installed $to/$it"
    done
    trap - EXIT
}

case "$action" in
    uninstall) remove ;;
    check) check ;;
    install)
        [ -d "$tree/bin" ] || complain "there is nothing to install in $tree"
        check
        copy
        ;;
esac
