#!/bin/sh
# usage: install.sh install PREFIX, install.sh uninstall PREFIX, install.sh tarball FOLDER
# Puts the built command, its manual page, its completions and the pages and examples that they name below PREFIX, or takes them away; or
# packs them, with their checksums, into FOLDER. What is installed needs nothing of this repository.
set -eu
here=$(cd "$(dirname -- "$0")" && pwd)
top=$(cd "$here/.." && pwd)
built=$top/target/command/all/mortarbee
about=share/doc/mortarbee
files="bin/mortarbee share/man/man1/mortarbee.1 $about/NOTICE $about/docs/FORMAT.md $about/docs/RULES.md"
files="$files $(cd "$top" && find examples -type f | LC_ALL=C sort | sed "s|^|$about/|")"
files="$files share/bash-completion/completions/mortarbee share/zsh/site-functions/_mortarbee"

stop() {
    printf 'mortarbee: %s\n' "$1" >&2
    exit 2
}

[ $# = 2 ] && [ -n "$2" ] || stop "usage: mortarbee install PREFIX, mortarbee uninstall PREFIX, mortarbee tarball FOLDER"

# put PREFIX: each file is whole under its name, or the old one.
put() {
    for file in $files; do
        mkdir -p "$1/${file%/*}" || stop "$1/${file%/*} cannot be made"
        case $file in
            bin/*) cat "$built" ;;
            */man1/*) "$built" help --man ;;
            */completions/*) "$built" help --bash ;;
            */site-functions/*) "$built" help --zsh ;;
            "$about"/*) cat "$top/${file#"$about/"}" ;;
        esac >"$1/$file.new" || stop "$1/$file cannot be written"
        case $file in bin/*) chmod 755 "$1/$file.new" ;; *) chmod 644 "$1/$file.new" ;; esac
        mv -f "$1/$file.new" "$1/$file" || stop "$1/$file cannot be written"
    done
}

pack() {
    version=$("$built" version | sed -n 's/^version //p')
    name=mortarbee-$version-x86_64-linux
    work=$(mktemp -d)
    trap 'rm -rf "$work"' EXIT
    put "$work/$name"
    (cd "$work/$name" && sha256sum $files >SHA256SUMS)
    mkdir -p "$1"
    tar -C "$work" --sort=name --owner=0 --group=0 --numeric-owner --mtime=@0 -czf "$1/$name.tar.gz.new" "$name"
    mv -f "$1/$name.tar.gz.new" "$1/$name.tar.gz"
    (cd "$1" && sha256sum "$name.tar.gz" >"$name.tar.gz.sha256")
    echo "$1/$name.tar.gz"
}

case $1 in
    install) put "$2" ;;
    uninstall) for file in $files; do rm -f "$2/$file"; done ;;
    tarball) pack "$2" ;;
    *) stop "usage: mortarbee install PREFIX, mortarbee uninstall PREFIX, mortarbee tarball FOLDER" ;;
esac
