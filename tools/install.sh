#!/bin/sh
# SPDX-License-Identifier: Apache-2.0
# install.sh install|uninstall PREFIX [DESTDIR]: puts the command, its manual and completions, the library, the headers and the pages
# that these cite below DESTDIR and PREFIX, or takes exactly these away: a list of them is installed too. Below the repository itself
# a copy is put where a link would be, since `rt ci` refuses links.
set -eu

fail() { printf 'install: %s\n' "$*" >&2; exit 1; }

[ $# = 2 ] || [ $# = 3 ] || fail "usage: install.sh install|uninstall PREFIX [DESTDIR]"
deed=$1
prefix=$2
below=${3:-}$2
cd "$(dirname "$0")/.."
version=$(sed -n 's/^.define FM3130_VERSION "\(.*\)"$/\1/p' include/fm3130.h)
made=build/install
pages=share/doc/fm3130
files=$pages/FILES

# What is installed, a line each: how, from where (of a link: to where it leads), and the place below the prefix.
list() {
    echo 755 build/cargo/release/fm3130 bin/fm3130
    for header in include/*.h; do echo 644 "$header" "$header"; done
    echo 644 build/lib/libfm3130.a lib/libfm3130.a
    echo 755 build/lib/libfm3130.so "lib/libfm3130.so.$version"
    echo link "libfm3130.so.$version" "lib/libfm3130.so.${version%%.*}"
    echo link "libfm3130.so.${version%%.*}" lib/libfm3130.so
    echo 755 build/lib/libfm3130-bus.so lib/libfm3130-bus.so
    echo 644 "$made/fm3130.pc" lib/pkgconfig/fm3130.pc
    (cd "$made" && find man -type f) | LC_ALL=C sort | sed "s|.*|644 $made/& share/&|"
    echo 644 "$made/bash" share/bash-completion/completions/fm3130
    echo 644 "$made/zsh" share/zsh/site-functions/_fm3130
    echo 644 "$made/fish" share/fish/vendor_completions.d/fm3130.fish
    grep -oh 'docs/[A-Z]*\.md' include/*.h rust/fm3130-cli/src/help/*.txt | LC_ALL=C sort -u |
        sed "s|docs/\(.*\)|644 & $pages/\1|"
    for script in scripts/*; do echo 644 "$script" "$pages/$script"; done
    echo 644 LICENSE "$pages/LICENSE"
}

install_one() { # HOW FROM TO
    mkdir -p "$(dirname "$below/$3")"
    case $1 in
    link)
        case $below in
        "$PWD"/*) cp "$(dirname "$below/$3")/$2" "$below/$3" ;;
        *) ln -sf "$2" "$below/$3" ;;
        esac
        ;;
    *) install -m "$1" "$2" "$below/$3" ;;
    esac
}

case $deed in
install)
    tools/manual.sh "$made"
    tools/pkg-config.sh "$prefix/include" "$prefix/lib" >"$made/fm3130.pc"
    list >"$made/list"
    echo 644 "$made/files" "$files" >>"$made/list"
    cut -d' ' -f3 "$made/list" >"$made/files"
    while read -r how from to; do install_one "$how" "$from" "$to"; done <"$made/list"
    echo "installed $(wc -l <"$made/files") files below $below: bin/fm3130, lib/libfm3130.a and .so, include/, share/"
    ;;
uninstall)
    [ -f "$below/$files" ] || fail "$below/$files, which says what was installed, is not there"
    count=$(wc -l <"$below/$files")
    sed "s|.*|$below/&|" "$below/$files" | tr '\n' '\0' | xargs -0 rm -f
    for folder in "$below/$pages/scripts" "$below/$pages"; do # both are its own
        [ ! -d "$folder" ] || rmdir --ignore-fail-on-non-empty "$folder"
    done
    echo "took $count files away below $below"
    ;;
*) fail "usage: install.sh install|uninstall PREFIX [DESTDIR]" ;;
esac
