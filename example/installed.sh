#!/usr/bin/env bash
# Installs to a temporary folder, builds the README's first program through pkg-config, runs it, and takes all away again.
set -euo pipefail
cd "$(dirname "${BASH_SOURCE[0]}")/.."

work=$(mktemp -d)
trap 'rm -rf "$work"' EXIT
title=installed
source example/steps.sh

# What stands in the README's only block of the language.
block() {
  awk -v start="\`\`\`$1" '$0 == start { inside = 1; next } /^```/ { inside = 0 } inside' README.md
}

# The program, built with the flags given, prints what the README's remark says that it prints.
first_program() {
  local out
  gcc -std=c11 -Wall -Wextra -Werror "$work/try.c" "$@" -o "$work/try" || fail 'the first program does not build'
  out=$("$work/try") || fail 'the first program fails'
  [[ $out == "$printed" ]] || fail "the first program printed '$out'"
}

# Every file that the list of an installation names is there, for all to read, below the folder given.
all_there() {
  local file
  [[ -s $1 ]] || fail 'nothing was installed'
  while read -r _ file; do
    [[ $file == "$2"/* && -s $file && $(stat -c %a "$file") == 644 ]] ||
      fail "$file is elsewhere, empty, not there or not for all to read"
  done <"$1"
  cmp -s include/rowstore.h "$2/include/rowstore.h" || fail 'another header'
}

block c >"$work/try.c"
grep -q 'int main' "$work/try.c" || fail 'README.md has no first program'
printed=$(sed -n 's|.*/\* prints: \(.*\) \*/.*|\1|p' "$work/try.c")
[[ -n $printed ]] || fail 'the first program does not say what it prints'

make --no-print-directory install PREFIX="$work/usr" >"$work/list"
all_there "$work/list" "$work/usr"
pass "$(wc -l <"$work/list") files are there"

# A system root: files go below DESTDIR, and the pkg-config file speaks of PREFIX alone.
make --no-print-directory install PREFIX=/usr DESTDIR="$work/root" >"$work/list_root"
all_there "$work/list_root" "$work/root/usr"
grep -qx 'prefix=/usr' "$work/root/usr/lib/pkgconfig/rowstore.pc" || fail 'the pkg-config file has another prefix'
pass 'the same below DESTDIR'

if command -v pkg-config >/dev/null; then
  export PKG_CONFIG_PATH=$work/usr/lib/pkgconfig
  flags=$(pkg-config --cflags --libs rowstore) || fail 'pkg-config does not find it'
  # shellcheck disable=SC2086
  first_program $flags
  pass "the first program of README.md, through pkg-config, prints: $printed"
  export PKG_CONFIG_LIBDIR=$work/root/usr/lib/pkgconfig PKG_CONFIG_PATH='' PKG_CONFIG_SYSROOT_DIR=$work/root
  flags=$(PKG_CONFIG_ALLOW_SYSTEM_CFLAGS=1 PKG_CONFIG_ALLOW_SYSTEM_LIBS=1 pkg-config --cflags --libs rowstore) ||
    fail 'pkg-config does not find it below DESTDIR'
  # shellcheck disable=SC2086
  first_program $flags
  pass 'the same with the files below DESTDIR'
  version=$(sed -n 's/^#define ROWSTORE_VERSION //p' include/rowstore.h)
  [[ $(pkg-config --modversion rowstore) == "$version" ]] || fail "pkg-config tells another version than $version"
  pass "pkg-config tells the header's version, $version"
else
  printf 'installed: pkg-config is not installed, three steps left out\n'
  first_program -I"$work/usr/include" -L"$work/usr/lib" -lrowstore
  pass "the first program of README.md prints: $printed"
fi

if command -v man >/dev/null; then
  said=$(man --warnings --encoding=UTF-8 --local-file "$work/usr/share/man/man3/rowstore.3" 2>&1 >"$work/page") ||
    fail 'the manual page cannot be shown'
  [[ -z $said ]] || fail "the manual page: $said"
  MANPATH=$work/usr/share/man man rowstore_border >"$work/page_border" || fail 'no manual page for rowstore_border'
  cmp -s "$work/page" "$work/page_border" || fail 'another manual page for rowstore_border'
  pass 'the manual page is shown without a warning, for a call too'
else
  printf 'installed: man is not installed, a step left out\n'
fi

make --no-print-directory uninstall PREFIX="$work/usr" >/dev/null
make --no-print-directory uninstall PREFIX=/usr DESTDIR="$work/root" >/dev/null
left=$(find "$work/usr" "$work/root" -type f)
[[ -z $left ]] || fail "left behind: $left"
pass 'nothing is left behind'

printf 'installed: %d checks passed\n' "$passed"
