#!/usr/bin/env bash
# Tries the library as its users have it: installs it into a temporary prefix, builds the example and the C++ file outside of the tree
# with pkg-config, warnings as errors, and runs them; then uninstalls it, and no file may be left. Also asks that the archive has no
# state and needs no more than it says, and that the manual page and the hosts leave out nothing of the header.
set -euo pipefail
cd "$(dirname "$0")/.."
fail() { echo "installed: $*" >&2; exit 1; }
tmp=$(mktemp -d)
trap 'rm -rf "$tmp"' EXIT

symbols=$(nm target/staticlib/libyarngravel.a)
state=$(grep -E ' [BbCDdGgSs] ' <<< "$symbols") && fail "the archive has state of its own: $state"
needs=$(awk '$1 == "U" { print $2 }' <<< "$symbols" | sort -u | xargs)
[ "$needs" = "memcpy memmove memset" ] || fail "the archive needs $needs"
for name in $(grep -oE 'yarngravel_[a-z_]+\(|YARNGRAVEL_[A-Z_]+[ (]' include/yarngravel.h | tr -d ' (' | sort -u); do
  grep -qw "$name" docs/yarngravel.3 || fail "the manual page has no $name"
  [[ $name = YARNGRAVEL_* ]] || grep -qw "$name" host/*.c host/*.cpp || fail "no host uses $name"
done

make -s install DESTDIR= PREFIX="$tmp/prefix" > /dev/null
cp host/example.c host/plus.cpp "$tmp"
export PKG_CONFIG_PATH="$tmp/prefix/lib/pkgconfig"
(
  cd "$tmp"
  warnings="-O2 -Wall -Wextra -Wpedantic -Werror"
  read -ra flags <<< "$(pkg-config --cflags --libs yarngravel)"
  gcc -std=c11 $warnings example.c "${flags[@]}" -o example
  g++ -std=c++11 $warnings plus.cpp "${flags[@]}" -o plus
  [ "$(./example)" = "clock 4: station 0 says bale 7" ] || fail "the example prints something else"
  ./plus
  version=$(pkg-config --modversion yarngravel)
  grep -q "Yarngravel $version" prefix/share/man/man3/yarngravel.3 || fail "the manual page has no version"
)
make -s uninstall DESTDIR= PREFIX="$tmp/prefix"

make -s install DESTDIR="$tmp/stage" PREFIX=/usr > /dev/null
grep -qx 'prefix=/usr' "$tmp/stage/usr/lib/pkgconfig/yarngravel.pc" || fail "DESTDIR is in the pkg-config file"
make -s uninstall DESTDIR="$tmp/stage" PREFIX=/usr
left=$(find "$tmp/prefix" "$tmp/stage" -type f)
[ -z "$left" ] || fail "left behind: $left"
echo "installed, used with pkg-config by gcc and g++, and uninstalled"
