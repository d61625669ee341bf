#!/usr/bin/env bash
# packaging/deb.sh [DIR]: makes monteneem_VERSION_amd64.deb in DIR, `packaging/out` if it is not given, and prints its name. It has the proved
# program, agency/, examples/, the documents, manual pages, completion for Bash and the unit monteneem@.service. LC is the program,
# crates/lc/out/lc of this repository if it is not set. The version is that of version.sh. The same files give the same package, byte for byte.
set -euo pipefail
here=$(dirname "$(realpath "${BASH_SOURCE[0]}")")
top=$(dirname "$here")
LC=${LC:-$top/crates/lc/out/lc}
out=${1:-$here/out}
python=/usr/bin/python3

[ -x "$LC" ] || { echo "deb.sh: no program at $LC: build it by ./lc prove" >&2; exit 1; }
for tool in dpkg-deb gzip "$python"; do
  command -v "$tool" >/dev/null || { echo "deb.sh: $tool is not here" >&2; exit 1; }
done
version=$("$here/version.sh")
SOURCE_DATE_EPOCH=$("$here/version.sh" date)
export SOURCE_DATE_EPOCH
day=$(date -u -d "@$SOURCE_DATE_EPOCH" +%Y-%m-%d)
maintainer='Monteneem maintainers <maintainers@users.noreply.monteneem.example>'
work=$(mktemp -d)
trap 'rm -rf "$work"' EXIT
umask 022
root=$work/root
doc=$root/usr/share/doc/monteneem
man=$root/usr/share/man/man1

# lay MODE FILE TO: copies a file, and makes its directory.
lay() { install -D -m "$1" "$2" "$3"; }

# page TOOL: a manual page of what the tool says of itself.
page() {
  local about
  "$python" "$top/agency/$1.py" --help >"$work/help"
  # What it is for stands in the first paragraph after the usage.
  about=$(awk '/^$/ { begun = 1; next } begun { print; exit }' "$work/help")
  printf '.TH MONTENEEM\\-%s 1 "%s" "monteneem %s" "User Commands"\n.SH NAME\nmonteneem\\-%s \\- %s\n.SH DESCRIPTION\n.nf\n' \
    "${1^^}" "$day" "$version" "$1" "${about//-/\\-}"
  sed -e "s/\\b$1\\.py/monteneem-$1/g" -e 's/\\/\\e/g' -e 's/-/\\-/g' -e "s/^[.']/\\\\\\&&/" "$work/help"
  printf '.fi\n.SH SEE ALSO\n.BR lc (1)\n'
}

install -d -m 755 "$root" "$root/etc/monteneem" "$doc/examples" "$man"
lay 755 "$LC" "$root/usr/bin/lc"
for tool in "$top"/agency/*.py "$top"/agency/*.sql; do
  [ -f "$tool" ] || continue
  mode=644
  [ ! -x "$tool" ] || mode=755
  lay "$mode" "$tool" "$root/usr/lib/monteneem/agency/$(basename "$tool")"
done
for tool in keep lint split; do
  [ -f "$top/agency/$tool.py" ] || continue
  ln -s "../lib/monteneem/agency/$tool.py" "$root/usr/bin/monteneem-$tool"
  page "$tool" | gzip -9n >"$man/monteneem-$tool.1.gz"
done
"$python" "$here/from_usage.py" manual "$version" "$day" <"$top/docs/USAGE.md" | gzip -9n >"$man/lc.1.gz"
install -d -m 755 "$root/usr/share/bash-completion/completions"
"$python" "$here/from_usage.py" completion <"$top/docs/USAGE.md" >"$root/usr/share/bash-completion/completions/lc"
for unit in "$here"/monteneem@.service "$here"/operating/*@.*; do lay 644 "$unit" "$root/lib/systemd/system/$(basename "$unit")"; done
lay 755 "$here/operating/haproxy.py" "$root/usr/lib/monteneem/haproxy.py"
for file in tiny.toml nginx.conf varnish.vcl; do lay 644 "$here/operating/$file" "$doc/examples/operating/$file"; done
for document in "$top"/docs/*.md "$top"/README.md "$top"/CHANGELOG.md; do lay 644 "$document" "$doc/$(basename "$document")"; done
cp -R "$top/examples/." "$doc/examples"
find "$doc" -type d -exec chmod 755 {} +
find "$doc" -type f -exec chmod 644 {} +
gzip -9n >"$doc/changelog.gz" <<CHANGELOG
monteneem ($version) unstable; urgency=medium

  * What users see is in CHANGELOG.md, beside this file.

 -- $maintainer  $(date -u -d "@$SOURCE_DATE_EPOCH" '+%a, %d %b %Y %H:%M:%S +0000')
CHANGELOG
{
  printf 'Monteneem is licensed under the MIT license, or under the Apache License 2.0\n(/usr/share/common-licenses/Apache-2.0), at your option.\n\n'
  cat "$top/LICENSE-MIT"
} >"$doc/copyright"

install -d -m 755 "$root/DEBIAN"
# The program needs the C library of the machine that it was built on, or a later one.
libc=$(grep -aoE 'GLIBC_2\.[0-9]+' "$LC" | sed 's/GLIBC_//' | sort -uV | tail -n 1 || true)
cat >"$root/DEBIAN/control" <<CONTROL
Package: monteneem
Version: $version
Architecture: amd64
Maintainer: $maintainer
Installed-Size: $(du -sk --exclude=DEBIAN "$root" | cut -f 1)
Depends: adduser, ca-certificates, libc6 (>= ${libc:-2.36}), python3 (>= 3.11), python3-prometheus-client, python3-protobuf, tzdata
Recommends: nginx | haproxy
Section: web
Priority: optional
Description: Linked Connections publisher and client-side journey planner
 A public transport timetable goes out as pages of connections ordered by
 departure time, for any version of the timetable that ever held: GTFS, then
 GTFS Realtime, then mementos of RFC 7089. The program lc is proved.
 .
 The unit monteneem@NAME keeps a feed by /etc/monteneem/NAME.toml: it fetches
 messages, archives them, serves the pages, and goes over to the next week.
CONTROL
cat >"$root/DEBIAN/postinst" <<'SCRIPT'
#!/bin/sh
set -e
if [ "$1" = configure ]; then
  adduser --quiet --system --group --no-create-home --home /var/lib/monteneem monteneem
  if [ -d /run/systemd/system ]; then systemctl --system daemon-reload >/dev/null || true; fi
fi
SCRIPT
cat >"$root/DEBIAN/prerm" <<'SCRIPT'
#!/bin/sh
set -e
if [ "$1" = remove ] && [ -d /run/systemd/system ]; then systemctl stop 'monteneem@*.service' || true; fi
# What Python wrote beside its sources is of no package.
find /usr/lib/monteneem -name __pycache__ -prune -exec rm -rf {} +
SCRIPT
cat >"$root/DEBIAN/postrm" <<'SCRIPT'
#!/bin/sh
set -e
# The archive in /var/lib/monteneem is the agency's, and stays.
if [ -d /run/systemd/system ]; then systemctl --system daemon-reload >/dev/null || true; fi
SCRIPT
chmod 755 "$root"/DEBIAN/postinst "$root"/DEBIAN/prerm "$root"/DEBIAN/postrm
(cd "$root" && find . -path ./DEBIAN -prune -o -type f -print | LC_ALL=C sort | sed 's|^\./||' | xargs -d '\n' md5sum) >"$root/DEBIAN/md5sums"
chmod 644 "$root/DEBIAN/md5sums" "$root/DEBIAN/control"
find "$root" -exec touch -hd "@$SOURCE_DATE_EPOCH" {} +

mkdir -p "$out"
package=$out/monteneem_${version}_amd64.deb
dpkg-deb --root-owner-group -Zxz --build "$root" "$package" >/dev/null
echo "$package"
