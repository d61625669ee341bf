#!/usr/bin/env bash
# packaging/root.sh PACKAGE DIR: makes a fresh Debian 12 in DIR, and installs the package in it as `apt-get install ./monteneem_....deb` does. It
# needs root, debootstrap and the network. MIRROR is where Debian is, http://deb.debian.org/debian if it is not set.
set -eu
package=$(realpath "$1")
root=$2
mirror=${MIRROR:-http://deb.debian.org/debian}
[ "$(id -u)" -eq 0 ] || { echo 'root.sh: only root can make a Debian root' >&2; exit 1; }
command -v debootstrap >/dev/null || { echo 'root.sh: debootstrap is not here' >&2; exit 1; }
debootstrap --variant=minbase bookworm "$root" "$mirror" >&2
# Each machine has this, and each engine gives it to a container.
[ -s "$root/etc/hosts" ] || echo '127.0.0.1 localhost' >"$root/etc/hosts"
cp "$package" "$root/tmp/monteneem.deb"
# No service is started in a root that is no machine.
printf '#!/bin/sh\nexit 101\n' >"$root/usr/sbin/policy-rc.d"
chmod 755 "$root/usr/sbin/policy-rc.d"
DEBIAN_FRONTEND=noninteractive LC_ALL=C chroot "$root" apt-get install -y --no-install-recommends /tmp/monteneem.deb >&2
rm "$root/tmp/monteneem.deb" "$root/usr/sbin/policy-rc.d"
