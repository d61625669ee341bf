#!/usr/bin/env bash
# packaging/image.sh [DIR]: makes monteneem_VERSION_amd64.oci.tar in DIR, `packaging/out` if it is not given, and prints its name: a container image
# (OCI image layout) of Debian 12 with the package. No engine is needed to make it. `podman load -i`, `docker load -i` (from 25 on) and
# `skopeo copy oci-archive:...` take it. It runs `monteneem-keep /etc/monteneem/feed.toml` in the volume /var/lib/monteneem.
#
# lc serves the loopback address alone: run the proxy in the same network namespace, as in one pod. It needs root, debootstrap and the network.
set -eu
here=$(dirname "$(realpath "${BASH_SOURCE[0]}")")
out=${1:-$here/out}
version=$("$here/version.sh")
epoch=$("$here/version.sh" date)
work=$(mktemp -d)
trap 'rm -rf "$work"' EXIT

package=$("$here/deb.sh" "$out")
root=$work/root
"$here/root.sh" "$package" "$root"
# What differs from day to day, or is made anew, is no part of the image.
(cd "$root" && rm -rf var/lib/apt/lists/* var/cache/apt/* var/log/* tmp/* dev/* var/cache/ldconfig/aux-cache)
find "$root/usr/lib" "$root/usr/share" -name __pycache__ -prune -exec rm -rf {} +
: >"$root/etc/machine-id"
user=$(awk -F: '$1 == "monteneem" { print $3 ":" $4 }' "$root/etc/passwd")
install -d -m 755 -o "${user%:*}" -g "${user#*:}" "$root/var/lib/monteneem"

layout=$work/layout
blobs=$layout/blobs/sha256
mkdir -p "$blobs"

# archive DIR TO ENTRY...: a tar file that depends on the files alone.
archive() { tar --sort=name --mtime="@$epoch" --clamp-mtime --numeric-owner -C "$1" -cf "$2" "${@:3}"; }

# blob FILE: moves a file among the blobs, and prints how a document refers to it.
blob() {
  local sum size
  sum=$(sha256sum "$1" | cut -d ' ' -f 1)
  size=$(stat -c %s "$1")
  mv "$1" "$blobs/$sum"
  printf '"digest":"sha256:%s","size":%s' "$sum" "$size"
}

archive "$root" "$work/layer.tar" .
difference=$(sha256sum "$work/layer.tar" | cut -d ' ' -f 1)
gzip -6n "$work/layer.tar"
layer=$(blob "$work/layer.tar.gz")
printf '{"architecture":"amd64","os":"linux","created":"%s","config":{"User":"monteneem","Entrypoint":["/usr/bin/monteneem-keep"],"Cmd":["/etc/monteneem/feed.toml"],"WorkingDir":"/var/lib/monteneem","Volumes":{"/var/lib/monteneem":{}},"StopSignal":"SIGTERM","Env":["PATH=/usr/local/sbin:/usr/local/bin:/usr/sbin:/usr/bin:/sbin:/bin","PYTHONUNBUFFERED=1"],"Labels":{"org.opencontainers.image.title":"monteneem","org.opencontainers.image.version":"%s"}},"rootfs":{"type":"layers","diff_ids":["sha256:%s"]},"history":[{"created":"%s","created_by":"packaging/image.sh"}]}' \
  "$(date -u -d "@$epoch" +%Y-%m-%dT%H:%M:%SZ)" "$version" "$difference" "$(date -u -d "@$epoch" +%Y-%m-%dT%H:%M:%SZ)" >"$work/config"
config=$(blob "$work/config")
printf '{"schemaVersion":2,"mediaType":"application/vnd.oci.image.manifest.v1+json","config":{"mediaType":"application/vnd.oci.image.config.v1+json",%s},"layers":[{"mediaType":"application/vnd.oci.image.layer.v1.tar+gzip",%s}]}' \
  "$config" "$layer" >"$work/manifest"
manifest=$(blob "$work/manifest")
printf '{"schemaVersion":2,"mediaType":"application/vnd.oci.image.index.v1+json","manifests":[{"mediaType":"application/vnd.oci.image.manifest.v1+json",%s,"platform":{"architecture":"amd64","os":"linux"},"annotations":{"org.opencontainers.image.ref.name":"monteneem:%s"}}]}' \
  "$manifest" "$version" >"$layout/index.json"
printf '{"imageLayoutVersion":"1.0.0"}' >"$layout/oci-layout"

image=$out/monteneem_${version}_amd64.oci.tar
archive "$layout" "$image" oci-layout index.json blobs
echo "$image"
