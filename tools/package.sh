#!/bin/sh
# Makes a Debian package of the proved programs. --help says how.
set -eu
umask 022

usage() {
    cat <<'TEXT'
usage: tools/package.sh [--build] [--programs FOLDER] [FOLDER]

Makes the package refthongi_VERSION_amd64.deb in FOLDER, which is the present one where it is left out, and prints its path. It has

  /usr/bin/grasp_replay  /usr/bin/grasp_node, which are the very files that the gate proved and built
  their manual pages, and two units for systemd, which are neither enabled nor started
  /usr/share/refthongi: the filters and charts of tools/, and the dissector for Wireshark
  /usr/share/doc/refthongi: README.md, docs, examples, the licence and what changed
  /usr/lib/python3/dist-packages/grasp.py, and in /usr/share/refthongi/python two programs that use it

VERSION is what `grasp_node --version` tells. It is to be that of
the first entry of CHANGELOG.md, where that of `grasp_replay` has an entry too. The same programs and files make the same package,
byte for byte.

  --build, --programs FOLDER   as for tools/install.sh, which puts programs, manual pages and unit into place

It needs dpkg-deb, gzip and python3. MAINTAINER in the environment names who answers for the package, as `Name <address>`.
TEXT
}

fail() {
    echo "package.sh: $*" >&2
    exit 1
}

wrong_words() {
    echo "package.sh: $*; package.sh --help says more" >&2
    exit 2
}

# ---- the words

build=
programs=
folder=
while [ $# -gt 0 ]; do
    case $1 in
    --help | -h)
        usage
        exit 0
        ;;
    --build) build=--build ;;
    --programs)
        [ $# -gt 1 ] || wrong_words "--programs needs a folder"
        programs=$(cd "$2" && pwd) || fail "$2: it can't be entered"
        shift
        ;;
    -*) wrong_words "unknown option $1" ;;
    *)
        [ -z "$folder" ] || wrong_words "more than one FOLDER: $folder and $1"
        folder=$1
        ;;
    esac
    shift
done
folder=$(cd "${folder:-.}" && pwd) || fail "$folder: it can't be entered"
top=$(cd "$(dirname "$0")/.." && pwd)
cd "$top"
for tool in dpkg-deb gzip python3; do
    command -v "$tool" >/dev/null || fail "$tool: it isn't on the path"
done

# ---- the files

work=$(mktemp -d)
trap 'rm -rf "$work"' EXIT
root=$work/root
DESTDIR=$root tools/install.sh $build ${programs:+--programs "$programs"} /usr >/dev/null

version_of() {
    "$root/usr/bin/$1" --version | sed -n "s/^$1 \([0-9][0-9.]*\)$/\1/p"
}
version=$(version_of grasp_node)
[ -n "$version" ] || fail "grasp_node --version tells no version"
of_replay=$(version_of grasp_replay)
grep -q "^## $of_replay, " CHANGELOG.md || fail "CHANGELOG.md has no entry of $of_replay, which grasp_replay tells"
entry=$(sed -n 's/^## \([0-9].*\)$/\1/p' CHANGELOG.md | head -n 1)
[ "${entry%%,*}" = "$version" ] || fail "the first entry of CHANGELOG.md is $entry, and the programs are $version"
date=${entry#*, }
SOURCE_DATE_EPOCH=$(date -u -d "$date" +%s) || fail "the first entry of CHANGELOG.md has no date: $entry"
export SOURCE_DATE_EPOCH
maintainer=${MAINTAINER:-"$(git log -1 --format='%an <%ae>' 2>/dev/null || true)"}
[ -n "$maintainer" ] || fail "MAINTAINER isn't set"

put() {
    mkdir -p "$root/$2"
    cp "$1" "$root/$2/"
    chmod "${3:-644}" "$root/$2/$(basename "$1")"
}

for tool in chart.py readable.py; do
    put tools/$tool usr/share/refthongi/tools 755
done
for part in cbor_notation.py reports.py script_check.py traces.py; do
    put tools/$part usr/share/refthongi/tools
done
put contrib/wireshark/grasp.lua usr/share/refthongi/wireshark
put contrib/wireshark/README.md usr/share/refthongi/wireshark
put contrib/python/grasp.py usr/lib/python3/dist-packages
for agent in bandwidth.py on_event.py; do
    put contrib/python/$agent usr/share/refthongi/python 755
done

doc=usr/share/doc/refthongi
put README.md $doc
for page in docs/*.md docs/*.svg; do
    put "$page" $doc/docs
done
# Of a checkout the files that it has under git, so that nothing of its user's own is packed.
{ git ls-files examples 2>/dev/null || find examples -type f ! -path '*/out/*'; } | while read -r file; do
    mode=644
    [ ! -x "$file" ] || mode=755
    put "$file" "$doc/$(dirname "$file")" $mode
done
# What runs the programs of the package finds them on the path.
find "$root/$doc/examples" -name run.sh -exec sed -i 's|^program=${1:-$(cd "$here/../.." && pwd)/crates/grasp_node/out/grasp_node}$|program=${1:-/usr/bin/grasp_node}|' {} +

{
    cat <<TEXT
Format: https://www.debian.org/doc/packaging-manuals/copyright-format/1.0/
Upstream-Name: Refthongi

Files: *
Copyright: the authors of Refthongi
License: Apache-2.0 or Expat

License: Apache-2.0
 On Debian systems the text is in /usr/share/common-licenses/Apache-2.0.

License: Expat
TEXT
    sed -e 's/^$/./' -e 's/^/ /' LICENSE-MIT
} >"$root/$doc/copyright"

python3 - "$version" "$maintainer" "$SOURCE_DATE_EPOCH" >"$root/$doc/changelog" <<'TEXT'
import email.utils, re, sys, textwrap
version, maintainer, date = sys.argv[1:]
entry = re.split(r"^## ", open("CHANGELOG.md").read(), flags=re.M)[1].split("\n", 1)[1]
print(f"refthongi ({version}) unstable; urgency=medium\n")
for line in entry.strip().split("\n"):
    line = re.sub(r"\[([^]]*)\]\([^)]*\)", r"\1", line).replace("`", "")
    begin = "  * " if line.startswith("- ") else "    "
    print(textwrap.fill(line.removeprefix("- "), 78, initial_indent=begin, subsequent_indent="    "))
print(f"\n -- {maintainer}  {email.utils.formatdate(int(date))}")
TEXT
gzip -9n "$root/$doc/changelog"
find "$root/usr/share/man" -type f -exec gzip -9n {} +

mkdir -p "$root/usr/share/lintian/overrides"
cat >"$root/usr/share/lintian/overrides/refthongi" <<'TEXT'
# The programs are the very files that were proved and tested.
refthongi: unstripped-binary-or-object *
TEXT
chmod 644 "$root/$doc/copyright" "$root/$doc/changelog.gz" "$root/usr/share/lintian/overrides/refthongi"

# ---- the package

libc=$(cat "$root/usr/bin/grasp_node" "$root/usr/bin/grasp_replay" | grep -ao 'GLIBC_2\.[0-9]*' | sort -Vu | tail -n 1)
size=$(du -sk --apparent-size "$root" | cut -f 1)
mkdir -p "$root/DEBIAN"
cat >"$root/DEBIAN/control" <<TEXT
Package: refthongi
Version: $version
Architecture: amd64
Maintainer: $maintainer
Installed-Size: $size
Depends: libc6 (>= ${libc#GLIBC_})
Suggests: python3, wireshark-common | tshark
Section: net
Priority: optional
Description: GRASP node that shares out IPv6 prefixes, and tools for its messages
 GRASP (RFC 8990) is the protocol by which the nodes of a self-managing network
 find partners, flood and synchronize parameters, and negotiate.
 .
 grasp_node runs a node, which shares out IPv6 prefixes (RFC 8992). grasp_replay
 shows and packs GRASP messages, and runs scripts of whole networks.
TEXT
[ -n "$programs" ] || cat >>"$root/DEBIAN/control" <<TEXT
 Both programs are proved to keep their contracts.
TEXT
(cd "$root" && find usr -type f | LC_ALL=C sort | xargs -d '\n' md5sum) >"$root/DEBIAN/md5sums"
chmod 644 "$root/DEBIAN/control" "$root/DEBIAN/md5sums"
find "$root" -exec touch -h -d "@$SOURCE_DATE_EPOCH" {} +
package=$folder/refthongi_${version}_amd64.deb
dpkg-deb --root-owner-group -Zxz --build "$root" "$package" >/dev/null
echo "$package"
