#!/bin/sh
# Installs grasp_replay and grasp_node with their manual pages and the units for systemd. --help says how.
set -eu
umask 022

usage() {
    cat <<'TEXT'
usage: tools/install.sh [--build] [--programs FOLDER] [PREFIX]

Installs these files under PREFIX, which is /usr/local where it is left out:

  bin/grasp_replay  bin/grasp_node
  share/man/man1/grasp_replay.1  share/man/man1/grasp_node.1  and the other pages of docs/man, each below its section
  lib/systemd/system/grasp_node.service, which starts PREFIX/bin/grasp_node for a number of turns
  lib/systemd/system/grasp_node_serve.service, which starts it until it is stopped

The programs are those that the gate, `rt ci`, proved and left in crates/grasp_replay/out and crates/grasp_node/out. Where
one of them is missing, or is older than a source, nothing is installed.

  --build            runs `rt ci` first where that is so. It proves everything that no earlier run on this machine proved,
                     which takes long, and needs the Rattle kit's `rt` on the path
  --programs FOLDER  takes the two programs from FOLDER in place of those of the gate, whatever they are

With DESTDIR in the environment all files go below that folder, and the units still name PREFIX. Both units read
their configuration from /etc/grasp_node.toml; the first keeps its mark in /var/lib/grasp_node and the second has its control
socket in /run/grasp_node, whatever PREFIX is. Nothing is enabled or started. What is installed is printed, a line a file.
TEXT
}

fail() {
    echo "install.sh: $*" >&2
    exit 1
}

wrong_words() {
    echo "install.sh: $*; install.sh --help says more" >&2
    exit 2
}

# Runs a command that makes or changes PLACE, and fails with the place and the command's reason.
at() {
    place=$1
    shift
    said=$("$@" 2>&1) || fail "$place: ${said##*: }"
}

# ---- the words

prefix=
programs=
build=no
while [ $# -gt 0 ]; do
    case $1 in
    --help | -h)
        usage
        exit 0
        ;;
    --build) build=yes ;;
    --programs)
        [ $# -gt 1 ] || wrong_words "--programs needs a folder"
        programs=$2
        shift
        ;;
    -*) wrong_words "unknown option $1" ;;
    *)
        [ -z "$prefix" ] || wrong_words "more than one PREFIX: $prefix and $1"
        [ -n "$1" ] || wrong_words "PREFIX is empty"
        prefix=$1
        ;;
    esac
    shift
done
prefix=${prefix:-/usr/local}
while [ "$prefix" != / ] && [ "${prefix%/}" != "$prefix" ]; do
    prefix=${prefix%/}
done
case $prefix in
/*) ;;
*) wrong_words "PREFIX is $prefix, and has to begin with /" ;;
esac
case $prefix in
*[!A-Za-z0-9/._+-]*) wrong_words "PREFIX is $prefix, and may have letters, digits and / . _ + - alone, since the units name it" ;;
esac
[ "$prefix" != / ] || prefix=
[ "$build" = no ] || [ -z "$programs" ] || wrong_words "--build and --programs don't go together"

# ---- what is installed

start=$(pwd)
top=$(cd "$(dirname "$0")/.." && pwd) || fail "$0: its folder can't be entered"
cd "$top"

# Says in $lack why the program of the gate can't be taken, and nothing where it can.
look_at() {
    lack=
    program=crates/$1/out/$1
    if [ ! -f "$program" ]; then
        lack="$top/$program: it isn't there"
        return
    fi
    newer=$(find crates.txt crates/*/src crates/*/specs crates/*/proofs -type f -newer "$program" 2>/dev/null | head -n 1)
    [ -z "$newer" ] || lack="$top/$program: it is older than $newer"
}

look_at_both() {
    look_at grasp_replay
    [ -n "$lack" ] || look_at grasp_node
}

if [ -n "$programs" ]; then
    case $programs in
    /*) ;;
    *) programs=$start/$programs ;;
    esac
    replay=$programs/grasp_replay
    node=$programs/grasp_node
else
    look_at_both
    if [ -n "$lack" ] && [ "$build" = yes ]; then
        command -v rt >/dev/null || fail "rt: it isn't on the path; --build needs the Rattle kit that README.md names"
        echo "install.sh: $lack; running \`rt ci\` in $top" >&2
        rt ci >&2 || fail "$top: \`rt ci\` failed, nothing was installed"
        look_at_both
    fi
    [ -z "$lack" ] || fail "$lack; run \`rt ci\` in $top, which proves and builds it, or install.sh --build, which does that first"
    replay=$top/crates/grasp_replay/out/grasp_replay
    node=$top/crates/grasp_node/out/grasp_node
fi
units="grasp_node.service grasp_node_serve.service"
for program in "$replay" "$node"; do
    [ -f "$program" ] || fail "$program: it isn't there"
    [ -x "$program" ] || fail "$program: it can't be run"
done
for file in docs/man/*.[1-9] contrib/systemd/*.service; do
    [ -r "$file" ] || fail "$top/$file: it can't be read"
done

# ---- the installing

destdir=${DESTDIR:-}
case $destdir in
'' | /*) ;;
*) destdir=$start/$destdir ;;
esac

# A file appears whole or not at all, also where the one before it is running.
put() {
    from=$1
    folder=$destdir$prefix/$2
    to=$folder/$3
    mode=$4
    at "$folder" mkdir -p "$folder"
    [ ! -d "$to" ] || fail "$to: it is a folder"
    half=$folder/.$3.new
    at "$to" cp "$from" "$half"
    at "$to" chmod "$mode" "$half"
    at "$to" mv -f "$half" "$to"
    echo "$to"
}

half=
work=$(mktemp -d) || fail "${TMPDIR:-/tmp}: no folder can be made in it"
trap 'rm -rf "$work" ${half:+"$half"}' EXIT
for unit in $units; do
    sed "s|/usr/local/bin/|$prefix/bin/|g" "contrib/systemd/$unit" >"$work/$unit"
    grep -q "^ExecStart=$prefix/bin/grasp_node " "$work/$unit" || fail "$top/contrib/systemd/$unit: it names no program of /usr/local/bin"
done

put "$replay" bin grasp_replay 755
put "$node" bin grasp_node 755
for page in docs/man/*.[1-9]; do
    put "$page" "share/man/man${page##*.}" "$(basename "$page")" 644
done
for unit in $units; do
    put "$work/$unit" lib/systemd/system "$unit" 644
done

# ---- what the user should know

case $prefix in
/usr | /usr/local | '') ;;
*) echo "install.sh: note: systemd doesn't look for units in $prefix; \`systemctl link $prefix/lib/systemd/system/UNIT\` names one of these" >&2 ;;
esac
case $prefix/ in
/home/* | /root/* | /run/user/* | /tmp/* | /var/tmp/*)
    echo "install.sh: note: the units can't run a program below $prefix, which they hide from it (ProtectHome, PrivateTmp)" >&2
    ;;
esac
