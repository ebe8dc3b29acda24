# What the scripts beside this folder share. They are run by bash, with `set -eu`.
#
# It sets `top`, the repository, and `work`, a folder that goes when the script ends.
export LC_ALL=C
PATH=$PATH:/usr/sbin:/sbin
lib=$(cd "$(dirname "${BASH_SOURCE[0]}")" && pwd)
top=$(cd "$lib/../.." && pwd)
work=$(mktemp -d)
trap 'unmount; rm -rf "$work"' EXIT
export PYTHONDONTWRITEBYTECODE=1

fail() {
    echo "$1"
    exit 1
}

skip() {
    echo "skipped: $1"
    exit 0
}

# need_tools [TOOL..]: those of xfsprogs, and these.
need_tools() {
    for tool in mkfs.xfs xfs_db "$@"; do
        command -v "$tool" >"$work/found" || skip "no $tool"
    done
}

# mount_image OPTION: mounts the image over a loop device, or leaves in $work/refused why not.
mounted=
mount_image() {
    mkdir -p "$work/mount"
    mount -t xfs -o "loop,$1" "$image" "$work/mount" 2>"$work/refused" || return 1
    mounted=$work/mount
}

# write_manifest: the manifest of the image, which isn't mounted, in $work/manifest.
write_manifest() {
    "$top/tools/manifest" "$image" >"$work/manifest"
}

unmount() {
    [ -z "$mounted" ] || umount "$mounted"
    mounted=
}

# find_program CRATE [PROGRAM]: sets `program` to PROGRAM, or else to what `rt run` builds of the crate, which proves only
# what has changed. It is run too: both programs here tell `usage` to no words.
find_program() {
    if [ $# -gt 1 ]; then
        program=$(realpath "$2")
        [ -x "$program" ] || fail "no program $program"
        return
    fi
    program=$top/crates/$1/out/$1
    (cd "$top/crates/$1" && rt run) >"$work/built" 2>"$work/build" || true
    if [ "$(cat "$work/built")" != usage ]; then
        tail -n 20 "$work/build"
        fail "rt run built no $1"
    fi
}

# make_image SIZE: makes a sparse file `image` with the tree of the prototype file $work/proto.
image=$work/image
make_image() {
    local naming=ftype=1
    # A mkfs.xfs that knows parent pointers has to leave them out.
    if (mkfs.xfs 2>&1 || true) | grep -q 'parent='; then
        naming=$naming,parent=0
    fi
    rm -f "$image"
    mkfs.xfs -q -f -d "file,name=$image,size=$1" -b size=4096 -s size=512 -i size=512,sparse=1,nrext64=0 \
        -m crc=1,finobt=1,rmapbt=1,reflink=1,inobtcount=1,bigtime=1 -n "$naming" \
        -l version=2,sectsize=512,size=64m -p "$work/proto"
}

# give_attribute INO: has xfs_db give a directory an attribute, and so an attribute fork.
give_attribute() {
    xfs_db -x -c "inode $1" -c 'attr_set -u -v 4 note' "$image"
    xfs_db -r -c "inode $1" -c 'print core.forkoff' "$image" | grep -q '= [1-9]' || fail "xfs_db gave inode $1 no attribute fork"
}
