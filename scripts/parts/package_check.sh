# What `scripts/package --check` runs. The packages are the same byte for byte when they are made twice, and have the sums that
# lie beside them. The Debian package asks for the C library that its program needs, and for nothing else. Each link of a packed
# page leads to what is packed. lintian has no error where it is there. The program of each package, unpacked into an empty root
# with nothing but the C library, runs `check` and `run` there, and a caller of the packed library shows what it shows.
set -eu
cd "$(dirname "$0")/../.."
. scripts/parts/packing.sh
scratch=$(mktemp -d)
trap 'rm -rf "$scratch"' EXIT
scripts/package "$scratch/one" >/dev/null
scripts/package "$scratch/two" >/dev/null
for file in "$scratch"/one/*; do
    cmp "$file" "$scratch/two/${file##*/}"
    case $file in *.sha256) ;; *) grep -qx "[0-9a-f]*  ${file##*/}" "$file.sha256" ;; esac
done
(cd "$scratch/one" && sha256sum --strict --quiet -c ./*.sha256)
echo "package: the packages are the same when they are made twice, and have the sums beside them"

deb=$(ls "$scratch"/one/hotsync_*.deb)
dev=$(ls "$scratch"/one/libhotsync-dev_*.deb)
tar=$(ls "$scratch"/one/*.tar.gz)
if command -v lintian >/dev/null; then
    lintian --fail-on error "$deb" "$dev" >"$scratch/lintian" 2>&1 || {
        cat "$scratch/lintian" >&2
        exit 1
    }
    echo "package: lintian has no error"
else
    echo "package: lintian is not here: it was not asked"
fi

# Each tool that reads it tells the same of the program.
mkdir "$scratch/deb" "$scratch/dev"
dpkg-deb -x "$deb" "$scratch/deb"
dpkg-deb -x "$dev" "$scratch/dev"
for reader in objdump readelf; do
    if command -v "$reader" >/dev/null; then
        wanted="libc6 (>= $(asked "$reader" "$scratch/deb/usr/bin/hotsync"))"
        others=$(shared "$reader" "$scratch/deb/usr/bin/hotsync" | grep -vxF libc.so.6) || true
        if [ "$(dpkg-deb -f "$deb" Depends)" != "$wanted" ] || [ "$others" ]; then
            echo "package: Depends is $(dpkg-deb -f "$deb" Depends), and by $reader the program needs $wanted $others" >&2
            exit 1
        fi
    fi
done
echo "package: the program needs $wanted, and the Debian package says so"

# Each link of a page that is packed leads to something that is packed: lead FOLDER
lead() {
    astray=$(cd "$1" && find . -name '*.md' | { while read -r page; do dead "$page"; done; })
    if [ "$astray" ]; then
        echo "package: in ${1##*/}: $astray" >&2
        exit 1
    fi
}
mkdir "$scratch/tar"
tar -C "$scratch/tar" -xzf "$tar"
for folder in "$scratch"/deb/usr/share/doc/* "$scratch"/dev/usr/share/doc/* "$scratch"/tar/*/share/doc/*; do lead "$folder"; done
echo "package: each link of the pages leads to a file that is packed"

# What the packed library shows of a file, called from C as pkg-config says, and from Python as docs/LIBRARY.md says, has to be
# what the packed program shows of it.
call() {
    usr=$scratch/dev/usr
    examples=$usr/share/doc/libhotsync-dev/examples/library
    flags="-I$usr/include -L$usr/lib -lhotsync"
    if command -v pkg-config >/dev/null; then
        flags=$(PKG_CONFIG_LIBDIR=$usr/lib/pkgconfig pkg-config --define-variable=prefix="$usr" --cflags --libs hotsync)
    fi
    cc -o "$scratch/show" "$examples/show.c" $flags
    cc -shared -o "$scratch/libhotsync.so" -Wl,--whole-archive "$usr/lib/libhotsync.a" -Wl,--no-whole-archive
    for file in demo/handheld/*.pdb; do
        "$scratch/deb/usr/bin/hotsync" show "$file" >"$scratch/wanted"
        "$scratch/show" "$file" | cmp - "$scratch/wanted"
        HOTSYNC_LIBRARY=$scratch/libhotsync.so PYTHONPATH=$usr/lib/python3/dist-packages \
            python3 -B "$examples/palm.py" "$file" | cmp - "$scratch/wanted"
    done
}
if command -v cc >/dev/null; then
    call
    echo "package: the packed library shows from C and from Python what the program shows"
else
    echo "package: there is no cc here: the packed library was not called"
fi

# Runs the program that lies at this path of a root.
try() {
    root=$1
    for library in $(ldd "$root$2" 2>/dev/null | grep -o '/[^ ]*'); do
        mkdir -p "$root$(dirname "$library")"
        cp -L "$library" "$root$library"
    done
    cp -R demo/handheld "$root/handheld"
    mkdir "$root/desktop"
    file=$(cd "$root" && ls handheld/*.pdb | head -n 1)
    chroot "$root" "$2" check "/$file" >"$scratch/said"
    chroot "$root" "$2" run /handheld /desktop --date=2001-09-09T01:46:40 >>"$scratch/said"
    grep -qx ended "$scratch/said" || {
        cat "$scratch/said" >&2
        exit 1
    }
}

if ! chroot / true 2>/dev/null; then
    echo "package: this user may not change the root: the program was not tried there"
    exit 0
fi
mkdir "$scratch/installed"
try "$scratch/deb" /usr/bin/hotsync
"$scratch"/tar/*/install "$scratch/installed/home" >/dev/null
try "$scratch/installed" /home/bin/hotsync
echo "package: unpacked into an empty root, the program runs"
