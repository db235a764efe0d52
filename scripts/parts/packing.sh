# The functions of scripts/package, which sets root (the folder that is filled), to, version and day.
. scripts/parts/links.sh

# Ends with the name of each tool that isn't here: need TOOL..
need() {
    for tool; do
        if ! command -v "$tool" >/dev/null; then
            echo "package: the tool '$tool' is missing: README.md says what the project needs. Nothing was packed or installed." >&2
            exit 1
        fi
    done
}

# What reads the dynamic part of a program: either tool of binutils.
reader() {
    if command -v objdump >/dev/null; then echo objdump; else need readelf && echo readelf; fi
}

# The highest version of the C library's symbols that a program asks for: asked READER PROGRAM
asked() {
    case $1 in objdump) objdump -T "$2" ;; readelf) readelf -VW "$2" ;; esac |
        grep -oE 'GLIBC_[0-9.]+' | sort -uV | tail -n 1 | sed 's/GLIBC_//'
}

# The shared libraries that it needs: shared READER PROGRAM
shared() {
    case $1 in
    objdump) objdump -p "$2" | sed -n 's/^ *NEEDED *//p' ;;
    readelf) readelf -dW "$2" | sed -n 's/.*(NEEDED).*\[\(.*\)\]/\1/p' ;;
    esac
}

# The packages that a program needs: those of the C library alone, of a version that has each symbol. Any other is refused.
depends() {
    with=$(reader)
    for library in $(shared "$with" "$1"); do
        case $library in
        libc.so.6 | libm.so.6 | ld-linux-x86-64.so.2) ;;
        *) echo "package: the program needs $library, whose package is not known here. Nothing was packed." >&2; exit 1 ;;
        esac
    done
    echo "libc6 (>= $(asked "$with" "$1"))"
}

# Puts a file below the root: put MODE FROM TO.
put() {
    mkdir -p "$(dirname "$root/$3")"
    install -m "$1" "$2" "$root/$3"
}

# Puts files of the sources, as git has them, into a folder of documents below the root, and leaves the pages there no link
# into what isn't packed: document FOLDER PATH..
document() {
    folder=$1
    shift
    git ls-files -- "$@" | while read -r file; do put 644 "$file" "$folder/$file"; done
    (cd "$root/$folder" && find . -name '*.md' | while read -r page; do plain "$page"; done)
}

# Writes the sum of a file that was made beside it: sum FILE
sum() {
    (cd "$to" && sha256sum "$1" >"$1.sha256")
}

copyright() {
    printf 'Format: https://www.debian.org/doc/packaging-manuals/copyright-format/1.0/\nUpstream-Name: hotsync\n\n'
    printf 'Files: *\n'
    sed -n 's/^Copyright (c) /Copyright: /p' LICENSE
    printf 'License: Expat\n'
    sed '1,4d; s/^$/./; s/^/ /' LICENSE
}

changelog() {
    printf 'hotsync (%s) unstable; urgency=medium\n\n  * docs/ has what is proved of this version.\n\n' "$version"
    printf ' -- %s  %s\n' "$maintainer" "$day"
}

# Makes a Debian package of what is below the root, with its description from standard input: debian NAME SECTION DEPENDS
debian() {
    deb=${1}_${version}_amd64.deb
    mkdir -p "$root/DEBIAN" "$root/usr/share/doc/$1"
    copyright >"$root/usr/share/doc/$1/copyright"
    changelog | gzip -9n >"$root/usr/share/doc/$1/changelog.gz"
    (cd "$root" && find usr -type f | LC_ALL=C sort | xargs md5sum) >"$root/DEBIAN/md5sums"
    {
        printf 'Package: %s\n' "$1"
        [ "$1" = hotsync ] || printf 'Source: hotsync\n'
        printf 'Version: %s\nArchitecture: amd64\nMaintainer: %s\n' "$version" "$maintainer"
        printf 'Installed-Size: %s\n' "$(du -sk --apparent-size "$root/usr" | cut -f1)"
        printf 'Depends: %s\nSection: %s\nPriority: optional\n' "$3" "$2"
        cat
    } >"$root/DEBIAN/control"
    find "$root" -exec touch -h -d "@$SOURCE_DATE_EPOCH" {} +
    dpkg-deb --root-owner-group -Zxz --build "$root" "$to/$deb" >/dev/null
    sum "$deb"
}
