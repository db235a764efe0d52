# What `scripts/library --check` runs. It calls the library from C and from Python, as its callers do: each function in room
# that fits, in none, in one byte too few and over no bytes, also where each access is watched (-fsanitize=address). What it
# shows of the files of the demo and of the examples has to be what the program shows, and what it leaves of their folders
# what a run of the program leaves that reads all records. What is not here (a C compiler, python3, the program) is named and
# left out. With --left the library is built over what the gate left in this checkout.
set -u
cd "$(dirname "$0")/../.." || exit 1
top=$PWD
if ! command -v cc >/dev/null; then
    echo "library: there is no cc here: the library was not called"
    exit 0
fi
scratch=$(mktemp -d) || exit 1
trap 'rm -rf "$scratch"' EXIT
fail() {
    echo "library: $1" >&2
    exit 1
}
scripts/library "$scratch" ${1+"$1"} >/dev/null || fail "it was not built"

# Exactly the functions of the header can be called.
if command -v nm >/dev/null; then
    sed -n 's/^u\{0,1\}int[0-9]*_t \(hs_[a-z_]*\).*/\1/p' include/hotsync.h | sort >"$scratch/declared"
    nm -D --defined-only "$scratch/lib/libhotsync.so" | sed -n 's/.* T //p' | sort >"$scratch/defined"
    diff "$scratch/declared" "$scratch/defined" || fail "the header declares other functions"
fi

version=$(awk -F. '{ printf "0x%06x", $1 * 65536 + $2 * 256 + $3 }' VERSION)
# Builds an example with the archive: build NAME TO WORD..
build() {
    name=$1
    to=$2
    shift 2
    cc -std=c99 -Wall -Wextra -Werror "-DWANTED_VERSION=$version" "$@" -I "$scratch/include" -o "$to" \
        "examples/library/$name.c" "$scratch/lib/libhotsync.a"
}
build each "$scratch/each" || fail "each.c was not built"
"$scratch/each" || fail "each.c: not as wanted"
echo 'int main(void) { return 0; }' >"$scratch/nothing.c"
if cc -fsanitize=address -o "$scratch/nothing" "$scratch/nothing.c" 2>/dev/null && "$scratch/nothing"; then
    build each "$scratch/watched" -g -fsanitize=address || fail "each.c was not built to be watched"
    "$scratch/watched" || fail "each.c, watched: not as wanted"
else
    echo "library: no -fsanitize=address here: accesses were not watched"
fi

build show "$scratch/show" || fail "show.c was not built"
program=$top/crates/hotsync_cli/out/hotsync_cli
python=
if command -v python3 >/dev/null; then python=yes; else echo "library: python3 is not here: the package was not tried"; fi
# Runs a program over the package in this checkout.
python() {
    HOTSYNC_LIBRARY=$scratch/lib/libhotsync.so PYTHONPATH=$top/python python3 -B "$@"
}
[ -z "$python" ] || python -m unittest -q python/tests/test_hotsync.py || fail "the tests of the package"
count=0
for file in $(find demo examples -name '*.pdb' -o -name '*.prc' | sort); do
    "$scratch/show" "$file" >"$scratch/shown" 2>/dev/null
    status=$?
    if [ -x "$program" ]; then
        "$program" show "$file" >"$scratch/wanted" 2>/dev/null && wanted=0 || wanted=1
        [ "$status" = "$wanted" ] || fail "show.c ends otherwise than hotsync show $file"
        [ "$wanted" = 1 ] || cmp "$scratch/shown" "$scratch/wanted" || fail "show.c prints something else than hotsync show $file"
    fi
    if [ -n "$python" ] && [ "$status" = 0 ]; then
        python examples/library/palm.py "$file" >"$scratch/read" ||
            fail "palm.py fails over $file"
        cmp "$scratch/shown" "$scratch/read" || fail "palm.py prints something else than show.c of $file"
    fi
    count=$((count + 1))
done
[ "$count" -gt 0 ] || fail "there are no files to show"

# Two folders and whether their last session was with each other: merges HANDHELD DESKTOP [agree]
build merge "$scratch/merge" || fail "merge.c was not built"
merges() {
    for way in c python ran; do
        mkdir -p "$scratch/$way"
        cp -r "$1" "$scratch/$way/handheld"
        if [ -n "$2" ]; then cp -r "$2" "$scratch/$way/desktop"; else mkdir "$scratch/$way/desktop"; fi
    done
    for file in "$scratch"/c/handheld/*.pdb; do
        name=$(basename "$file" .pdb)
        # 2001-09-09T01:46:40
        (cd "$scratch/c" && ../merge handheld desktop "$name" 3082844800 ${3-}) || fail "merge.c fails over $1"
        if [ -n "$python" ]; then
            (cd "$scratch/python" && python "$top/examples/library/palm.py" merge handheld desktop "$name" 3082844800 ${3-}) ||
                fail "palm.py fails over $1"
        fi
    done
    if [ -n "$python" ]; then
        diff -r "$scratch/c" "$scratch/python" || fail "palm.py leaves other files than merge.c of $1"
    fi
    if [ -x "$program" ]; then
        (cd "$scratch/ran" && "$program" run handheld desktop --date=2001-09-09T01:46:40 --slow >/dev/null 2>&1) || fail "no run over $1"
        for side in handheld desktop; do rm -f "$scratch/c/$side"/*.inf "$scratch/ran/$side"/*.inf; done
        diff -r "$scratch/ran" "$scratch/c" || fail "merge.c leaves other files than a run of $1"
    fi
    rm -rf "$scratch/c" "$scratch/python" "$scratch/ran"
    merges=$((merges + 1))
}
merges=0
merges demo/handheld ""
merges examples/two-users/janes ""
for name in bad-line categories conflict pulled-cable; do merges "examples/$name/handheld" "examples/$name/desktop" agree; done

# The handheld in memory says and leaves what that of each session of the examples, of the demo and of the cases said and left.
build device "$scratch/device" || fail "device.c was not built"
if [ -x "$program" ]; then
    sessions=0
    if [ -n "$python" ]; then
        cp -r examples/conflict "$scratch/conflict"
        "$program" run "$scratch/conflict/handheld" "$scratch/conflict/desktop" --date=2001-09-09T01:46:40 \
            "--trace=$scratch/trace" >/dev/null 2>&1
        python examples/library/each.py "$scratch/conflict/handheld/MemoDB.pdb" "$scratch/trace" ||
            fail "each.py: not as wanted"
        DEVICE=$scratch/device scripts/device-sessions >"$scratch/sessions" || fail "device.c isn't what hotsync device is"
        sessions=$(sed 's/^device-sessions: \([0-9]*\) .*/\1/' "$scratch/sessions")
        HOTSYNC_LIBRARY=$scratch/lib/libhotsync.so PYTHONPATH=$top/python \
            DEVICE="python3 -B $top/examples/library/palm.py device" \
            scripts/device-sessions examples >/dev/null || fail "palm.py isn't what hotsync device is"
    fi
else
    sessions=0
    echo "library: the program was not built: what the library shows, merges and answers was not compared with it"
fi
# The wheel holds all that the package wants, and is the same twice.
if [ -n "$python" ]; then
    for way in one two; do
        mkdir -p "$scratch/wheel/$way"
        python3 -B scripts/parts/wheel.py "$scratch/lib/libhotsync.so.0" "$scratch/wheel/$way" >/dev/null || fail "no wheel"
    done
    cmp "$scratch"/wheel/one/*.whl "$scratch"/wheel/two/*.whl || fail "two wheels of the same sources differ"
    python3 -m zipfile -e "$scratch"/wheel/one/*.whl "$scratch/wheel/installed"
    PYTHONPATH=$scratch/wheel/installed python3 -B -m unittest -q python/tests/test_hotsync.py || fail "the tests over the wheel"
fi
echo "library: as its callers want it, over $count files, $merges pairs of folders and $sessions sessions"
