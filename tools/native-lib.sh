#!/bin/sh
# native-lib.sh [--target T] [-O..] NAME OUT.a: the exported functions of the library NAME, as an archive that C, C++ and Rust programs link, or one for the
# target T.
#
# As it stands it proves the static library NAME_c, which exports the functions of NAME with the same contracts, and OUT.a is what the kit makes of it, for
# every x86-64 processor: what is shipped. (`rt lib` in crates/NAME_c makes one for processors of the level x86-64-v2.)
#
# --target T   compiles the LLVM module that the kit handed to its compiler once more, for a cross compiler's target, as thumbv7em-none-eabi or
#              riscv64-unknown-elf: any little-endian one that the kit's clang knows (its --print-targets). Where pointers have 32 bits, lengths do too, as
#              size_t has. No one vouches for that archive, and nothing of it was run here: try it on the box, with tests/boundary.c
# -Oz, -O2 ..  how that module is compiled, in place of -O3. -Oz is shorter for few targets: docs/LINKING.md has the sizes. For tests alone
# --after-ci   for ./test: `rt ci` has just passed here, and no crates/*/out/rlib stood here before it; where it alone has built what NAME_c stands on, that is
#              taken and not proved again
#
# Run in the repository, or with ROOT set to one.
set -eu
here=$(dirname "$(readlink -f "$0")")
. "$here/kit.sh"
usage() { echo "usage: native-lib.sh [--target T] [-O..] NAME OUT.a     (--help says more)" >&2; exit 2; }
target='' level='' after=''
while :; do
    case ${1-} in
    -h | --help) kit_help "$0"; exit 0 ;;
    --target) [ $# -ge 2 ] || usage; target=$2; shift ;;
    --after-ci) after=1 ;;
    -O[0123sz]) level=$1 ;;
    *) break ;;
    esac
    shift
done
[ $# -eq 2 ] || usage
name=$1
out=$(cd "$(dirname "$2")" && pwd -P)/$(basename "$2")
cd "${ROOT:-$here/..}"
command -v rt >/dev/null 2>&1 || { echo "native-lib: no Rattle kit on the PATH" >&2; exit 2; }
kit_find
tools=$kit/toolchain
static=${name}_c
made=crates/$static/out/lib$static.a
[ -f "crates/$static/src/lib.rt" ] || { echo "native-lib: no static library $static here" >&2; exit 2; }
clang=$tools/bin/clang
if [ -n "$target" ]; then
    facts=$("$clang" --target="$target" -E -dM -x c /dev/null 2>&1) || { echo "native-lib: the kit's compiler has no target $target" >&2; exit 2; }
    case $facts in
    *'__BYTE_ORDER__ __ORDER_LITTLE_ENDIAN__'*) ;;
    *) echo "native-lib: $target is not little-endian, as the module is" >&2; exit 2 ;;
    esac
    case $facts in
    *'__SIZEOF_SIZE_T__ 8'*) bits=64 ;;
    *'__SIZEOF_SIZE_T__ 4'*) bits=32 ;;
    *) echo "native-lib: lengths of $target have neither 64 nor 32 bits" >&2; exit 2 ;;
    esac
fi
work=$(mktemp -d "${TMPDIR:-/tmp}/native-lib.XXXXXX")
trap 'rm -rf "$work"' EXIT
trap 'exit 1' HUP INT TERM

# Proves the static library and makes its archive, in its out/, by the kit whose rt that is.
make_it() { # RT
    (cd "crates/$static" && "$1" lib --cpu x86-64) >"$work/log" 2>&1 </dev/null || {
        grep -v '^\(statements\|library\|crate\|logic\|checked\|axioms\) \|^only=\|^rt: chose ' "$work/log" | tail -n 20 >&2
        echo "native-lib: $static was not made" >&2
        exit 1
    }
}
# A folder like the compiler's, whose clang keeps the module that it is handed.
watch() { # FOLDER
    mkdir -p "$1/bin"
    ln -s "$tools/lib" "$1/lib"
    for f in "$tools/bin"/*; do [ "${f##*/}" = clang ] || ln -s "$f" "$1/bin/"; done
    cat >"$1/bin/clang" <<END
#!/bin/sh
for word; do
    case \$word in *.bc) cp "\$word" "$work/module.bc" ;; esac
done
exec "$clang" "\$@"
END
    chmod +x "$1/bin/clang"
}
# Keeps the module in out/, with a sum of all that it is made of.
keep() { # SUM, as it was before
    cp "$work/module.bc" "crates/$static/out/module.bc"
    [ "$1" != "$(kit_sum "$static")" ] || echo "$1" >"crates/$static/out/module.from"
}
# Are the libraries below those that rt ci has built? It leaves no stamp beside them, as other commands of rt do.
by_ci() {
    [ -n "$after" ] || return 1
    kit_below "$static"
    for d in $found; do
        [ "$d" = "$static" ] || { [ -d "crates/$d/out/rlib/$d.rlib" ] && [ ! -e "crates/$d/out/rlib/stamp" ]; } || return 1
    done
}
# The archive over those.
make_over_ci() {
    sum=$(kit_sum "$static")
    mkdir -p "crates/$static/out"
    watch "$work/tools"
    set -- --crate-name "$static" src/lib.rt --extern "std=$kit/rlibs/std.rlib" -L "dependency=$kit/rlibs"
    # shellcheck disable=SC2013 # words are wanted
    for d in $(sed -n "s/#.*//; s/^$static [^:]*: *//p" crates.txt); do
        if [ -d "crates/$d" ]; then set -- "$@" --extern "$d=$PWD/crates/$d/out/rlib/$d.rlib"; else set -- "$@" --extern "$d=$kit/rlibs/$d.rlib"; fi
    done
    for d in $found; do
        [ "$d" = "$static" ] || set -- "$@" -L "dependency=$PWD/crates/$d/out/rlib"
    done
    (cd "crates/$static" && "$kit/bin/rattle" build "$@" --antt-project "$kit/rattle/logic/antt-project.json" --logic-built "$kit/logic_built" --jobs 2 \
        --links "$static=" --crate-type staticlib --cpu x86-64 --toolchain "$work/tools" --backend llvm -o "out/lib$static.a") >"$work/log" 2>&1 </dev/null ||
        { tail -n 20 "$work/log" >&2; echo "native-lib: $static was not made" >&2; exit 1; }
    keep "$sum"
}

if [ -z "$target$level" ]; then
    # copied under the lock: another run may write it anew
    (
        kit_lock .
        if by_ci; then make_over_ci; else make_it rt; fi
        cp "$made" "$out"
    )
    echo "native-lib: $name, proved, as it is shipped"
    exit 0
fi

(
    kit_lock .
    sum=$(kit_sum "$static")
    if [ ! -s "crates/$static/out/module.bc" ] || [ "$(cat "crates/$static/out/module.from" 2>/dev/null)" != "$sum" ]; then
        make_it rt # so that the libraries below are there
        # the kit again, but for that compiler
        mkdir -p "$work/kit/bin"
        for f in "$kit"/*; do case ${f##*/} in bin | toolchain) ;; *) ln -s "$f" "$work/kit/" ;; esac; done
        for f in "$kit/bin"/*; do case ${f##*/} in rt | rtlib.py) cp "$f" "$work/kit/bin/" ;; *) ln -s "$f" "$work/kit/bin/" ;; esac; done
        watch "$work/kit/toolchain"
        make_it "$work/kit/bin/rt"
        keep "$sum"
    fi
    cp "crates/$static/out/module.bc" "$work/module.bc"
)
about="$target: no one vouches for it, and nothing of it was run"
[ -n "$target" ] || about='x86-64: for tests and timing, not what is shipped'
target=${target:-x86_64-unknown-linux-gnu} level=${level:--O3} bits=${bits:-64}
# shared libraries can take it where there are any
case $target in *-linux-*) pic=-fPIC ;; *) pic= ;; esac
"$clang" --target=x86_64-unknown-linux-gnu -S -emit-llvm -O0 -Xclang -disable-llvm-passes -x ir "$work/module.bc" -o "$work/kit.ll"
python3 "$here/module.py" "$target" "$bits" "$level" <"$work/kit.ll" >"$work/ours.ll"
"$clang" --target="$target" "$level" $pic -ffunction-sections -fdata-sections -Wno-override-module -c -x ir "$work/ours.ll" -o "$work/$name.o"
rm -f "$out"
"$tools/bin/llvm-ar" rcs "$out" "$work/$name.o"
echo "native-lib: $name, proved, for $about"
