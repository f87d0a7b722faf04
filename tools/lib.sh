# What the tools share. A tool begins with
#   set -euo pipefail
#   . "$(dirname "$(readlink -f "$0")")/lib.sh"
# and stands in the repository's root from then on. Nothing stale is taken: what is proved and built is kept with the sum of
# all that it is made from (tools/stamps.py), and where that is another now, rt proves what has changed and it is written anew.
me=tools/$(basename "$0")
cd "$(dirname "$(readlink -f "${BASH_SOURCE[0]}")")/.."

die() { # SENTENCE
    echo "$me: $1" >&2
    exit 1
}

# What a test does not try for want of a tool.
left_out() { # SENTENCE
    echo "-- LEFT OUT: $1"
}

# Each command must be there; what it is for is said if not.
need() { # COMMAND..
    local command
    for command in "$@"; do
        command -v "$command" > /dev/null && continue
        case $command in
        rt) die "the Rattle toolchain is needed: put its bin/, where rt is, on the PATH" ;;
        *) die "$command is needed: install it first" ;;
        esac
    done
}

# Its output only where it fails.
quiet() { # COMMAND..
    local log
    log=$(mktemp)
    if ! "$@" > "$log" 2>&1; then
        tail -20 "$log" >&2
        rm -f "$log"
        die "failed: $*"
    fi
    rm -f "$log"
}

# The folder of the toolchain.
kit() { dirname "$(rt doc < /dev/null)"; }

# Whether what was kept of a crate is of its files as they are now, and of those below it.
stands() { # NAME FILE
    [ -f "$2" ] && [ "$(tools/stamps.py "$1")" = "$(cat "$2")" ]
}

# A program of a crate, as it stands, with the sum of what it is made from.
told() { # NAME
    echo "$(tools/stamps.py "$1") $(sha256sum < "crates/$1/out/$1")"
}

# Proves what is out of date; each name that is a program stands in its crate's out/NAME then, and a library's code in its out/rlib.
proved() { # NAME..
    need rt python3
    local name
    mkdir -p target/stamp
    for name in "$@"; do
        if [ -f "crates/$name/src/main.rt" ]; then
            if [ -x "crates/$name/out/$name" ] && [ -f "target/stamp/$name" ] && [ "$(told "$name")" = "$(cat "target/stamp/$name")" ]; then continue; fi
            echo "$me: proving what has changed of $name" >&2
            program "$name"
        elif ! tools/stamps.py --ci; then
            echo "$me: proving what has changed of $name" >&2
            (cd "crates/$name" && quiet rt lib)
        fi
    done
}

# One program of them. rt runs what it has built, here on no input, and its status is the program's: that it came so far says that all is proved.
program() { # NAME
    local name=$1 log stamp
    log=$(mktemp)
    rm -f "target/stamp/$name"
    stamp=$(tools/stamps.py "$name")
    (cd "crates/$name" && rt run < /dev/null) > "$log" 2>&1 || true
    if ! grep -q "^rt: running out/$name;" "$log" || [ ! -x "crates/$name/out/$name" ]; then
        tail -20 "$log" >&2
        rm -f "$log"
        die "failed: rt run, in crates/$name"
    fi
    rm -f "$log"
    [ "$stamp" = "$(tools/stamps.py "$name")" ] || die "crates/$name or a crate below it changed while it was built: run this again"
    told "$name" > "target/stamp/$name"
}

# After `rt ci` has passed in a checkout in which nothing was kept before: what it built is of the files as they are.
ci_passed() {
    local name
    mkdir -p target/stamp
    tools/stamps.py --ci-passed
    for name in crates/*/src/main.rt; do
        name=$(cut -d/ -f2 <<< "$name")
        [ ! -x "crates/$name/out/$name" ] || told "$name" > "target/stamp/$name"
    done
}

# The static libraries target/staticlib/libNAME.a, for callers in C, of the crates NAME_c as they are now.
libraries() { # NAME..
    need rt python3
    local name stamp
    mkdir -p target/staticlib
    for name in "$@"; do
        if [ -f "target/staticlib/lib$name.a" ] && stands "${name}_c" "target/staticlib/$name.stamp"; then continue; fi
        echo "$me: writing target/staticlib/lib$name.a" >&2
        rm -f "target/staticlib/$name.stamp"
        stamp=$(tools/stamps.py "${name}_c")
        if tools/stamps.py --ci; then
            over_ci "${name}_c" "target/staticlib/lib$name.a"
        else
            rm -f "crates/${name}_c/out/lib${name}_c.a"
            (cd "crates/${name}_c" && quiet rt lib)
            cp "crates/${name}_c/out/lib${name}_c.a" "target/staticlib/lib$name.a"
        fi
        [ "$stamp" = "$(tools/stamps.py "${name}_c")" ] || die "crates/${name}_c or a crate below it changed while it was built: run this again"
        echo "$stamp" > "target/staticlib/$name.stamp"
    done
}

# A static library over the libraries that `rt ci` has just left: the crate itself is proved once more, those below it are not.
over_ci() { # NAME FILE
    local kit words=() dep to=$PWD/$2
    kit=$(kit)
    for dep in std core; do words+=(--extern "$dep=$kit/rlibs/$dep.rlib"); done
    while read -r dep; do
        [ -z "$dep" ] || words+=(--extern "$dep=../$dep/out/rlib/$dep.rlib")
    done < <(tools/stamps.py --deps "$1")
    (cd "crates/$1" && quiet "$kit/bin/rattle" build --crate-name "$1" src/lib.rt "${words[@]}" -L "dependency=$kit/rlibs" --antt-project "$kit/rattle/logic/antt-project.json" \
        --logic-built "$kit/logic_built" --links "$1=" --crate-type staticlib --toolchain "$kit/toolchain" --backend llvm -o "$to")
}

# The static library dihkelu, and the same as a shared library: target/staticlib/libdihkelu.so.
shared_library() {
    libraries dihkelu
    local lib=target/staticlib/libdihkelu
    [ ! "$lib.so" -nt "$lib.a" ] || return 0
    cc -shared -Wl,--whole-archive "$lib.a" -Wl,--no-whole-archive -o "$lib.so"
}

# The oracle with both static libraries linked: oracle/target/release/oracle.
oracle_with_libraries() {
    need cargo cc
    libraries c_scalars dihkelu
    DIHKELU_LIB="$PWD/target/staticlib" quiet cargo build --quiet --release --offline --features proved --manifest-path oracle/Cargo.toml
}
