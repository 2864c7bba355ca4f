#!/bin/sh
# Proves what is asked for with all that it stands on, builds it, and puts it where the callers and the documents name it.
# usage: tools/build.sh analyze     target/staticlib/libanalyze.a, the analyser for C and Rust (the crate analyze_c)
#        tools/build.sh tree_c      target/staticlib/libtree_c.a, the first walk alone
#        tools/build.sh slots       target/bin/slots, the program for people
set -e
cd "$(dirname "$0")/.."

# A static library of today's rt has its crate's name, and `analyze` is the crate that analyze_c stands on.
archive() {
    (cd "crates/$1" && rt lib)
    mkdir -p target/staticlib
    cp "crates/$1/out/lib$1.a" "target/staticlib/lib$2.a"
}

case "$#${1:-}" in
    1analyze) archive analyze_c analyze ;;
    1tree_c) archive tree_c tree_c ;;
    1slots)
        # with no argument it prints its help
        (cd crates/slots && rt run > /dev/null)
        mkdir -p target/bin
        cp crates/slots/out/slots target/bin/slots ;;
    *)
        echo "usage: tools/build.sh analyze|tree_c|slots" >&2
        exit 2 ;;
esac
