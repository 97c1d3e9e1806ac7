# The headers as they are installed in FOLDER, compiled without a warning as C and as C++, with a library and without.
# Usage: header.sh FOLDER, with CC, CFLAGS, CXX and CXXFLAGS set
set -e
out=target/c/header
mkdir -p $out
fail() {
    echo "FAILED header: $1"
    exit 1
}

# compile FOLDER COMPILER..: the test program with the headers of a folder
compile() {
    headers=$1
    shift
    "$@" -I"$headers" -c tests/c/header.c -o $out/header.o
}

compile "$1" $CC $CFLAGS
compile "$1" $CC $CFLAGS -ffreestanding
needed=$(nm -u $out/header.o | awk '{ print $2 }' | grep -v '^kippertarn_' || true)
for name in $needed; do
    case $name in
    memcpy | memset | _GLOBAL_OFFSET_TABLE_ | __stack_chk_fail) ;; # a compiler's own
    *) fail "the helper calls $name" ;;
    esac
done
tried="C, C without a library"
if command -v "$CXX" > /dev/null; then
    compile "$1" $CXX $CXXFLAGS -x c++
    compile "$1" $CXX $CXXFLAGS -ffreestanding -x c++
    tried="$tried, C++"
fi

# For 32-bit boards there is no archive, and the header says so; but for that it is fit for them.
if echo | $CC -m32 -ffreestanding -x c -fsyntax-only - 2> /dev/null; then
    if compile "$1" $CC $CFLAGS -ffreestanding -m32 2> /dev/null; then
        fail "it lets a 32-bit board pass"
    fi
    mkdir -p $out/narrow
    sed '/^#if !defined(__x86_64__)/,/^#endif/d' "$1/kippertarn.h" > $out/narrow/kippertarn.h
    cp "$1/kippertarn_messages.h" $out/narrow
    compile $out/narrow $CC $CFLAGS -ffreestanding -m32
    tried="$tried, 32 bits"
fi
echo "header: no warning as $tried"
