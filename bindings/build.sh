# Read by `bindings/test`, compare/build.sh and `bench/run`: builds the archive, and C programs over it that run on this machine.
# The archive is for x86-64. On another machine a program is built by the kit's compiler and linker, with the headers
# at hand, and runs under the kit's emulator, loader and C library.

root=$(cd "$(dirname "${BASH_SOURCE[0]}")/.." && pwd)
source "$root/progress.sh"
kit=$(cd "$(dirname "$(readlink -f "$(command -v rt)")")/.." && pwd)
tools=$kit/on/$(uname -m)/toolchain
built=$root/target/bindings
archive=$root/crates/crafty_c/out/libcrafty_c.a

is_native() {
    [ "$(uname -m)" = x86_64 ]
}

# For the machine's own headers, and where they serve for its own programs.
has_compiler() {
    command -v cc > /dev/null
}

# rt builds it anew only where a crate has changed since.
build_archive() {
    mkdir -p "$built"
    prove "$built/archive.log" crates/crafty_c lib || { cat "$built/archive.log" >&2; exit 1; }
}

# build_program NAME SOURCE: target/bindings/NAME, with the archive in it.
build_program() {
    if is_native; then
        cc -std=c99 -O2 -Wall -Wextra -Werror -o "$built/$1" "$2" "$archive"
        return
    fi
    "$tools/bin/clang" --target=x86_64-linux-gnu -std=c99 -O2 -fPIC -Wall -Wextra -Werror \
        -isystem "$(cc -print-file-name=include)" -isystem "/usr/include/$(cc -dumpmachine)" \
        -c -o "$built/$1.o" "$2"
    "$tools/bin/ld.lld" -pie --dynamic-linker /lib64/ld-linux-x86-64.so.2 -o "$built/$1" \
        "$tools"/lib/{Scrt1,crti,crtbeginS}.o "$built/$1.o" "$archive" \
        "$tools/lib/libc.so.6" "$tools"/lib/lib{c_nonshared,gcc}.a "$tools"/lib/{crtendS,crtn}.o
}

# set_command NAME: the words that run target/bindings/NAME, in the array `command`.
set_command() {
    set_command_of "$built/$1"
}

# set_command_of PROGRAM: the same of any program for x86-64.
set_command_of() {
    command=("$1")
    is_native || command=("$tools/bin/qemu-x86_64" "$tools/lib/ld-linux-x86-64.so.2" --library-path "$tools/lib" "${command[@]}")
}
