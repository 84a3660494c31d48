# Tools for x86-64, the only machine that the archive is compiled for. To be sourced by bash scripts.
#
#   x86_for_c     makes sure of a C compiler; then "$x86_cc" is it, and "$x86_ar", "$x86_nm" and "$x86_objdump" its companions
#   x86_for_cxx   looks for a C++ compiler; then "${x86_cxx[@]}" is it. It installs none, and fails where there is none
#   x86_for_rust  makes sure of cargo for x86-64; then x86_cargo runs it
#   x86_run       runs a compiled program
#
# On x86-64 these are gcc, ar and cargo as they are. On any other machine they are Debian's compilers for x86-64, and programs run
# under the emulator qemu-x86_64. Where such a package is missing it is installed if this runs as root, else it is named.

x86_here() { [ "$(uname -m)" = x86_64 ]; }

# Installs Debian packages, or says which are wanted and stops. A name that ends in :amd64 is a package of that architecture.
x86_install() { # PACKAGE..
    if [ "$(id -u)" != 0 ] || ! command -v apt-get >/dev/null; then
        echo "The archive is for x86-64, and this machine is $(uname -m). Please install: $*" >&2
        echo "(on Debian, as root: dpkg --add-architecture amd64 && apt-get update && apt-get install $*)" >&2
        exit 1
    fi
    echo "installing $*" >&2
    {
        dpkg --add-architecture amd64 &&
            apt-get update -q &&
            DEBIAN_FRONTEND=noninteractive apt-get install -q -y --no-install-recommends "$@"
    } >&2 || {
        echo "could not install $*" >&2
        exit 1
    }
}

# The packages that are missing of what a C program needs, or what running any program does.
x86_missing_c() {
    command -v x86_64-linux-gnu-gcc >/dev/null || echo gcc-x86-64-linux-gnu
    [ -e /usr/x86_64-linux-gnu/lib/libc.a ] || echo libc6-dev-amd64-cross
    command -v qemu-x86_64 >/dev/null || echo qemu-user
}

x86_for_c() {
    if x86_here; then
        x86_cc=${CC:-gcc} x86_ar=${AR:-ar} x86_nm=${NM:-nm} x86_objdump=${OBJDUMP:-objdump}
        command -v "$x86_cc" >/dev/null || { echo "please install gcc" >&2; exit 1; }
        return
    fi
    local missing
    missing=$(x86_missing_c)
    # shellcheck disable=SC2086
    [ -z "$missing" ] || x86_install $missing
    x86_cc=x86_64-linux-gnu-gcc x86_ar=x86_64-linux-gnu-ar x86_nm=x86_64-linux-gnu-nm x86_objdump=x86_64-linux-gnu-objdump
}

x86_for_cxx() {
    if x86_here; then
        x86_cxx=("${CXX:-g++}")
    elif command -v x86_64-linux-gnu-g++ >/dev/null; then
        x86_cxx=(x86_64-linux-gnu-g++)
    else
        x86_cxx=(clang++ --target=x86_64-linux-gnu -isystem /usr/x86_64-linux-gnu/include)
    fi
    command -v "${x86_cxx[0]}" >/dev/null
}

# Whether a Rust compiler has the standard library for x86-64.
x86_has_std() { # RUSTC
    local where
    where=$("$1" --print target-libdir --target x86_64-unknown-linux-gnu 2>/dev/null) &&
        ls "$where"/libstd-*.rlib >/dev/null 2>&1
}

x86_for_rust() {
    command -v cargo >/dev/null || { echo "please install cargo, for example by rustup.rs" >&2; exit 1; }
    x86_here && return
    x86_for_c
    for x86_rustc in "${RUSTC:-rustc}" /usr/bin/rustc; do
        if x86_has_std "$x86_rustc" && [ -e /lib64/ld-linux-x86-64.so.2 ]; then return; fi
    done
    x86_install rustc-web libstd-rust-web-dev:amd64
    x86_rustc=/usr/bin/rustc
}

x86_cargo() {
    if x86_here; then
        cargo "$@"
        return
    fi
    RUSTC=$x86_rustc CARGO_BUILD_TARGET=x86_64-unknown-linux-gnu \
        CARGO_TARGET_X86_64_UNKNOWN_LINUX_GNU_LINKER=$x86_cc \
        CARGO_TARGET_X86_64_UNKNOWN_LINUX_GNU_RUNNER=qemu-x86_64 \
        cargo "$@"
}

# A C program that runs under the emulator is linked whole, so that no library has to be found there.
x86_link() { x86_here || echo -static; }

x86_run() { # PROGRAM [ARGUMENT..]
    if x86_here; then "$@"; else qemu-x86_64 "$@"; fi
}
