# For tests.bash on a machine of another processor: the library is for x86-64, so what is built over it is compiled for
# x86-64 too, by Debian's cross compilers, and runs in an emulator that the kernel calls by itself. It wants root.
x86_64_packages=(cargo rustc libstd-rust-dev:amd64 gcc-x86-64-linux-gnu g++-x86-64-linux-gnu libc6-dev:amd64
    qemu-user libffi8:amd64 zlib1g:amd64 libexpat1:amd64)
x86_64_python=(python3.11-minimal:amd64 libpython3.11-minimal:amd64 libpython3.11-stdlib:amd64)

# Puts compilers and a Python for x86-64 before those of the machine, from a folder outside the repository, for there rt ci
# refuses every link; fails with a line where that can't be done.
use_x86_64() {
    local tools="${XDG_CACHE_HOME:-${HOME:-/root}/.cache}/puretakoi/x86-64" name
    is_x86_64 && return
    [ "${RUSTC_WRAPPER-}" = "$root/compare/rustc-x86-64" ] ||
        echo "This machine is $(uname -sm): the library is for x86-64 Linux, so programs over it are emulated here." >&2
    if ! get_x86_64; then
        echo "Programs for x86-64 can't be built or run here: that wants root, Debian and the kernel's binfmt_misc." >&2
        return 1
    fi
    mkdir -p "$tools/bin" || return
    for name in cc:x86_64-linux-gnu-gcc c++:x86_64-linux-gnu-g++ cargo:cargo rustc:rustc; do
        ln -sf "/usr/bin/${name#*:}" "$tools/bin/${name%%:*}"
    done
    make_x86_64_python "$tools" || return
    export PATH="$tools/bin:$PATH" RUSTC_WRAPPER="$root/compare/rustc-x86-64" RUSTDOC="$root/compare/rustdoc-x86-64"
}

is_x86_64() {
    [ "$(uname -sm)" = "Linux x86_64" ]
}

# Whether a program for x86-64 runs: the loader of its C library is one.
runs_x86_64() {
    /lib64/ld-linux-x86-64.so.2 --version >/dev/null 2>&1
}

has_x86_64_tools() {
    local tool
    for tool in cargo rustc x86_64-linux-gnu-gcc x86_64-linux-gnu-g++ qemu-x86_64; do
        [ -x "/usr/bin/$tool" ] || return
    done
    [ -d /usr/lib/rustlib/x86_64-unknown-linux-gnu ] && [ -f /usr/lib/x86_64-linux-gnu/libc.a ] &&
        ls /usr/lib/x86_64-linux-gnu/lib{expat,ffi}.so.* /lib/x86_64-linux-gnu/libz.so.* >/dev/null 2>&1
}

# Installs what is missing, and has the kernel run programs for x86-64 in the emulator.
get_x86_64() {
    has_x86_64_tools && runs_x86_64 && return
    [ "$(id -u)" -eq 0 ] && command -v apt-get >/dev/null || return
    has_x86_64_tools || install_x86_64 || return
    runs_x86_64 || { register_x86_64 && runs_x86_64; }
}

install_x86_64() {
    echo "installing ${x86_64_packages[*]} from Debian's packages" >&2
    export DEBIAN_FRONTEND=noninteractive
    dpkg --add-architecture amd64 >"$log" 2>&1 && apt-get update >>"$log" 2>&1 &&
        apt-get install -y --no-install-recommends "${x86_64_packages[@]}" >>"$log" 2>&1 && return
    tail -n 5 "$log" >&2
    return 1
}

# The kernel knows a file for x86-64 by its first 20 bytes: ELF, 64 bits, executable or shared, of any system.
register_x86_64() {
    local kernel=/proc/sys/fs/binfmt_misc bytes mask
    bytes='\x7fELF\x02\x01\x01\x00\x00\x00\x00\x00\x00\x00\x00\x00\x02\x00\x3e\x00'
    mask='\xff\xff\xff\xff\xff\xfe\xfe\x00\xff\xff\xff\xff\xff\xff\xff\xff\xfe\xff\xff\xff'
    [ -e "$kernel/register" ] || mount -t binfmt_misc binfmt_misc "$kernel" 2>/dev/null || return
    printf '%s' ":puretakoi-x86_64:M::$bytes:$mask:/usr/bin/qemu-x86_64:OCF" 2>/dev/null >"$kernel/register"
}

# A Python for x86-64, which loads the shared library; two of different processors can't be installed side by side.
make_x86_64_python() {
    local place="$1/python" package
    if [ ! -x "$place/usr/bin/python3.11" ]; then
        mkdir -p "$place" || return
        (cd "$place" && apt-get download "${x86_64_python[@]}") >"$log" 2>&1 || { tail -n 5 "$log" >&2; return 1; }
        for package in "$place"/*.deb; do
            dpkg-deb -x "$package" "$place" || return
        done
    fi
    printf '#!/bin/sh\nPYTHONHOME=%s exec %s "$@"\n' "'$place/usr'" "'$place/usr/bin/python3.11'" >"$1/bin/python3"
    chmod +x "$1/bin/python3"
}
