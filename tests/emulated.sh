# For .ci/run, on a processor that is not x86-64. The kit compiles programs and the archive for x86-64 Linux wherever
# it runs, so what is linked with the archive is compiled for x86-64 too, and all of it runs under an emulator. A time
# measured so says nothing.
#
# The compilers, the C library, Rust's library and the emulator come from Debian's packages and are installed where one is
# missing. Debian's `rustc-web` is a rustc of which Debian also has the library for x86-64.
packages="gcc-x86-64-linux-gnu g++-x86-64-linux-gnu qemu-user rustc-web libstd-rust-web-dev:amd64"
missing=
for package in $packages; do
  dpkg-query -W -f '${Status}' "$package" 2>/dev/null | grep -q 'ok installed' || missing="$missing $package"
done
if [ -n "$missing" ]; then
  dpkg --add-architecture amd64
  apt-get -qq update
  DEBIAN_FRONTEND=noninteractive apt-get -qq install -y --no-install-recommends $missing > /dev/null
fi

emulator=qemu-x86_64
cc=x86_64-linux-gnu-gcc
cxx=x86_64-linux-gnu-g++
export RUSTC=/usr/bin/rustc CARGO_BUILD_TARGET=x86_64-unknown-linux-gnu
export CARGO_TARGET_X86_64_UNKNOWN_LINUX_GNU_LINKER=$cc CARGO_TARGET_X86_64_UNKNOWN_LINUX_GNU_RUNNER=$emulator

# The tests that need no archive, compiled for this machine: under the emulator they take many times as long.
natively() { env -u RUSTC -u CARGO_BUILD_TARGET cargo "$1" --quiet --release --manifest-path tests/Cargo.toml "${@:2}"; }

# What `figures` counts instructions with: valgrind cannot run a program of x86-64 here.
export OAM_COUNTING_PLUGIN="$PWD/target/counting.so"
counting() { gcc -std=c11 -O2 -shared -fPIC -Wall -Wextra -Wpedantic -Werror tests/counting/plugin.c -o "$OAM_COUNTING_PLUGIN"; }
