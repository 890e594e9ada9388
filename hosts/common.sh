# What the run.sh of each host needs, read by them in the repository's folder: the door's library, and a way to run what links it.
# The library is x86-64 code. On another processor a program that links it runs under qemu-x86_64 (Debian: qemu-user), and the library
# is one that was built on x86-64.
#   lib        the folder of libdoor.a; PONYBLUSTER_LIB=FOLDER names one that is already built
#   out        where a host's program is built
#   under      the emulator, empty on x86-64
machine=$(uname -m)
out=$PWD/target/hosts
mkdir -p "$out"
if [ -n "${PONYBLUSTER_LIB:-}" ]; then
    lib=$PONYBLUSTER_LIB
else
    lib=$PWD/target/staticlib
    tools/native_library.sh "$lib"
fi
under=()
if [ "$machine" != x86_64 ]; then
    under=(qemu-x86_64)
fi
