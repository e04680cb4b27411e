# How the measuring programs are compiled and run on this machine, for bench/run and bench/check, which have sourced tools/common.sh.
#
# The library needs an x86-64 machine. EMULATOR names an emulator of one to run under, which valgrind does not count under: there the
# program counts its own steps, and is linked statically. COUNT=steps asks for that without an emulator.
need_x86_64 "the measured library"
how=${COUNT:-valgrind} compiler=cc size=size emulator=${EMULATOR:-}
for one in "$compiler" ${emulator:+"$emulator"}; do
  command -v "$one" >/dev/null || die "there is no $one"
done
[ -z "$emulator" ] || how=steps
version=$("$compiler" --version | head -n 1)
[ "$how" = valgrind ] || compiler="$compiler -static -DBY_STEPS"
