# shellcheck shell=bash
# Where functions lie in what is linked. The scripts that link read it.
#
# The processors of some families (Intel, Skylake to Cascade Lake and Comet Lake) do not keep a jump at a boundary of 32 bytes among decoded
# instructions. A function begins at 0 or at 16 from such a boundary, by chance with each change of the code before it. So each is linked at a
# multiple of 64 bytes: its time depends on itself alone, and fewer of its jumps stand at a boundary.

# put_in_place OBJECT NEW: copies an object of the toolchain, in which each function has a section, so that all are linked at multiples of 64
put_in_place() {
    objcopy --set-section-alignment '.text.*=64' "$1" "$2"
}
