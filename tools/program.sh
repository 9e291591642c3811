# Where the bench program is, and of what it was built: read by ./groat, and by .ci/run, whose `rt ci` builds it too.
# `here` is the project's root. The program is for x86-64 Linux. target/groat.built has three lines: a sum of the
# sources, one of the program, and the kit that built it.
where=crates/groat/out/groat
program=$here/$where
built=$here/target/groat.built

# Print a sum over the sources, without what rt makes and what an editor leaves beside them, and one of the program.
sum_sources() {
    (cd "$here" && find crates.txt crates \( -name out -o -name must-fail \) -prune -o \
        -type f ! -name '.*' ! -name '*~' -print | LC_ALL=C sort | xargs cksum | cksum)
}
sum_program() { cksum <"$program"; }

# Writes down that the program is what the sources as they stand and this kit make.
note_built() {
    mkdir -p "$here/target"
    { sum_sources && sum_program && rt version </dev/null; } >"$built"
}
