# shellcheck shell=bash disable=SC2154,SC2016 # tests/command sets the names; some lines are for another shell
# The library's build, over a toolchain that only says what it would prove: it tells how far it is, and does nothing twice.

mkdir -p building/{tools,path,include}
cp "$root/tools/build-library" building/tools
cp "$root/include/mritvelja.h" building/include
cp "$root/crates.txt" building
while read -r crate; do
    mkdir -p "building/crates/$crate/src" "building/crates/$crate/must-fail"
    printf '%s\n' "$crate" >"building/crates/$crate/src/lib.rt"
done < <(sed -n 's/^\([a-z_]*\)[ a-z]*:.*/\1/p' building/crates.txt)
cat >building/path/rt <<'RT'
#!/bin/bash
crate=${PWD##*/}
printf '%s %s\n' "$*" "$crate" >>../../rt.calls
[ "$crate" != "$RT_FAILS" ] || { printf 'rt: it is not proved\n'; exit 1; }
mkdir -p out
printf 'int mritvelja_%s(void) { return 0; }\n' "$crate" >"out/$crate.c"
gcc -c -fPIC -o "out/$crate.o" "out/$crate.c" && ar rcs "out/lib$crate.a" "out/$crate.o"
RT
chmod +x building/path/rt
# build WHAT STATUS TEXT [FAILING]: builds; rt.calls has what was asked of the toolchain.
build() {
    rm -f rt.calls building/rt.calls
    touch building/rt.calls
    gives "$1" "$2" "$3" env PATH="$directory/building/path:$PATH" RT_FAILS="${4:-}" building/tools/build-library
}
build "a build that fails" 1 'build-library: rt lib in crates/tables failed; all it said is in target/library/build.log' tables
build "a library that fails" 1 'build-library: rt lib in crates/abi failed; all it said is in target/library/build.log' abi
build "a build" 0 'build-library: abi_act is being proved and compiled'
total=$(sed -n 's/build-library: proving \([0-9]*\) crates.*/\1/p' err)
holds "every crate is told but the two that are compiled" test "$(grep -c ' is proved, ' err)" -eq $((total - 2))
holds "the last crate but the two leaves two" test "$(grep ' is proved, ' err | tail -n 1 | sed 's/.*proved, //')" = '2 left'
holds "no crate is asked for twice" test "$(sort building/rt.calls | uniq -d | wc -l)" -eq 0
holds "crates that the library does not need are not asked for" bash -c '! grep -qw cases building/rt.calls'
build "a build of the same sources" 0 ''
holds "a build of the same sources asks for nothing" test ! -s building/rt.calls
touch building/crates/*/src/lib.rt
echo other >>building/crates/cases/src/lib.rt
echo other >building/crates/rules/must-fail/one.edit
build "a build of sources that only look newer" 0 ''
holds "a build of sources that only look newer asks for nothing" test ! -s building/rt.calls
echo other >>building/crates/rules/src/lib.rt
build "a build of other sources" 0 'build-library: rules is proved'
holds "a build of other sources asks for the crates" grep -q '^lib rules$' building/rt.calls

# Without the archive the binding says what to run.
mkdir -p unbuilt
cp -r "$root"/binding/{Cargo.toml,Cargo.lock,build.rs,src,tests} unbuilt
gives "the binding without the archive" 101 'libmritvelja.a is missing: run tools/build-library' \
    cargo build --offline --manifest-path unbuilt/Cargo.toml --target-dir unbuilt/target
gives "the binding without the library needs no archive" 0 '' \
    cargo build --offline --no-default-features --manifest-path unbuilt/Cargo.toml --target-dir unbuilt/target
holds "and asks for none" bash -c '! grep -q build-library err'
gives "./run" 0 'The store at the end of the day' "$root/run"
