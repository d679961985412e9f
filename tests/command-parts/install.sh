# shellcheck shell=bash disable=SC2154,SC2016 # tests/command sets the names; some lines are for another shell
# Installed under a prefix: the command, the library by pkg-config, the man page, the completion.

gives "install without a prefix" 2 'usage: tools/install PREFIX' "$root/tools/install"
gives "install" 0 'install: mritvelja 2.1.0 is installed under' "$root/tools/install" "$directory/the prefix"
prefix="$directory/the prefix"
gives "the command that is installed" 0 'mritvelja 2.1.0' "$prefix/bin/mritvelja" --version
sed -n '/^```c$/,/^```$/p' "$root/README.md" | grep -v '^```' >readme.c
holds "the headers and the archive that are installed" gcc -I"$prefix/include" -o readme-static readme.c "$prefix/lib/libmritvelja.a"
gives "a program with the archive" 0 '4 bytes written' ./readme-static
if command -v pkg-config >/dev/null; then
    # pkg-config escapes the blank of the prefix for a shell.
    flags=$(PKG_CONFIG_PATH="$prefix/lib/pkgconfig" pkg-config --cflags --libs mritvelja)
    eval "gcc -o readme-shared readme.c $flags" || true
    gives "a program by pkg-config" 0 '4 bytes written' env LD_LIBRARY_PATH="$prefix/lib" ./readme-shared
    holds "pkg-config knows the version" test "$(PKG_CONFIG_PATH="$prefix/lib/pkgconfig" pkg-config --modversion mritvelja)" = 2.1.0
else
    gcc -I"$prefix/include" -o readme-shared readme.c -L"$prefix/lib" -lmritvelja
    gives "a program with the shared library" 0 '4 bytes written' env LD_LIBRARY_PATH="$prefix/lib" ./readme-shared
fi
holds "the shared library goes by its version" bash -c 'readelf -d readme-shared | grep -q "NEEDED.*libmritvelja.so.2"'
holds "the pkg-config file names the prefix" grep -qxF "prefix=$prefix" "$prefix/lib/pkgconfig/mritvelja.pc"

page="$prefix/share/man/man1/mritvelja.1"
"$mritvelja" --help | awk '/^  [a-z]/ { print $1 }' >commands
while read -r command; do
    holds "the man page has $command" grep -qx "\.SS $command" "$page"
done <commands
holds "the man page has the options" grep -q '\\-\\-explain' "$page"
if command -v groff >/dev/null; then
    gives "the man page is in its form" 0 'mritvelja' groff -man -Tascii -ww "$page"
    holds "the man page is in its form: no warnings" test ! -s err
fi

# completes EXPECTED WORD..: the words that the completion offers for the last of these.
completes() {
    local expected=$1 offered
    shift
    offered=$(PATH="$directory:$PATH" bash -c '. "$0"; COMP_WORDS=("$@"); COMP_CWORD=$(($# - 1)); _mritvelja; printf "%s " "${COMPREPLY[@]}"' \
        "$prefix/share/bash-completion/completions/mritvelja" "$@")
    holds "the completion of '$*' is '$offered'" test "$offered" = "$expected "
}
completes 'call cat check convert' mritvelja c
completes '--calls' mritvelja replay bus --c
completes '--explain' mritvelja replay bus --ex
completes 'make-directory' mritvelja call bus 2 mak
completes 'remove-directory readlink rename read' mritvelja call bus 2 re
completes 'symlink' mritvelja call bus 2 sy
completes '--empty' mritvelja new --em
completes '--rom' mritvelja check bus --r
completes '' mritvelja show bu
