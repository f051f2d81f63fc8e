# Finds the kit: sets rt, the command, and toolchain, the folder of its compiler, linker, loader and C library.
rt=$(command -v rt || echo "${RATTLE_HOME:-/opt/rattle}/bin/rt")
[ -x "$rt" ] || { echo "no Rattle kit: put rt on the PATH, or set RATTLE_HOME to the kit's folder" >&2; exit 2; }
# rt doc prints KIT/START-HERE.md
toolchain=$(dirname "$("$rt" doc)")/toolchain

# Runs an x86-64 program under the loader and the C library that the kit links it with.
runner=("$toolchain/lib/ld-linux-x86-64.so.2" --library-path "$toolchain/lib")
run_program() {
    "${runner[@]}" "$@"
}

# is_new FILE: it is there, and no source is newer. Called in the root, as are all below.
is_new() {
    [ -f "$1" ] && [ -z "$(find crates.txt crates -path 'crates/*/out' -prune -o -type f \( -name '*.rt' -o -name '*.antt' -o -name crates.txt \) -newer "$1" -print -quit)" ]
}

# copy_crates FOLDER: what rt reads of the crates, for another try elsewhere.
copy_crates() {
    local folder
    for folder in crates/*/src crates/*/specs crates/*/proofs; do
        [ ! -d "$folder" ] || cp -r --parents "$folder" "$1"
    done
    cp crates.txt "$1"
}

# program_of NAME: where a program of crates/ stands once it is proved and built, by rt ci or by build_program.
program_of() {
    echo "crates/$1/out/$1"
}

# build_program NAME: proves and builds a program of crates/ where it is not there yet or a source is newer. Each crate is
# told as it is proved, and all that rt says where one is not.
build_program() {
    local program said= line crate=
    program=$(program_of "$1")
    ! is_new "$program" || return 0
    echo "${0##*/}: proving $1 and the crates below it; this happens once, and takes a minute or more" >&2
    while IFS= read -r line; do
        said+=$line$'\n'
        [[ ! $line =~ ^crate\ ([a-z0-9_]+): ]] || crate=${BASH_REMATCH[1]}
        [[ $line != logic=proved* ]] || echo "${0##*/}: $crate proved" >&2
    done < <(cd "crates/$1" && "$rt" run 2>&1 >/dev/null </dev/null)
    # rt runs it too, here on no input; its stamp stands where it was proved and built
    [ -f "$program.stamp" ] || { printf '%s' "$said" >&2; return 1; }
    touch "$program"
}

# build_c PROGRAM SOURCE.c.. [ARCHIVE.a..] [-FLAG..]: a C program for x86-64 by the kit's compiler, linker and C library
# alone: no compiler or header of the machine's own is looked at.
build_c() {
    local program=$1 lib=$toolchain/lib objects=() flags=() archives=() word
    shift
    for word; do
        case $word in
            -*) flags+=("$word") ;;
            *.a) archives+=("$word") ;;
        esac
    done
    mkdir -p "$(dirname "$program")"
    for word; do
        case $word in *.c) ;; *) continue ;; esac
        objects+=("$program.$(basename "$word" .c).o")
        "$toolchain/bin/clang" --target=x86_64-unknown-linux-gnu -std=c11 -O2 -fPIE -Wall -Wextra -Werror \
            -nostdinc -isystem firmware/freestanding -Iinclude "${flags[@]}" -c "$word" -o "${objects[-1]}" || return
    done
    "$toolchain/bin/ld.lld" -pie -dynamic-linker "$lib/ld-linux-x86-64.so.2" -o "$program" \
        "$lib/Scrt1.o" "$lib/crti.o" "$lib/crtbeginS.o" "${objects[@]}" "${archives[@]}" \
        --start-group "$lib/libc.so.6" "$lib/libc_nonshared.a" "$lib/libgcc.a" --end-group "$lib/crtendS.o" "$lib/crtn.o"
}

# The archive of the C interface, for every x86-64 processor: proved and built where it is not there yet or a source is
# newer.
library=target/staticlib/libcosterbloom.a
build_library() {
    ! is_new "$library" || return 0
    local said
    said=$(cd crates/costerbloom_c && "$rt" lib --cpu=x86-64 2>&1 </dev/null) || { printf '%s\n' "$said" >&2; return 1; }
    mkdir -p "$(dirname "$library")"
    cp crates/costerbloom_c/out/libcosterbloom_c.a "$library"
}
