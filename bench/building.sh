# shellcheck shell=bash
# Sourced by bench/run and bench/deadlines, in the repository's folder: programs are built in $out, of $ARCHIVES and, where BEFORE
# is an older state of the archive, of that too.
out=target/bench
mkdir -p "$out"

# The older archive's entries get names of their own.
before=()
if [ -n "${BEFORE:-}" ]; then
    names=()
    for name in towhepamu_{read,plan,check,check_slots,list,sleep,dispatch,prepare,tick}; do
        names+=(--redefine-sym "$name=before_$name")
    done
    objcopy "${names[@]}" "$BEFORE" "$out/before.a"
    before=(-DWITH_BEFORE "$out/before.a")
fi

# The program of the first file, with the others and the plain C.
build() {
    # shellcheck disable=SC2086
    "${CC:-cc}" -std=c11 -O3 -Wall -Wextra -Werror -pthread -Iinclude -Itests/desk "$@" bench/instances.c \
        tests/desk/{reading,pricing,tables,planners,levels,exhaustive,reference,dispatching,generate,deadlines,writing}.c \
        $ARCHIVES "${before[@]}" -o "$out/$(basename "$1" .c)"
}

# The program that writes models, and the one that times processes.
build_for_solvers() {
    build bench/models.c
    "${CC:-cc}" -std=c11 -O2 -Wall -Wextra -Werror bench/took.c -o "$out/took"
}
