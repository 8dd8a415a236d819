# shellcheck shell=sh disable=SC2154
# What the tests share in which an allocation fails: sourced, not run.

# Makes $work/fail_alloc.so, a library in front of the C library's: in a program that is run with it as LD_PRELOAD the allocation
# of the number FAIL_ALLOC fails. Without a C compiler there is none, and a line says so.
make_fail_alloc() {
    command -v cc >/dev/null || {
        echo "skipped: there is no C compiler, so no allocation fails"
        return 1
    }
    cat >"$work/fail_alloc.c" <<'END'
#define _GNU_SOURCE
#include <dlfcn.h>
#include <stdlib.h>
static int fails(void) {
    static long left = -1;
    if (left == -1) left = atol(getenv("FAIL_ALLOC"));
    return left > 0 && --left == 0;
}
void *malloc(size_t size) {
    void *(*next)(size_t) = (void *(*)(size_t))dlsym(RTLD_NEXT, "malloc");
    return fails() ? NULL : next(size);
}
void *realloc(void *old, size_t size) {
    void *(*next)(void *, size_t) = (void *(*)(void *, size_t))dlsym(RTLD_NEXT, "realloc");
    return fails() ? NULL : next(old, size);
}
END
    cc -shared -fPIC -o "$work/fail_alloc.so" "$work/fail_alloc.c" -ldl || exit 1
}
