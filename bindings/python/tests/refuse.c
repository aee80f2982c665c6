/* Refuses every third request for memory that comes from the extension of the package: a library to be preloaded, for refused.py. */
#define _GNU_SOURCE
#include <dlfcn.h>
#include <stdatomic.h>
#include <stddef.h>
#include <string.h>

static atomic_ulong requests, refusals;
static atomic_int is_refusing;

void topscedar_refuse(int on) { atomic_store(&is_refusing, on); }

unsigned long topscedar_refusals(void) { return atomic_load(&refusals); }

static int is_refused(void *caller) {
    Dl_info info;
    if (!atomic_load(&is_refusing) || !dladdr(caller, &info) || !info.dli_fname || !strstr(info.dli_fname, "_arena.")) return 0;
    if (atomic_fetch_add(&requests, 1) % 3) return 0;
    atomic_fetch_add(&refusals, 1);
    return 1;
}

void *malloc(size_t size) {
    static void *(*next)(size_t);
    if (!next) next = (void *(*)(size_t))dlsym(RTLD_NEXT, "malloc");
    return is_refused(__builtin_return_address(0)) ? NULL : next(size);
}

void *realloc(void *old, size_t size) {
    static void *(*next)(void *, size_t);
    if (!next) next = (void *(*)(void *, size_t))dlsym(RTLD_NEXT, "realloc");
    return is_refused(__builtin_return_address(0)) ? NULL : next(old, size);
}
