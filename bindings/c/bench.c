/* Times of the library from C: one line for each operation, with nanoseconds for each entry. */
#include "topscedar.h"

#include <stdio.h>
#include <stdlib.h>
#include <time.h>

enum { N = 200000, BATCH = 256 };

static struct topscedar_pointer pointers[N];
static int64_t keys[N];
static uint64_t values[N];
static uint64_t state = 88172645463325252u;
static double begun;

static double now(void) {
    struct timespec t;
    timespec_get(&t, TIME_UTC);
    return (double)t.tv_sec * 1e9 + (double)t.tv_nsec;
}

static void begin(void) {
    begun = now();
}

static void end(const char *operation) {
    printf("C|SortedArena|%s|%.1f\n", operation, (now() - begun) / N);
}

static void must(uint8_t status) {
    if (status != TOPSCEDAR_OK) {
        fprintf(stderr, "status %d\n", status);
        exit(1);
    }
}

static int64_t random_key(void) {
    state ^= state << 13;
    state ^= state >> 7;
    state ^= state << 17;
    return (int64_t)state;
}

static void walk(struct topscedar_arena *arena) {
    struct topscedar_entry entry, batch[BATCH];
    uint64_t sum = 0;
    begin();
    must(topscedar_arena_first(arena, &entry));
    do sum += entry.value;
    while (topscedar_arena_next(arena, entry.pointer, &entry) == TOPSCEDAR_OK);
    end("iterate, single calls");
    begin();
    must(topscedar_arena_first(arena, &entry));
    struct topscedar_pointer rest = entry.pointer;
    while (rest.index != 0) {
        size_t filled;
        must(topscedar_arena_entries_from(arena, rest, batch, BATCH, &filled, &rest));
        for (size_t i = 0; i < filled; i++) sum -= batch[i].value;
    }
    end("iterate, in batches");
    if (sum != 0) exit(2);
}

static void single_calls(struct topscedar_arena *arena) {
    struct topscedar_entry entry;
    int64_t before;
    size_t length;
    begin();
    for (int i = 0; i < N; i++) must(topscedar_arena_insert(arena, keys[i], values[i], &pointers[i]));
    end("insert");
    begin();
    for (int i = 0; i < N; i++) must(topscedar_arena_length(arena, &length));
    end("length (the bare call)");
    begin();
    for (int i = 0; i < N; i++) must(topscedar_arena_find(arena, keys[i], &entry));
    end("find by key");
    begin();
    for (int i = 0; i < N; i++) must(topscedar_arena_get(arena, pointers[i], &entry));
    end("get by pointer");
    walk(arena);
    begin();
    for (int i = 0; i < N; i++) must(topscedar_arena_rekey(arena, pointers[i], random_key(), &before));
    end("rekey");
    begin();
    for (int i = 0; i < N; i++) must(topscedar_arena_pop_first(arena, &entry));
    end("pop first, single calls");
}

static void batches(struct topscedar_arena *arena) {
    struct topscedar_entry batch[BATCH];
    size_t at, filled;
    for (int i = 0; i < N; i++) keys[i] = i;
    begin();
    must(topscedar_arena_build(arena, keys, N, values, N, &at));
    end("build in order");
    begin();
    do must(topscedar_arena_pop_until(arena, N, batch, BATCH, &filled));
    while (filled == BATCH);
    end("pop first, in batches");
}

int main(void) {
    struct topscedar_arena arena = {0};
    for (int i = 0; i < N; i++) keys[i] = random_key(), values[i] = (uint64_t)i;
    must(topscedar_arena_open(&arena));
    single_calls(&arena);
    batches(&arena);
    must(topscedar_arena_close(&arena));
    return 0;
}
