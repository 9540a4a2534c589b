/*
 * How many bytes of stack each exported function takes, measured: every call runs on a stack of its own that was filled with one byte, and what is no longer that byte was used. A call of an
 * empty function with the same arguments is taken off, so that what is left is the function's own frames and those below it. The inputs drive the deepest paths: trees of 512 levels, the most
 * that is read and written, with siblings in no order at the lowest level, counts of ten digits, entries of versions 2 and 4, a trailer that is hashed, all extensions.
 * Prints a line for each function: its name, the bytes, and by which input. Exits 1 if an input is not answered as it should be.
 */
#define _GNU_SOURCE
#include "../include/sparrowpivot.h"

#include <stdio.h>
#include <stdlib.h>
#include <string.h>
#include <ucontext.h>

#define LEVELS 512
#define RECORD SPARROWPIVOT_RECORD_SIZE
#define NODE SPARROWPIVOT_NODE_SIZE

/* ---- Inputs, and what calls answer */

static uint8_t file[1 << 16], records[64 * RECORD], paths[1 << 16], nodes[(LEVELS + 8) * NODE], out[1 << 16], id[SPARROWPIVOT_ID_SIZE];
static size_t file_len, records_len, paths_len, nodes_len, index_arg;
static uint32_t stage, options;
static uint64_t values[SPARROWPIVOT_VALUES], answer;

/* ---- The exported functions, each behind a pointer that may be that of an empty function instead */

static void nothing(void) { __asm__ volatile(""); }

#define CALL(name, ...)                                                              \
    static void call_##name(int empty)                                               \
    {                                                                                \
        __typeof__(&sparrowpivot_##name) volatile f = sparrowpivot_##name;           \
        if (empty)                                                                   \
            f = (__typeof__(&sparrowpivot_##name))(void *)nothing;                   \
        answer = (RESULT(f(__VA_ARGS__)));                                           \
    }
#define RESULT(x) (x)
CALL(read, file, file_len, records, records_len, paths, paths_len, nodes, nodes_len, values)
CALL(entries, file, file_len, file[7], file[11], records, records_len, paths, paths_len, values)
CALL(max_entries, file_len, 1, 200, 4)
CALL(write, records, records_len, paths, paths_len, nodes, nodes_len, file, file_len, options, out, sizeof out, values)
CALL(eoie, file, file_len, values)
CALL(ieot_count, file, file_len, index_arg, values)
CALL(ieot_pair, file, file_len, index_arg, 1, values)
CALL(lookup, records, records_len, paths, paths_len, paths, 4, stage, values)
CALL(check_order, records, records_len, paths, paths_len, values)
CALL(record, records, records_len, paths, paths_len, index_arg, values)
CALL(record_stat, records, records_len, index_arg, values)
CALL(node, nodes, nodes_len, index_arg, values)
#undef RESULT
#define RESULT(x) (x, 0)
CALL(sha1, file, file_len, id)
CALL(record_id, records, records_len, index_arg, id)
CALL(node_id, nodes, nodes_len, index_arg, id)

/* ---- Measuring */

static const struct function {
    const char *name;
    void (*call)(int empty);
} all[] = {
#define FUNCTION(name) { "sparrowpivot_" #name, call_##name }
    FUNCTION(read), FUNCTION(entries), FUNCTION(max_entries), FUNCTION(sha1), FUNCTION(write), FUNCTION(eoie), FUNCTION(ieot_count), FUNCTION(ieot_pair), FUNCTION(lookup),
    FUNCTION(check_order), FUNCTION(record), FUNCTION(record_stat), FUNCTION(record_id), FUNCTION(node), FUNCTION(node_id),
};
#define FUNCTIONS (sizeof all / sizeof all[0])

static size_t most[FUNCTIONS];
static const char *by[FUNCTIONS];

#define STACK (1 << 20)
#define PAINT 0xA5
static _Alignas(64) uint8_t stack[STACK];
static ucontext_t here, there;
static const struct function *running;
static int running_empty;

/* Deep enough that the way into this stack and out of it lies above the call. */
static void run(void)
{
    volatile uint8_t above[4096] = { 0 };
    running->call(running_empty | above[0]);
}

static size_t used(const struct function *f, int empty)
{
    size_t low = 0;
    memset(stack, PAINT, STACK);
    running = f;
    running_empty = empty;
    getcontext(&there);
    there.uc_stack.ss_sp = stack;
    there.uc_stack.ss_size = STACK;
    there.uc_link = &here;
    makecontext(&there, run, 0);
    swapcontext(&here, &there);
    while (low < STACK && stack[low] == PAINT)
        low++;
    return STACK - low;
}

/* Calls a function once with the input as it stands. The last call is the true one, so that stores and values are its own. */
static void measure(const char *name, const char *input, uint64_t wanted)
{
    size_t i, empty, need;
    for (i = 0; i < FUNCTIONS && strcmp(all[i].name + 13, name); i++)
        ;
    empty = used(&all[i], 1);
    need = used(&all[i], 0) - empty;
    if (answer != wanted) {
        fprintf(stderr, "%s, %s: %llu, not %llu\n", all[i].name, input, (unsigned long long)answer, (unsigned long long)wanted);
        exit(1);
    }
    if (!by[i] || need > most[i]) {
        most[i] = need;
        by[i] = input;
    }
}

/* ---- Files */

static void put(const void *bytes, size_t n)
{
    memcpy(file + file_len, bytes, n);
    file_len += n;
}

static void put32(uint32_t x)
{
    uint8_t b[4] = { (uint8_t)(x >> 24), (uint8_t)(x >> 16), (uint8_t)(x >> 8), (uint8_t)x };
    put(b, 4);
}

static void put_header(uint32_t version, uint32_t count)
{
    file_len = 0;
    put("DIRC", 4);
    put32(version);
    put32(count);
}

/* An entry of version 2 or 3, or of version 4 that keeps nothing of the path before; in a sparse index. */
static void put_entry(uint32_t version, const char *path, size_t n)
{
    static const uint8_t zeros[40];
    size_t start = file_len;
    put(zeros, 24);
    put32(040000);
    put(zeros, 32);
    put32(0); /* flags, in the last two bytes of the four */
    file_len -= 2;
    file[file_len - 2] = version == 3 ? 0x40 | (uint8_t)(n >> 8) : (uint8_t)(n >> 8);
    file[file_len - 1] = (uint8_t)n;
    if (version == 3)
        put("\x60", 2);
    if (version == 4)
        put("", 1);
    put(path, n);
    put(zeros, version == 4 ? 1 : 8 - (file_len - start) % 8);
}

static void put_node(const char *name, int subtrees)
{
    char text[64];
    int n = sprintf(text, "%s%c2147483647 %d\n", name, 0, subtrees);
    put(text, (size_t)n);
    put("abcdefghijklmnopqrst", 20);
}

/* A TREE of so many levels, the lowest of which has three nodes: b, a, c. */
static void put_tree(int levels)
{
    size_t size = file_len + 4, end;
    int i;
    put("TREE", 4);
    put32(0);
    for (i = 1; i < levels; i++)
        put_node(i == 1 ? "" : "folder", i + 1 < levels ? 1 : 3);
    put_node("b", 0);
    put_node("a", 0);
    put_node("c", 0);
    end = file_len;
    file_len = size;
    put32((uint32_t)(end - size - 4));
    file_len = end;
}

static void put_trailer(void)
{
    sparrowpivot_sha1(file, file_len, id);
    put(id, sizeof id);
}

/* A file of two entries, the second of which has a long path in all versions but 4, with IEOT and a TREE. */
static void make(uint32_t version, int levels)
{
    char path[5000];
    memset(path, 'b', sizeof path);
    put_header(version, 2);
    put_entry(version, "a/b/", 4);
    put_entry(version, path, version == 4 ? sizeof path : 4094);
    index_arg = file_len;
    put("IEOT", 4);
    put32(20);
    put32(1);
    put32(12);
    put32(1);
    put32(80);
    put32(1);
    put_tree(levels);
    put_trailer();
    records_len = sizeof records;
    paths_len = sizeof paths;
    nodes_len = sizeof nodes;
    memset(nodes, 0xEE, sizeof nodes);
}

int main(void)
{
    uint32_t version;
    size_t i;
    for (version = 2; version <= 4; version++) {
        const char *input = version == 4 ? "version 4, a tree of 512 levels" : "a tree of 512 levels";
        make(version, LEVELS + 1);
        measure("read", "a tree of 513 levels", SPARROWPIVOT_TOO_DEEP);
        make(version, LEVELS);
        measure("ieot_count", input, 0);
        measure("ieot_pair", input, 0);
        measure("entries", input, 0);
        measure("sha1", input, 0);
        measure("max_entries", input, 2);
        measure("read", input, 0);
        if (!values[2] || values[3] != 2 || values[5] != LEVELS + 2) {
            fprintf(stderr, "the tree is not read whole\n");
            return 1;
        }
        records_len = values[3] * RECORD;
        paths_len = values[4];
        nodes_len = values[5] * NODE;
        measure("check_order", "two records", 0);
        for (stage = 0; stage < 4; stage++)
            measure("lookup", "two records", 0);
        for (index_arg = 0; index_arg < 4; index_arg++) {
            measure("record", "a record", 0);
            measure("record_stat", "a record", 0);
            measure("record_id", "a record", 0);
            measure("node", "a node", 0);
            measure("node_id", "a node", 0);
        }
        for (options = 0; options < 32; options++)
            measure("write", input, 0);
        options = 31 - SPARROWPIVOT_WRITE_UNHASHED;
        measure("write", input, 0);
        /* what was written has an EOIE that holds */
        memcpy(file, out, sizeof out);
        file_len = values[1];
        measure("eoie", "a written file", 0);
        if (!values[0]) {
            fprintf(stderr, "the written EOIE is not found\n");
            return 1;
        }
        measure("read", "a written file", 0);
    }
    for (i = 0; i < FUNCTIONS; i++)
        printf("%-26s %6lu bytes  %s\n", all[i].name, (unsigned long)most[i], by[i]);
    return 0;
}
