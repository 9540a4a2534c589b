/*
 * Calls every function that include/sparrowpivot.h declares, on small files that it makes itself, and checks every value and every lent byte. Each buffer, the eight
 * values and the twenty bytes of an id too, stands between guard bytes that must stay as they are. Prints a line for each group, and exits 1 if a check failed.
 *
 * usage: c_library            every check
 *        c_library --plant    plants a fault in each check in turn, and exits 1 unless each one is caught, alone
 */
#include "../include/sparrowpivot.h"

#include <stdio.h>
#include <stdlib.h>
#include <string.h>

#define RECORD SPARROWPIVOT_RECORD_SIZE
#define NODE SPARROWPIVOT_NODE_SIZE
#define ID SPARROWPIVOT_ID_SIZE

/* ---- Checks */

static unsigned long done, faults, planted;
static int quiet;

/* One check; the planted one expects something else. */
static void check(const char *what, uint64_t got, uint64_t want)
{
    done++;
    if (done == planted)
        want ^= 1;
    if (got == want)
        return;
    faults++;
    if (!quiet)
        printf("FAULT %s: %llu, not %llu\n", what, (unsigned long long)got, (unsigned long long)want);
}

/* The end of a group of checks. */
static void group(const char *name)
{
    static unsigned long before;
    if (!quiet)
        printf("%s %s\n", faults == before ? "ok" : "FAULTY", name);
    before = faults;
}

/* ---- Lent memory */

#define GUARD 64
#define GUARD_BYTE 0xEE
#define FRESH 0x5C

struct lent {
    uint8_t *all; /* guard, bytes, guard */
    uint8_t *p;
    uint8_t *was; /* the bytes before the call */
    size_t n;
};

static void *memory(size_t n)
{
    void *p = malloc(n ? n : 1);
    if (!p)
        exit(2);
    return p;
}

static struct lent lend(const uint8_t *bytes, size_t n)
{
    struct lent l;
    l.all = memory(n + 2 * GUARD);
    l.p = l.all + GUARD;
    l.was = memory(n);
    l.n = n;
    memset(l.all, GUARD_BYTE, n + 2 * GUARD);
    if (bytes)
        memcpy(l.p, bytes, n);
    else
        memset(l.p, FRESH, n);
    memcpy(l.was, l.p, n);
    return l;
}

/* How many guard bytes were written. */
static uint64_t broken(const struct lent *l)
{
    uint64_t k = 0;
    size_t i;
    for (i = 0; i < GUARD; i++)
        k += (l->all[i] != GUARD_BYTE) + (l->p[l->n + i] != GUARD_BYTE);
    return k;
}

/* How many bytes from `from` on are not as they were. */
static uint64_t changed(const struct lent *l, size_t from)
{
    uint64_t k = 0;
    for (; from < l->n; from++)
        k += l->p[from] != l->was[from];
    return k;
}

static uint64_t not_zero(const struct lent *l)
{
    uint64_t k = 0;
    size_t i;
    for (i = 0; i < l->n; i++)
        k += l->p[i] != 0;
    return k;
}

static void give_back(const char *what, struct lent *l)
{
    check(what, broken(l), 0);
    free(l->all);
    free(l->was);
}

/* What was lent to be read only is as it was. */
static void give_back_read(const char *what, struct lent *l)
{
    check(what, changed(l, 0), 0);
    give_back(what, l);
}

/* ---- Eight values */

struct eight {
    uint64_t before, v[SPARROWPIVOT_VALUES], after;
};

static struct eight eight(void)
{
    struct eight e;
    memset(&e, GUARD_BYTE, sizeof e);
    return e;
}

static void values(const char *what, const struct eight *e, uint64_t a, uint64_t b, uint64_t c, uint64_t d, uint64_t f, uint64_t g, uint64_t h, uint64_t i)
{
    uint64_t want[SPARROWPIVOT_VALUES], guard;
    int k;
    want[0] = a; want[1] = b; want[2] = c; want[3] = d; want[4] = f; want[5] = g; want[6] = h; want[7] = i;
    memset(&guard, GUARD_BYTE, sizeof guard);
    for (k = 0; k < SPARROWPIVOT_VALUES; k++)
        check(what, e->v[k], want[k]);
    check(what, e->before, guard);
    check(what, e->after, guard);
}

static void first(const char *what, const struct eight *e, uint64_t a)
{
    values(what, e, a, 0, 0, 0, 0, 0, 0, 0);
}

/* ---- Making files */

struct text {
    uint8_t b[8192];
    size_t n;
};

static void put(struct text *t, const void *bytes, size_t n)
{
    memcpy(t->b + t->n, bytes, n);
    t->n += n;
}

static void put_byte(struct text *t, uint8_t b)
{
    t->b[t->n++] = b;
}

static void put32(struct text *t, uint32_t x)
{
    put_byte(t, (uint8_t)(x >> 24));
    put_byte(t, (uint8_t)(x >> 16));
    put_byte(t, (uint8_t)(x >> 8));
    put_byte(t, (uint8_t)x);
}

static void put_times(struct text *t, uint8_t b, size_t n)
{
    while (n--)
        put_byte(t, b);
}

static void header(struct text *t, uint32_t version, uint32_t count)
{
    t->n = 0;
    put(t, "DIRC", 4);
    put32(t, version);
    put32(t, count);
}

/* An entry of version 2 whose ten fields are base + 1 to base + 10 but for the mode, and whose id is 20 times `id`. */
static void entry(struct text *t, uint32_t base, uint32_t mode, uint8_t id, uint32_t stage, const char *path)
{
    size_t from = t->n, n = strlen(path);
    uint32_t k;
    for (k = 1; k <= 10; k++)
        put32(t, k == 7 ? mode : base + k);
    put_times(t, id, ID);
    put_byte(t, (uint8_t)(stage * 16));
    put_byte(t, (uint8_t)n);
    put(t, path, n);
    do
        put_byte(t, 0);
    while ((t->n - from) % 8);
}

static void extension(struct text *t, const char *signature, const struct text *body)
{
    put(t, signature, 4);
    put32(t, (uint32_t)body->n);
    put(t, body->b, body->n);
}

static void node(struct text *t, const char *name, const char *counts, int id)
{
    put(t, name, strlen(name) + 1);
    put(t, counts, strlen(counts));
    put_byte(t, '\n');
    if (id >= 0)
        put_times(t, (uint8_t)id, ID);
}

static void trailer(struct text *t)
{
    put_times(t, 0, ID);
}

/* Header and entries of the file most checks read: 12, 64 and 72 bytes. */
static void small_entries(struct text *t)
{
    header(t, 2, 2);
    entry(t, 1000, 0100644, 0x11, 0, "a");
    entry(t, 2000, 0100755, 0x22, 2, "b/c");
}

/* A TREE of three nodes. */
static void small_tree(struct text *t)
{
    static struct text tree;
    tree.n = 0;
    node(&tree, "", "2 2", 0x33);
    node(&tree, "b", "1 0", 0x44);
    node(&tree, "x", "-1 0", -1);
    extension(t, "TREE", &tree);
}

/* The file most checks read: two entries and a TREE of three nodes, whose body begins at 156. */
static void small(struct text *t)
{
    small_entries(t);
    small_tree(t);
    trailer(t);
}

/* ---- Reading */

struct stores {
    struct lent file, records, paths, nodes;
    struct eight e;
    uint32_t code;
};

static struct stores read_into(const struct text *t, size_t records, size_t paths, size_t nodes)
{
    struct stores s;
    s.file = lend(t->b, t->n);
    s.records = lend(NULL, records);
    s.paths = lend(NULL, paths);
    s.nodes = lend(NULL, nodes);
    s.e = eight();
    s.code = sparrowpivot_read(s.file.p, s.file.n, s.records.p, s.records.n, s.paths.p, s.paths.n, s.nodes.p, s.nodes.n, s.e.v);
    return s;
}

static void end_stores(const char *what, struct stores *s)
{
    give_back_read(what, &s->file);
    give_back(what, &s->records);
    give_back(what, &s->paths);
    give_back(what, &s->nodes);
}

/* A refusal, with what it carries, how many bytes of records and paths it leaves written, and whether the node store is zeroed. */
static void refused(const char *what, const struct text *t, size_t records, size_t paths, size_t nodes, uint32_t code, uint64_t carried, size_t wrote_records,
    size_t wrote_paths, int zeroed)
{
    struct stores s = read_into(t, records, paths, nodes);
    struct lent whole_records = lend(NULL, 4 * RECORD), whole_paths = lend(NULL, 64);
    struct eight e = eight();
    check(what, s.code, code);
    first(what, &s.e, carried);
    check(what, changed(&s.records, wrote_records), 0);
    check(what, changed(&s.paths, wrote_paths), 0);
    if (wrote_records) {
        /* the same entries, read alone */
        check(what, sparrowpivot_entries(t->b, t->n, 2, wrote_records / RECORD, whole_records.p, whole_records.n, whole_paths.p, whole_paths.n, e.v), 0);
        check(what, memcmp(s.records.p, whole_records.p, wrote_records) != 0, 0);
        check(what, memcmp(s.paths.p, whole_paths.p, wrote_paths) != 0, 0);
    }
    if (zeroed)
        check(what, not_zero(&s.nodes), 0);
    else
        check(what, changed(&s.nodes, 0), 0);
    give_back(what, &whole_records);
    give_back(what, &whole_paths);
    end_stores(what, &s);
    group(what);
}

static void test_read(void)
{
    static struct text t;
    struct stores s;

    header(&t, 2, 0);
    trailer(&t);
    s = read_into(&t, 0, 0, 0);
    check("empty", s.code, 0);
    first("empty", &s.e, 2);
    end_stores("empty", &s);
    s = read_into(&t, 5, 7, 9);
    check("empty", s.code, 0);
    first("empty", &s.e, 2);
    check("empty", changed(&s.records, 0) + changed(&s.paths, 0) + changed(&s.nodes, 0), 0);
    end_stores("empty", &s);
    group("an empty index");

    small(&t);
    s = read_into(&t, 2 * RECORD, 4, 3 * NODE);
    check("small", s.code, 0);
    values("small", &s.e, 2, 0, 1, 2, 4, 3, 0, 0);
    check("small", memcmp(s.paths.p, "ab/c", 4) != 0, 0);
    end_stores("small", &s);
    s = read_into(&t, 3 * RECORD + 1, 40, 5 * NODE + 1);
    check("small", s.code, 0);
    values("small", &s.e, 2, 0, 1, 2, 4, 3, 0, 0);
    check("small", changed(&s.records, 2 * RECORD) + changed(&s.paths, 4) + changed(&s.nodes, 3 * NODE), 0);
    end_stores("small", &s);
    group("two entries and a tree, in stores of just their size and in larger ones");

    small(&t);
    sparrowpivot_sha1(t.b, t.n - ID, t.b + t.n - ID);
    s = read_into(&t, 2 * RECORD, 4, 3 * NODE);
    check("hashed", s.code, 0);
    values("hashed", &s.e, 2, 0, 1, 2, 4, 3, 0, 0);
    end_stores("hashed", &s);
    group("a trailer with the SHA-1 of the rest");

    header(&t, 3, 0);
    put(&t, "sdir\0\0\0\0", 8);
    trailer(&t);
    s = read_into(&t, 0, 0, 0);
    check("sparse", s.code, 0);
    values("sparse", &s.e, 3, 1, 0, 0, 0, 0, 0, 0);
    end_stores("sparse", &s);
    group("sdir marks the index sparse");

    header(&t, 2, 0);
    put(&t, "TREE\0\0\0\1x", 9);
    trailer(&t);
    s = read_into(&t, 0, 0, NODE + 3);
    check("malformed", s.code, 0);
    first("malformed", &s.e, 2);
    check("malformed", not_zero(&s.nodes), 0);
    end_stores("malformed", &s);
    group("a malformed tree is no tree, and zeroes the node store");
}

static void test_refusals(void)
{
    static struct text t, tree;
    int k;

    header(&t, 2, 0);
    trailer(&t);
    t.n--;
    refused("refusal 1", &t, RECORD, 8, NODE, SPARROWPIVOT_SHORT_FILE, 0, 0, 0, 0);

    small(&t);
    t.b[3] = 'X';
    refused("refusal 2", &t, RECORD, 8, NODE, SPARROWPIVOT_NO_SIGNATURE, 0, 0, 0, 0);

    small(&t);
    t.b[4] = 1;
    t.b[7] = 5;
    refused("refusal 3", &t, RECORD, 8, NODE, SPARROWPIVOT_OTHER_VERSION, 0x01000005, 0, 0, 0);

    small(&t);
    t.b[t.n - 1] = 1;
    refused("refusal 4", &t, 2 * RECORD, 8, NODE, SPARROWPIVOT_BAD_TRAILER, 0, 0, 0, 0);

    header(&t, 2, 3);
    entry(&t, 0, 0100644, 1, 0, "a");
    entry(&t, 0, 0100644, 2, 0, "bc");
    trailer(&t);
    refused("refusal 5", &t, 3 * RECORD, 8, NODE, SPARROWPIVOT_NOT_SPELLED, 2, 2 * RECORD, 3, 0);

    small(&t);
    refused("refusal 6 for a record", &t, 2 * RECORD - 1, 8, 3 * NODE, SPARROWPIVOT_NO_ENTRY_ROOM, 1, RECORD, 1, 0);
    refused("refusal 6 for a path", &t, 2 * RECORD, 3, 3 * NODE, SPARROWPIVOT_NO_ENTRY_ROOM, 1, RECORD, 1, 0);
    refused("refusal 6 for all", &t, 0, 0, 0, SPARROWPIVOT_NO_ENTRY_ROOM, 0, 0, 0, 0);

    small(&t);
    t.n -= ID;
    put_byte(&t, 7);
    trailer(&t);
    refused("refusal 7", &t, 2 * RECORD, 4, 3 * NODE, SPARROWPIVOT_NOT_FILLED, t.n - ID - 1, 2 * RECORD, 4, 0);

    header(&t, 2, 1);
    entry(&t, 0, 0100644, 1, 0, "a");
    put(&t, "link\0\0\0\0", 8);
    trailer(&t);
    refused("refusal 8", &t, RECORD, 4, NODE, SPARROWPIVOT_MANDATORY, 0x6c696e6b, RECORD, 1, 0);

    header(&t, 2, 1);
    entry(&t, 0, 0100644, 1, 0, "a");
    tree.n = 0;
    for (k = 1; k <= 513; k++)
        node(&tree, k == 1 ? "" : "d", k == 513 ? "-1 0" : "-1 1", -1);
    extension(&t, "TREE", &tree);
    trailer(&t);
    refused("refusal 9", &t, RECORD, 1, 513 * NODE + 5, SPARROWPIVOT_TOO_DEEP, 0, RECORD, 1, 1);

    small(&t);
    refused("refusal 10", &t, 2 * RECORD, 4, 3 * NODE - 1, SPARROWPIVOT_NO_NODE_ROOM, 0, 2 * RECORD, 4, 1);
}

static void test_entries(void)
{
    static struct text t;
    struct lent file, records, paths;
    struct eight e = eight();

    small(&t);
    file = lend(t.b, t.n);
    records = lend(NULL, 2 * RECORD);
    paths = lend(NULL, 4);
    check("entries", sparrowpivot_entries(file.p, file.n, 2, 2, records.p, records.n, paths.p, paths.n, e.v), 0);
    values("entries", &e, 148, 4, 0, 0, 0, 0, 0, 0);
    e = eight();
    check("entries", sparrowpivot_entries(file.p, file.n, 2, 3, records.p, records.n, paths.p, paths.n, e.v), SPARROWPIVOT_NOT_SPELLED);
    first("entries", &e, 2);
    e = eight();
    check("entries", sparrowpivot_entries(file.p, file.n, 2, 2, records.p, RECORD, paths.p, paths.n, e.v), SPARROWPIVOT_NO_ENTRY_ROOM);
    first("entries", &e, 1);
    give_back_read("entries", &file);
    give_back("entries", &records);
    give_back("entries", &paths);

    header(&t, 2, 1);
    entry(&t, 0, 040000, 1, 0, "dir/");
    trailer(&t);
    file = lend(t.b, t.n);
    records = lend(NULL, RECORD);
    paths = lend(NULL, 4);
    e = eight();
    check("entries", sparrowpivot_entries(file.p, file.n, 2, 1, records.p, records.n, paths.p, paths.n, e.v), 0);
    values("entries", &e, 84, 4, 1, 0, 0, 0, 0, 0);
    e = eight();
    check("entries of version 77", sparrowpivot_entries(file.p, file.n, 77, 1, records.p, records.n, paths.p, paths.n, e.v), 0);
    values("entries of version 77", &e, 84, 4, 1, 0, 0, 0, 0, 0);
    e = eight();
    check("no entries of 11 bytes", sparrowpivot_entries(file.p, 11, 2, 0, records.p, records.n, paths.p, paths.n, e.v), 0);
    values("no entries of 11 bytes", &e, 12, 0, 0, 0, 0, 0, 0, 0);
    give_back_read("entries", &file);
    give_back("entries", &records);
    give_back("entries", &paths);
    group("entries alone");
}

/* ---- Writing */

/* The file that is written of the small table: what each option asks for. */
static void small_written(struct text *t, uint32_t options)
{
    static struct text body;
    size_t offset;
    int tree = (options & SPARROWPIVOT_WRITE_TREE_GIVEN) && (options & SPARROWPIVOT_WRITE_TREE), sparse = (options & SPARROWPIVOT_WRITE_SPARSE) != 0;
    small_entries(t);
    offset = t->n;
    if (tree)
        small_tree(t);
    if (sparse)
        put(t, "sdir\0\0\0\0", 8);
    if ((options & SPARROWPIVOT_WRITE_EOIE) && (tree || sparse)) {
        struct text heads;
        heads.n = 0;
        if (tree)
            put(&heads, t->b + offset, 8);
        if (sparse)
            put(&heads, "sdir\0\0\0\0", 8);
        body.n = 0;
        put32(&body, (uint32_t)offset);
        sparrowpivot_sha1(heads.b, heads.n, body.b + 4);
        body.n += ID;
        extension(t, "EOIE", &body);
    }
    if (options & SPARROWPIVOT_WRITE_UNHASHED)
        trailer(t);
    else {
        sparrowpivot_sha1(t->b, t->n, t->b + t->n);
        t->n += ID;
    }
}

/* What is lent to a write: two tables with paths and names. */
struct tables {
    struct lent records, paths, nodes, names;
};

/* The tables of a file of so many records, path bytes and nodes. */
static struct tables tables_of(const struct text *t, size_t records, size_t paths, size_t nodes)
{
    struct stores s = read_into(t, records * RECORD, paths, nodes * NODE);
    struct tables all;
    check("read to be written", s.code, 0);
    all.records = lend(s.records.p, s.records.n);
    all.paths = lend(s.paths.p, s.paths.n);
    all.nodes = lend(s.nodes.p, s.nodes.n);
    all.names = lend(t->b, t->n);
    end_stores("read to be written", &s);
    return all;
}

static void end_tables(const char *what, struct tables *all)
{
    give_back_read(what, &all->records);
    give_back_read(what, &all->paths);
    give_back_read(what, &all->nodes);
    give_back_read(what, &all->names);
}

/* Writes into so many bytes, and expects this file, or this refusal and an untouched output. */
static void write_into(const char *what, const struct tables *all, uint32_t options, size_t room, const struct text *file, uint32_t version, uint32_t code,
    uint64_t carried)
{
    struct lent out = lend(NULL, room);
    struct eight e = eight();
    check(what, sparrowpivot_write(all->records.p, all->records.n, all->paths.p, all->paths.n, all->nodes.p, all->nodes.n, all->names.p, all->names.n, options,
        out.p, out.n, e.v), code);
    if (code) {
        first(what, &e, carried);
        check(what, changed(&out, 0), 0);
    } else {
        values(what, &e, version, file->n, 0, 0, 0, 0, 0, 0);
        check(what, memcmp(out.p, file->b, file->n) != 0, 0);
        check(what, changed(&out, file->n), 0);
    }
    give_back(what, &out);
}

static void test_write(void)
{
    static struct text t, wanted, tree;
    struct tables all;
    uint32_t options;

    small(&t);
    all = tables_of(&t, 2, 4, 3);
    for (options = 0; options < 32; options++) {
        small_written(&wanted, options);
        write_into("options", &all, options, wanted.n, &wanted, 2, 0, 0);
        write_into("options", &all, options | 0xffffffe0, wanted.n, &wanted, 2, 0, 0);
    }
    group("a table written, every option");

    options = SPARROWPIVOT_WRITE_TREE_GIVEN | SPARROWPIVOT_WRITE_TREE | SPARROWPIVOT_WRITE_EOIE;
    small_written(&wanted, options);
    write_into("larger", &all, options, wanted.n + 1, &wanted, 2, 0, 0);
    write_into("larger", &all, options, wanted.n + 5000, &wanted, 2, 0, 0);
    write_into("refusal 14", &all, options, wanted.n - 1, NULL, 0, SPARROWPIVOT_SHORT_OUTPUT, wanted.n);
    write_into("refusal 14", &all, options, 0, NULL, 0, SPARROWPIVOT_SHORT_OUTPUT, wanted.n);
    group("a larger output, and refusal 14");

    all.paths.n--;
    write_into("refusal 12", &all, options, wanted.n, NULL, 0, SPARROWPIVOT_PATH_OUTSIDE, 1);
    all.paths.n = 0;
    all.nodes.n = 0;
    write_into("refusal 12", &all, options, 0, NULL, 0, SPARROWPIVOT_PATH_OUTSIDE, 0);
    group("refusal 12, before any other");

    all.paths.n = 4;
    write_into("refusal 16", &all, options, 0, NULL, 0, SPARROWPIVOT_NOT_PROPER, 0);
    all.nodes.n = 2 * NODE;
    write_into("refusal 16", &all, options, wanted.n, NULL, 0, SPARROWPIVOT_NOT_PROPER, 0);
    all.nodes.n = 3 * NODE;
    all.names.n = 207;
    write_into("refusal 16", &all, options, wanted.n, NULL, 0, SPARROWPIVOT_NOT_PROPER, 0);
    /* a tree that is not written is not looked at */
    small_written(&wanted, SPARROWPIVOT_WRITE_TREE);
    write_into("no tree", &all, SPARROWPIVOT_WRITE_TREE, wanted.n, &wanted, 2, 0, 0);
    write_into("no tree", &all, SPARROWPIVOT_WRITE_TREE_GIVEN, wanted.n, &wanted, 2, 0, 0);
    all.names.n = t.n;
    end_tables("write", &all);
    group("refusal 16, if TREE is to be written");

    /* the last node's name alone is moved to the front: it is written where its name belongs */
    small_entries(&t);
    tree.n = 0;
    node(&tree, "", "2 2", 0x33);
    node(&tree, "x", "-1 0", -1);
    node(&tree, "b", "1 0", 0x44);
    extension(&t, "TREE", &tree);
    trailer(&t);
    all = tables_of(&t, 2, 4, 3);
    small_written(&wanted, options);
    write_into("siblings", &all, options, wanted.n, &wanted, 2, 0, 0);
    end_tables("siblings", &all);
    group("siblings in byte order of name");

    header(&t, 3, 1);
    put_times(&t, 7, 24);
    put32(&t, 0100644);
    put_times(&t, 7, 32);
    put(&t, "\x40\x01\x20\0a\0\0\0\0\0\0\0", 12);
    sparrowpivot_sha1(t.b, t.n, t.b + t.n);
    t.n += ID;
    all = tables_of(&t, 1, 1, 0);
    write_into("extended", &all, 0, t.n, &t, 3, 0, 0);
    end_tables("extended", &all);
    header(&t, 2, 0);
    sparrowpivot_sha1(t.b, t.n, t.b + t.n);
    t.n += ID;
    all = tables_of(&t, 0, 0, 0);
    write_into("no record", &all, SPARROWPIVOT_WRITE_EOIE, t.n, &t, 2, 0, 0);
    end_tables("no record", &all);
    group("version 3, and an empty table");
}

/* 4096 times a path of 2^20 bytes is more than a file may hold; one time less is not. */
/* A folder in each folder, so many levels of them. */
static void deep(struct text *t, unsigned levels)
{
    static struct text tree;
    unsigned k;
    header(t, 2, 0);
    tree.n = 0;
    for (k = 1; k <= levels; k++)
        node(&tree, k == 1 ? "" : "d", k == levels ? "-1 0" : "-1 1", -1);
    extension(t, "TREE", &tree);
    trailer(t);
}

/* 511 and 512 levels are read and written back, 513 refused. That a node table of 513 is refused with 16, compare/run shows, which knows what a node looks like. */
static void test_depth(void)
{
    static struct text t;
    struct tables all;
    uint32_t options = SPARROWPIVOT_WRITE_TREE_GIVEN | SPARROWPIVOT_WRITE_TREE | SPARROWPIVOT_WRITE_UNHASHED;
    uint32_t levels;
    for (levels = 511; levels <= 512; levels++) {
        deep(&t, levels);
        all = tables_of(&t, 0, 0, levels);
        write_into("levels", &all, options, t.n, &t, 2, 0, 0);
        end_tables("levels", &all);
    }
    group("511 and 512 levels, read and written");

    deep(&t, 513);
    refused("513 levels", &t, 0, 0, 513 * NODE, SPARROWPIVOT_TOO_DEEP, 0, 0, 0, 1);
    refused("513 levels, room for 512", &t, 0, 0, 512 * NODE, SPARROWPIVOT_TOO_DEEP, 0, 0, 0, 1);
    refused("513 levels, room for 511", &t, 0, 0, 512 * NODE - 1, SPARROWPIVOT_NO_NODE_ROOM, 0, 0, 0, 1);
    group("513 levels, refused");
}

static void test_too_large(void)
{
    const size_t path = 1 << 20, n = 4096, size = 12 + 62 + path + 2 + ID;
    struct lent file = lend(NULL, size), one = lend(NULL, RECORD), paths = lend(NULL, path), records = lend(NULL, n * RECORD), out = lend(NULL, 0);
    struct eight e = eight();
    size_t i;
    memset(file.p, 0, size);
    memcpy(file.p, "DIRC\0\0\0\2\0\0\0\1", 12);
    memcpy(file.p + 12 + 60, "\x0f\xff", 2);
    memset(file.p + 12 + 62, 'a', path);
    check("long path", sparrowpivot_read(file.p, size, one.p, one.n, paths.p, paths.n, out.p, 0, e.v), 0);
    for (i = 0; i < n; i++)
        memcpy(records.p + i * RECORD, one.p, RECORD);
    e = eight();
    check("refusal 15", sparrowpivot_write(records.p, records.n, paths.p, paths.n, out.p, 0, out.p, 0, 0, out.p, 0, e.v), SPARROWPIVOT_TOO_LARGE);
    first("refusal 15", &e, 0);
    e = eight();
    check("refusal 14", sparrowpivot_write(records.p, records.n - RECORD, paths.p, paths.n, out.p, 0, out.p, 0, 0, out.p, 0, e.v), SPARROWPIVOT_SHORT_OUTPUT);
    first("refusal 14", &e, 12 + (uint64_t)(n - 1) * (62 + path + 2) + ID);
    give_back("refusal 15", &file);
    give_back("refusal 15", &one);
    give_back("refusal 15", &paths);
    give_back("refusal 15", &records);
    give_back("refusal 15", &out);
    group("refusal 15");
}

/* ---- Extensions, the bound, SHA-1 */

static void test_extensions(void)
{
    static struct text t, body;
    struct lent file;
    struct eight e = eight();

    header(&t, 2, 0);
    body.n = 0;
    put32(&body, 1);
    put32(&body, 12);
    put32(&body, 70000);
    put32(&body, 900000);
    put32(&body, 5);
    extension(&t, "IEOT", &body);
    body.n = 0;
    put32(&body, 12);
    body.n += ID;
    sparrowpivot_sha1(t.b + 12, 8, body.b + 4);
    extension(&t, "EOIE", &body);
    trailer(&t);
    file = lend(t.b, t.n);

    check("eoie", sparrowpivot_eoie(file.p, file.n, e.v), 0);
    values("eoie", &e, 1, 12, 0, 0, 0, 0, 0, 0);
    e = eight();
    check("eoie", sparrowpivot_eoie(file.p, file.n - 1, e.v), 0);
    first("eoie", &e, 0);
    group("EOIE");

    e = eight();
    check("ieot", sparrowpivot_ieot_count(file.p, file.n, 12, e.v), 0);
    values("ieot", &e, 1, 2, 0, 0, 0, 0, 0, 0);
    e = eight();
    check("ieot", sparrowpivot_ieot_count(file.p, file.n, 13, e.v), 0);
    first("ieot", &e, 0);
    e = eight();
    check("ieot", sparrowpivot_ieot_pair(file.p, file.n, 12, 0, e.v), 0);
    values("ieot", &e, 1, 12, 70000, 0, 0, 0, 0, 0);
    e = eight();
    check("ieot", sparrowpivot_ieot_pair(file.p, file.n, 12, 1, e.v), 0);
    values("ieot", &e, 1, 900000, 5, 0, 0, 0, 0, 0);
    e = eight();
    check("ieot", sparrowpivot_ieot_pair(file.p, file.n, 12, 2, e.v), 0);
    first("ieot", &e, 0);
    e = eight();
    check("ieot", sparrowpivot_ieot_pair(file.p, file.n, SIZE_MAX, SIZE_MAX, e.v), 0);
    first("ieot", &e, 0);
    give_back_read("extensions", &file);
    group("IEOT: how many pairs, and each");

    check("bound", sparrowpivot_max_entries(159, 0, 0, 2), 1);
    check("bound", sparrowpivot_max_entries(160, 0, 0, 3), 2);
    check("bound", sparrowpivot_max_entries(10, 0, 0, 4), 0);
    check("bound", sparrowpivot_max_entries(160, 1, 12 + 3 * 64, 4), 3);
    check("bound", sparrowpivot_max_entries(160, 2, 0, 2), 0);
    group("the most entries");
}

static void test_sha1(void)
{
    static const uint8_t abc[ID] = { 0xa9, 0x99, 0x3e, 0x36, 0x47, 0x06, 0x81, 0x6a, 0xba, 0x3e, 0x25, 0x71, 0x78, 0x50, 0xc2, 0x6c, 0x9c, 0xd0, 0xd8, 0x9d };
    static const uint8_t none[ID] = { 0xda, 0x39, 0xa3, 0xee, 0x5e, 0x6b, 0x4b, 0x0d, 0x32, 0x55, 0xbf, 0xef, 0x95, 0x60, 0x18, 0x90, 0xaf, 0xd8, 0x07, 0x09 };
    struct lent text = lend((const uint8_t *)"abc", 3), out = lend(NULL, ID);
    sparrowpivot_sha1(text.p, 3, out.p);
    check("sha1", memcmp(out.p, abc, ID) != 0, 0);
    sparrowpivot_sha1(text.p, 0, out.p);
    check("sha1", memcmp(out.p, none, ID) != 0, 0);
    give_back_read("sha1", &text);
    give_back("sha1", &out);
    group("SHA-1");
}

/* ---- Tables */

static uint64_t not_byte(const struct lent *l, uint8_t b)
{
    uint64_t k = 0;
    size_t i;
    for (i = 0; i < l->n; i++)
        k += l->p[i] != b;
    return k;
}

static void test_records(void)
{
    static struct text t;
    struct stores s;
    struct lent records, paths, out = lend(NULL, ID);
    struct eight e = eight();

    small(&t);
    s = read_into(&t, 2 * RECORD, 4, 3 * NODE);
    records = lend(s.records.p, s.records.n);
    paths = lend(s.paths.p, s.paths.n);

    check("record", sparrowpivot_record(records.p, records.n, paths.p, paths.n, 0, e.v), 0);
    values("record", &e, 0100644, 0, 0, 0, 1, 1, 1, 1010);
    e = eight();
    check("record", sparrowpivot_record(records.p, records.n, paths.p, paths.n, 1, e.v), 0);
    values("record", &e, 0100755, 0x2000, 2, 1, 4, 1, 1, 2010);
    e = eight();
    check("record", sparrowpivot_record(records.p, records.n, paths.p, 3, 1, e.v), 0);
    values("record", &e, 0100755, 0x2000, 2, 1, 4, 0, 1, 2010);
    e = eight();
    check("record", sparrowpivot_record(records.p, records.n, paths.p, paths.n, 2, e.v), 0);
    first("record", &e, 0);
    e = eight();
    check("record", sparrowpivot_record(records.p, records.n - 1, paths.p, paths.n, 1, e.v), 0);
    first("record", &e, 0);
    e = eight();
    check("stat", sparrowpivot_record_stat(records.p, records.n, 1, e.v), 0);
    values("stat", &e, 2001, 2002, 2003, 2004, 2005, 2006, 2008, 2009);
    e = eight();
    check("stat", sparrowpivot_record_stat(records.p, records.n, SIZE_MAX, e.v), 0);
    first("stat", &e, 0);
    sparrowpivot_record_id(records.p, records.n, 1, out.p);
    check("id", not_byte(&out, 0x22), 0);
    sparrowpivot_record_id(records.p, records.n, 2, out.p);
    check("id", not_zero(&out), 0);
    group("what a record holds");

    e = eight();
    check("lookup", sparrowpivot_lookup(records.p, records.n, paths.p, paths.n, paths.p + 1, 3, 2, e.v), 0);
    values("lookup", &e, 1, 1, 1, 0, 0, 0, 0, 0);
    e = eight();
    check("lookup", sparrowpivot_lookup(records.p, records.n, paths.p, paths.n, paths.p, 1, 0, e.v), 0);
    values("lookup", &e, 1, 0, 2, 0, 0, 0, 0, 0);
    e = eight();
    check("lookup", sparrowpivot_lookup(records.p, records.n, paths.p, paths.n, paths.p, 1, 3, e.v), 0);
    values("lookup", &e, 0, 0, 2, 0, 0, 0, 0, 0);
    e = eight();
    check("lookup", sparrowpivot_lookup(records.p, records.n, paths.p, paths.n, paths.p, 1, 4, e.v), SPARROWPIVOT_NO_STAGE);
    first("lookup", &e, 0);
    e = eight();
    check("lookup", sparrowpivot_lookup(records.p, records.n, paths.p, 3, paths.p, 1, 0, e.v), SPARROWPIVOT_PATH_OUTSIDE);
    first("lookup", &e, 1);
    group("lookup, refusals 11 and 12");

    e = eight();
    check("order", sparrowpivot_check_order(records.p, records.n, paths.p, paths.n, e.v), 0);
    first("order", &e, 0);
    e = eight();
    check("order", sparrowpivot_check_order(records.p, records.n, paths.p, 3, e.v), SPARROWPIVOT_PATH_OUTSIDE);
    first("order", &e, 1);
    give_back_read("records", &records);
    records = lend(NULL, 2 * RECORD);
    memcpy(records.p, s.records.p, RECORD);
    memcpy(records.p + RECORD, s.records.p, RECORD);
    memcpy(records.was, records.p, records.n);
    e = eight();
    check("order", sparrowpivot_check_order(records.p, records.n, paths.p, paths.n, e.v), SPARROWPIVOT_NOT_AFTER);
    first("order", &e, 1);
    give_back_read("records", &records);
    give_back_read("paths", &paths);
    give_back("id", &out);
    end_stores("records", &s);
    group("the order check, refusals 12 and 13");
}

static void test_nodes(void)
{
    static struct text t;
    struct stores s;
    struct lent nodes, out = lend(NULL, ID);
    struct eight e = eight();

    small(&t);
    s = read_into(&t, 2 * RECORD, 4, 3 * NODE);
    nodes = lend(s.nodes.p, s.nodes.n);
    check("node", sparrowpivot_node(nodes.p, nodes.n, 0, e.v), 0);
    values("node", &e, 156, 156, 2, 2, SPARROWPIVOT_MINUS_ONE, 1, 0, 0);
    e = eight();
    check("node", sparrowpivot_node(nodes.p, nodes.n, 1, e.v), 0);
    values("node", &e, 181, 182, 1, 0, 0, 1, 0, 0);
    e = eight();
    check("node", sparrowpivot_node(nodes.p, nodes.n, 2, e.v), 0);
    values("node", &e, 207, 208, SPARROWPIVOT_MINUS_ONE, 0, 0, 1, 0, 0);
    e = eight();
    check("node", sparrowpivot_node(nodes.p, nodes.n - 1, 2, e.v), 0);
    first("node", &e, 0);
    sparrowpivot_node_id(nodes.p, nodes.n, 1, out.p);
    check("node id", not_byte(&out, 0x44), 0);
    sparrowpivot_node_id(nodes.p, nodes.n, 2, out.p);
    check("node id", not_zero(&out), 0);
    sparrowpivot_node_id(nodes.p, nodes.n, 0, out.p);
    check("node id", not_byte(&out, 0x33), 0);
    sparrowpivot_node_id(nodes.p, nodes.n, 3, out.p);
    check("node id", not_zero(&out), 0);
    give_back_read("nodes", &nodes);
    /* the last 32 bytes of a node are its id's place */
    memset(s.nodes.p + 3 * NODE - 32, 0x55, 32);
    nodes = lend(s.nodes.p, s.nodes.n);
    e = eight();
    check("node of count -1, made by hand", sparrowpivot_node(nodes.p, nodes.n, 2, e.v), 0);
    values("node of count -1, made by hand", &e, 207, 208, SPARROWPIVOT_MINUS_ONE, 0, 0, 1, 0, 0);
    sparrowpivot_node_id(nodes.p, nodes.n, 2, out.p);
    check("node of count -1, made by hand", not_byte(&out, 0x55), 0);
    give_back_read("nodes", &nodes);
    give_back("node id", &out);
    end_stores("nodes", &s);
    group("what a node holds");
}

static void every(void)
{
    done = faults = 0;
    test_read();
    test_refusals();
    test_entries();
    test_write();
    test_depth();
    test_too_large();
    test_extensions();
    test_sha1();
    test_records();
    test_nodes();
}

/* A fault in each check in turn: each must be caught, and no other. Then bytes that no function may write. */
static int plant(void)
{
    struct lent l = lend(NULL, 3);
    unsigned long all, k, missed = 0;
    quiet = 1;
    every();
    all = done;
    for (k = 1; k <= all; k++) {
        planted = k;
        every();
        missed += faults != 1;
    }
    printf("%lu faults planted in expectations, %lu caught\n", all, all - missed);
    l.all[GUARD - 1] = l.all[GUARD + 3] = l.p[2] = 0;
    k = broken(&l) == 2 && changed(&l, 0) == 1;
    printf("a byte written before, in and behind a buffer: %s\n", k ? "caught" : "not caught");
    return missed != 0 || !k;
}

int main(int argc, char **argv)
{
    if (argc == 2 && strcmp(argv[1], "--plant") == 0)
        return plant();
    every();
    printf("%lu checks, %lu failed\n", done, faults);
    return faults != 0;
}
