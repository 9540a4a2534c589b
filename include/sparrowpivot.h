/*
 * Sparrowpivot: Git index files read and written, and their records looked up. The functions are proved; this file is not, and tests/c_library holds it against them.
 *
 * Sizes and counts. A slice is passed as a pointer and a count of bytes, which may be 0; no pointer is NULL. A function reads and writes nothing but what it is
 * lent, keeps no pointer and no state, and never allocates. No two slices of a call may overlap if one of them is written.
 *
 * Stores. Records, paths and nodes are bytes in memory of the caller's, of any alignment. A record takes SPARROWPIVOT_RECORD_SIZE bytes and a node
 * SPARROWPIVOT_NODE_SIZE; the functions below tell what they hold. Bytes after the last whole record or node belong to none. A table is the
 * whole slice lent: after reading n records lend n * SPARROWPIVOT_RECORD_SIZE bytes of the store.
 *
 * Answers. `values` are eight numbers of 64 bits; all eight are always written, and those that no comment names are 0. "0 or 1" is no or yes. A function that
 * returns uint32_t returns 0 on success, and otherwise a number of `enum sparrowpivot_refusal`.
 *
 * Time. Whatever bytes are lent, a call takes time that grows with their number times its logarithm. A path counts as often as a record names it, and a name as
 * often as a node does; and a file of version 4 can spell out paths of the square of its size, of which no more are read than there is room for. What costs more
 * is said below: some node tables when they are written, and the pairs of an IEOT when they are asked for one after the other.
 */
#ifndef SPARROWPIVOT_H
#define SPARROWPIVOT_H

#include <stddef.h>
#include <stdint.h>

#ifdef __cplusplus
extern "C" {
#endif

/* The bytes of a record and of a node in a store, of an id, and how many values an answer has. */
#define SPARROWPIVOT_RECORD_SIZE 96
#define SPARROWPIVOT_NODE_SIZE 72
#define SPARROWPIVOT_ID_SIZE 20
#define SPARROWPIVOT_VALUES 8

/* A count of -1 (a node out of date), and the parent of the root. */
#define SPARROWPIVOT_MINUS_ONE UINT64_MAX

/* The refusals. What each carries is values[0]; it is 0 where no value is named. */
enum sparrowpivot_refusal {
    /* Reading. 1 to 4 leave every store as it was. */
    SPARROWPIVOT_SHORT_FILE = 1,     /* under 32 bytes */
    SPARROWPIVOT_NO_SIGNATURE = 2,   /* does not begin with "DIRC" */
    SPARROWPIVOT_OTHER_VERSION = 3,  /* version not 2, 3 or 4; carries the version */
    SPARROWPIVOT_BAD_TRAILER = 4,    /* the last 20 bytes are neither zeros nor the SHA-1 of the rest */
    /* 5 and 6 leave the entries before the one they name; the rest of each store is as it was. */
    SPARROWPIVOT_NOT_SPELLED = 5,    /* an entry is not spelled; carries its index */
    SPARROWPIVOT_NO_ENTRY_ROOM = 6,  /* record or path room is missing for an entry; carries its index */
    /* 7 and 8 leave all entries; the node store is as it was. */
    SPARROWPIVOT_NOT_FILLED = 7,     /* extensions do not fill their space; carries the place in the file */
    SPARROWPIVOT_MANDATORY = 8,      /* an extension that begins with no letter A to Z, and is no empty "sdir"; carries its signature, big-endian */
    /* 9 and 10 leave all entries, and every byte of the node store is 0. */
    SPARROWPIVOT_TOO_DEEP = 9,       /* the tree is deeper than 512 levels */
    SPARROWPIVOT_NO_NODE_ROOM = 10,  /* the tree needs one more node than there is room for */
    /* Lookup and order check, and 12 of writing too. They write no store. */
    SPARROWPIVOT_NO_STAGE = 11,      /* a stage above 3 is looked for */
    SPARROWPIVOT_PATH_OUTSIDE = 12,  /* a record's path does not lie in the path store; carries the record's index */
    SPARROWPIVOT_NOT_AFTER = 13,     /* a record is not strictly after the one before; carries its index */
    /* Writing. They leave the output as it was. */
    SPARROWPIVOT_SHORT_OUTPUT = 14,  /* the output is shorter than needed; carries the size needed */
    SPARROWPIVOT_TOO_LARGE = 15,     /* over 2^32 - 1 records, or bytes before the place of EOIE */
    SPARROWPIVOT_NOT_PROPER = 16     /* the node table is not proper */
};

/* What is asked of sparrowpivot_write: a sum of these. Higher bits are ignored. */
enum sparrowpivot_write_options {
    SPARROWPIVOT_WRITE_TREE_GIVEN = 1, /* nodes and names hold a tree */
    SPARROWPIVOT_WRITE_TREE = 2,       /* TREE is asked for; it is written if a tree is given too */
    SPARROWPIVOT_WRITE_EOIE = 4,       /* EOIE is asked for; it is written if there is a record, and TREE or sdir is written */
    SPARROWPIVOT_WRITE_SPARSE = 8,     /* the index is sparse: sdir is written */
    SPARROWPIVOT_WRITE_UNHASHED = 16   /* 20 zeros are written in place of the hash */
};

/* ---- Reading */

/*
 * Reads an index file into three stores: a record for each entry, their paths one after the other, and the nodes of its last TREE. Bytes after those used stay as
 * they were; a malformed TREE counts as no tree, and makes every byte of the node store 0.
 * 0: version; 0 or 1, sparse; 0 or 1, there is a tree; records; path bytes; nodes used. Or 1 to 10.
 */
uint32_t sparrowpivot_read(const uint8_t *file, size_t file_len, uint8_t *records, size_t records_len, uint8_t *paths, size_t paths_len, uint8_t *nodes,
    size_t nodes_len, uint64_t values[SPARROWPIVOT_VALUES]);

/*
 * Reads `count` entries, which begin after the file's header, into two stores. Neither header nor trailer is looked at; the entries end before the last 20 bytes.
 * Version 4 is read as 4, and any other number as 2 and 3 are. A count of 0 looks at nothing, and the place is then 12, even if the file is shorter.
 * 0: the place in the file after the entries; path bytes used; 0 or 1, one entry is a directory. Or 5 or 6.
 */
uint32_t sparrowpivot_entries(const uint8_t *file, size_t file_len, uint32_t version, size_t count, uint8_t *records, size_t records_len, uint8_t *paths,
    size_t paths_len, uint64_t values[SPARROWPIVOT_VALUES]);

/* The most entries that a file of `size` bytes can have. If `told` is 0, it is not known where extensions begin; otherwise they begin at `offset`. */
uint64_t sparrowpivot_max_entries(size_t size, uint32_t told, size_t offset, uint32_t version);

/* The SHA-1 of bytes. */
void sparrowpivot_sha1(const uint8_t *bytes, size_t bytes_len, uint8_t out[SPARROWPIVOT_ID_SIZE]);

/* ---- Writing */

/*
 * Writes the index file of a table into `out`; bytes after it stay as they were. The version is 3 if a record has flag bit 14 (EXTENDED), else 2. Records with flag bit 17
 * (REMOVE) are left out, and their paths are not looked at. `names` holds the names of the nodes: for a table that was read, that is the file; `nodes` and
 * `names` are looked at only where TREE is written. Siblings are written in byte order of name.
 * A node table is proper if it is not empty, node 0 alone has no parent, every other parent is an earlier node, subtree counts agree with the parents, counts are -1 to
 * 2^31 - 1, names of siblings differ, names lie in `names` and hold no NUL, and the depth is at most 512.
 * Which node tables are quick: those in which all that is below a node stands right behind it, as in a table that was read, and siblings stand in byte order of
 * name, or in git's own, shorter names first, where a folder with those that it stands in has 2,048 lengths of name at most. A folder whose siblings stand otherwise
 * costs the square of their number, or their number times the nodes below it when it is filled in, and a table whose nodes do the square of the number of its
 * nodes. As what is written is the same in any order, put a table that came from a stranger into byte order first; the crate of host/ does.
 * 0: version; size. Or 12, 16, 15 or 14: the first in this order that applies. An output of 0 bytes asks for the size, by 14.
 */
uint32_t sparrowpivot_write(const uint8_t *records, size_t records_len, const uint8_t *paths, size_t paths_len, const uint8_t *nodes, size_t nodes_len,
    const uint8_t *names, size_t names_len, uint32_t options, uint8_t *out, size_t out_len, uint64_t values[SPARROWPIVOT_VALUES]);

/* ---- Extensions. None of these refuses: each returns 0. */

/* EOIE. 0 or 1, there is one and it is right; the place at which extensions begin. */
uint32_t sparrowpivot_eoie(const uint8_t *file, size_t file_len, uint64_t values[SPARROWPIVOT_VALUES]);

/* IEOT, the first among the extensions that begin at `offset`. 0 or 1, there is one; how many pairs it has. */
uint32_t sparrowpivot_ieot_count(const uint8_t *file, size_t file_len, size_t offset, uint64_t values[SPARROWPIVOT_VALUES]);

/*
 * Pair number k of it, counted from 0. 0 or 1, there is one; the place in the file at which its block of entries begins; how many entries that block has.
 * Each call walks from `offset` over the extensions before the IEOT: who asks for many pairs passes the place of the IEOT itself, and then none is walked over.
 */
uint32_t sparrowpivot_ieot_pair(const uint8_t *file, size_t file_len, size_t offset, size_t k, uint64_t values[SPARROWPIVOT_VALUES]);

/* ---- Tables */

/*
 * The record that has this path and stage, in a table in order (sparrowpivot_check_order). 0: 0 or 1, there is one; its index; how many records were compared.
 * Or 11 or 12.
 */
uint32_t sparrowpivot_lookup(const uint8_t *records, size_t records_len, const uint8_t *paths, size_t paths_len, const uint8_t *key, size_t key_len,
    uint32_t stage, uint64_t values[SPARROWPIVOT_VALUES]);

/* Whether every path lies in the path store and each record is strictly after the one before, by path bytes and then stage. 0: it is so. Or 12 or 13. */
uint32_t sparrowpivot_check_order(const uint8_t *records, size_t records_len, const uint8_t *paths, size_t paths_len, uint64_t values[SPARROWPIVOT_VALUES]);

/*
 * Record i; returns 0. Mode; flags (of a record that was read: bits 12 to 15, 29 and 30); stage; where its path starts and ends in the path store; 0 or 1, the path lies in the path store;
 * 0 or 1, there is a record i; the size of its file. All are 0 where there is none.
 */
uint32_t sparrowpivot_record(const uint8_t *records, size_t records_len, const uint8_t *paths, size_t paths_len, size_t i,
    uint64_t values[SPARROWPIVOT_VALUES]);

/* More of record i; returns 0. ctime in seconds, and its nanoseconds; mtime in seconds, and its nanoseconds; dev; ino; uid; gid. */
uint32_t sparrowpivot_record_stat(const uint8_t *records, size_t records_len, size_t i, uint64_t values[SPARROWPIVOT_VALUES]);

/* The id of record i; zeros where there is none. */
void sparrowpivot_record_id(const uint8_t *records, size_t records_len, size_t i, uint8_t out[SPARROWPIVOT_ID_SIZE]);

/*
 * Node i; returns 0. Where its name starts and ends in the file; its entry count, two's complement; its subtree count; its parent's index; 0 or 1, there is a
 * node i. All are 0 where there is none.
 */
uint32_t sparrowpivot_node(const uint8_t *nodes, size_t nodes_len, size_t i, uint64_t values[SPARROWPIVOT_VALUES]);

/*
 * The id of node i, as the store has it; zeros where there is no such node. A node that was read and has no id (its count is -1) has zeros in the store; for a node
 * that was not read, whatever stands there is shown.
 */
void sparrowpivot_node_id(const uint8_t *nodes, size_t nodes_len, size_t i, uint8_t out[SPARROWPIVOT_ID_SIZE]);

#ifdef __cplusplus
}
#endif

#endif
