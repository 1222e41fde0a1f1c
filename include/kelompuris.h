/* Kelompuris: B3D scene files for showroom terminals, slips beside them, and skeletons and meshes of cal3d.
 *
 * The functions are in libkelompuris_c.a, for x86-64 Linux (`rust/build-lib`). They keep nothing between calls and use no heap.
 * Each takes every file, slip and number and all tables: what is no such file, no slip or no table of such a file is answered by a refusal.
 *
 * A lent array is a pointer and its number of elements. The caller sees to this:
 *   - the pointer holds for that many elements, and is aligned as its type asks; with 0 elements it may be null;
 *   - no two lent arrays overlap, and nothing else writes them while the function runs. So a file is not cleared into itself:
 *     lend another output and copy back.
 *
 * Threads may call the functions at the same time, each with arrays of its own; files may be shared. Of other libraries they need memcpy and memset only.
 * Measured on a file of 16 levels, judge, read, clear and label take 8 kB of stack, the pieces 9 kB, write 17 kB.
 */
#ifndef KELOMPURIS_H
#define KELOMPURIS_H

#include <stddef.h>
#include <stdint.h>

#ifdef __cplusplus
extern "C" {
#endif

/* The version of header and library: together they are one release. */
#define KELOMPURIS_VERSION "0.1.0"

/* The mode of judge, read and write. The strict one refuses a red, green, blue or alpha, of a brush or a vertex, that is not a number or lies
 * outside 0 to 1; minus zero passes. As bits, 0 to 0x3F800000 and 0x80000000 pass and nothing else does. The lenient one takes any.
 * Any other number given as a mode means strict. */
enum {
    KELOMPURIS_STRICT = 0,
    KELOMPURIS_LENIENT = 1
};

/* What judge and read answer. The refusals are named where the first of them is told; numbers of functions below are of the same list. */
enum {
    KELOMPURIS_ACCEPTED = 0,
    KELOMPURIS_FILE_SIZE = 1,
    KELOMPURIS_FIRST_TAG = 2,
    KELOMPURIS_CUT_CHUNK = 3,
    KELOMPURIS_NESTING = 4,
    KELOMPURIS_CUT_ITEM = 5,
    KELOMPURIS_RANGE = 6,
    KELOMPURIS_NO_SUCH_ID = 7,
    KELOMPURIS_NO_VRTS_OR_TRIS = 8,
    KELOMPURIS_TOO_DEEP = 9,
    KELOMPURIS_TOO_MANY_ROWS = 10,
    KELOMPURIS_TOO_SHORT = 11,
    KELOMPURIS_NO_SUCH_TABLES = 12,
    KELOMPURIS_NO_SLIP = 13,
    KELOMPURIS_NO_LABEL = 14,
    KELOMPURIS_CLOSED = 15,
    KELOMPURIS_NO_TREE = 16
};

/* An answer:
 *
 * number 0: accepted. place is 0; version, n_texs (texture slots of a brush, 0 without a brush) and counts (rows of tables 1 to 10) are
 * the file's. Any other number is a refusal, and version, n_texs and counts are 0:
 *
 *    number                                                              place
 *    1  file size not 12 to 16,777,216                                   0
 *    2  first tag not BB3D; or its length not the file size minus 8      0; 4
 *    3  a chunk's header is cut, or its length passes what encloses it   byte of the header
 *    4  a known tag not allowed there, once too often or out of order    byte of the header
 *    5  fixed data or an item runs past its chunk; ANIM not 12 bytes     byte where that data or item starts
 *    6  a number outside its range, in strict mode a colour too          byte of the number
 *    7  an id that names nothing (-1 is allowed for brush and texture)   byte of the number
 *    8  a MESH without VRTS or TRIS                                      byte of the MESH header
 *    9  a node nested 17 deep                                            byte of the header
 *   10  a table would have more than 2,097,151 rows                      lowest such table, 1 to 10
 *   11  a lent table is too short for its rows                           lowest such table, 1 to 10
 */
typedef struct {
    uint32_t number, place, version, n_texs, counts[10];
} kelompuris_answer;

/* Judges a file in a mode without tables: answers 0 or 1 to 10. Writes nothing. The counts say how long the tables must be for
 * kelompuris_b3d_read. A file that is accepted in both modes has the same counts in both, and the lenient mode looks at no colour: to learn how
 * long the tables must be it is enough, and read in strict mode then judges the colours. */
kelompuris_answer kelompuris_b3d_judge(uint32_t mode, const uint8_t *file, size_t file_len);

/* Words of a row of tables 1 to 10. */
enum {
    KELOMPURIS_TEXTURE_WORDS = 9,
    KELOMPURIS_BRUSH_WORDS = 17,
    KELOMPURIS_NODE_WORDS = 21,
    KELOMPURIS_MESH_WORDS = 9,
    KELOMPURIS_VERTEX_WORDS = 42,
    KELOMPURIS_TRIANGLE_SET_WORDS = 4,
    KELOMPURIS_TRIANGLE_WORDS = 3,
    KELOMPURIS_WEIGHT_WORDS = 2,
    KELOMPURIS_KEY_LIST_WORDS = 4,
    KELOMPURIS_KEY_WORDS = 11
};

/* No such row: the parent of the root, a brush or a texture that is not there. */
#define KELOMPURIS_NONE UINT32_C(0xFFFFFFFF)

/* What stands in which word of a row, from 0 on. Rows are in file order, a node before what is in it; ids and numbers of rows count from 0.
 * Signed numbers and floats are held by their bits (copy a word into a float by memcpy); what is not in the file is 0.
 * A name is NAME_LENGTH bytes of the file from its byte NAME_PLACE on, and a zero byte stands behind it, so it is a C string too. It may be empty,
 * and it may hold bytes that steer a screen: print only those from 32 to 126 of it. */
enum {
    KELOMPURIS_NAME_PLACE = 0, /* of a texture, a brush and a node */
    KELOMPURIS_NAME_LENGTH = 1,

    KELOMPURIS_TEXTURE_FLAGS = 2,
    KELOMPURIS_TEXTURE_BLEND = 3,
    KELOMPURIS_TEXTURE_POSITION = 4, /* x y */
    KELOMPURIS_TEXTURE_SCALE = 6,    /* x y */
    KELOMPURIS_TEXTURE_ROTATION = 8,

    KELOMPURIS_BRUSH_COLOUR = 2, /* red green blue alpha */
    KELOMPURIS_BRUSH_SHININESS = 6,
    KELOMPURIS_BRUSH_BLEND = 7,
    KELOMPURIS_BRUSH_FX = 8,
    KELOMPURIS_BRUSH_TEXTURES = 9, /* eight slots */

    KELOMPURIS_NODE_PARENT = 2,
    KELOMPURIS_NODE_POSITION = 3, /* x y z */
    KELOMPURIS_NODE_SCALE = 6,    /* x y z */
    KELOMPURIS_NODE_ROTATION = 9, /* w x y z */
    KELOMPURIS_NODE_KIND = 13,
    KELOMPURIS_NODE_FIRST = 14, /* its mesh, or its first weight */
    KELOMPURIS_NODE_COUNT = 15, /* 1 for a mesh, or how many weights */
    KELOMPURIS_NODE_ANIM = 16,  /* 1 if it has an ANIM, whose three numbers follow */
    KELOMPURIS_NODE_ANIM_FLAGS = 17,
    KELOMPURIS_NODE_ANIM_FRAMES = 18,
    KELOMPURIS_NODE_ANIM_FPS = 19,
    KELOMPURIS_NODE_BELOW = 20, /* nodes below it at all depths: the next so many rows */

    KELOMPURIS_MESH_NODE = 0,
    KELOMPURIS_MESH_BRUSH = 1,
    KELOMPURIS_MESH_FLAGS = 2, /* 1: vertices have normals, 2: they have colours */
    KELOMPURIS_MESH_SETS = 3,  /* texture coordinates of a vertex */
    KELOMPURIS_MESH_SET_SIZE = 4,
    KELOMPURIS_MESH_FIRST_VERTEX = 5,
    KELOMPURIS_MESH_VERTICES = 6,
    KELOMPURIS_MESH_FIRST_TRIANGLE_SET = 7,
    KELOMPURIS_MESH_TRIANGLE_SETS = 8,

    KELOMPURIS_VERTEX_POSITION = 0,     /* x y z */
    KELOMPURIS_VERTEX_NORMAL = 3,       /* x y z */
    KELOMPURIS_VERTEX_COLOUR = 6,       /* red green blue alpha */
    KELOMPURIS_VERTEX_COORDINATES = 10, /* coordinate c of set s is 4 * s + c words further */

    KELOMPURIS_TRIANGLE_SET_MESH = 0,
    KELOMPURIS_TRIANGLE_SET_BRUSH = 1,
    KELOMPURIS_TRIANGLE_SET_FIRST_TRIANGLE = 2,
    KELOMPURIS_TRIANGLE_SET_TRIANGLES = 3,

    /* A triangle is three vertices, counted from its mesh's first one on. */

    KELOMPURIS_WEIGHT_VERTEX = 0, /* counted from its mesh's first one on */
    KELOMPURIS_WEIGHT_WEIGHT = 1,

    KELOMPURIS_KEY_LIST_NODE = 0,
    KELOMPURIS_KEY_LIST_FLAGS = 1, /* 1: keys have positions, 2: scales, 4: rotations */
    KELOMPURIS_KEY_LIST_FIRST_KEY = 2,
    KELOMPURIS_KEY_LIST_KEYS = 3,

    KELOMPURIS_KEY_FRAME = 0,
    KELOMPURIS_KEY_POSITION = 1, /* x y z */
    KELOMPURIS_KEY_SCALE = 4,    /* x y z */
    KELOMPURIS_KEY_ROTATION = 7  /* w x y z */
};

/* Kinds of a node. */
enum {
    KELOMPURIS_PIVOT = 0,
    KELOMPURIS_MESH = 1,
    KELOMPURIS_BONE = 2
};

/* Reads a file in a mode into ten lent tables of 32-bit words: answers 0 or 1 to 11.
 *
 * Accepted: each table begins with its rows, as many as its count says; the words behind them stay as they were.
 * Refused, also by 11: all ten tables stay as they were.
 * The file is not written. The lengths are in words, not in rows.
 *
 *   t1 textures   t2 brushes         t3 nodes       t4 meshes   t5 vertices
 *   t6 triangle sets   t7 triangles   t8 weights   t9 key lists   t10 keys
 *
 * A brush's eight texture slots hold 0xFFFFFFFF where its layer is empty (texture id -1), and from n_texs on.
 * A node's last word is the number of nodes below it at all depths: these are the next so many rows.
 * A weight's vertex id is of the mesh of the nearest node above its bone with an ANIM; if no node above has one, of the root's mesh.
 */
kelompuris_answer kelompuris_b3d_read(
    uint32_t mode, const uint8_t *file, size_t file_len,
    uint32_t *t1, size_t t1_len, uint32_t *t2, size_t t2_len,
    uint32_t *t3, size_t t3_len, uint32_t *t4, size_t t4_len,
    uint32_t *t5, size_t t5_len, uint32_t *t6, size_t t6_len,
    uint32_t *t7, size_t t7_len, uint32_t *t8, size_t t8_len,
    uint32_t *t9, size_t t9_len, uint32_t *t10, size_t t10_len);

/* What write, clear and the two writers of slips answer.
 *
 * number 0: written. place is 0; size is the number of bytes written, from the start of the output. Any other number is a refusal, and size
 * is 0. Numbers 1 to 10 are those above, with their places; then:
 *
 *    number                                                              place
 *   11  the output is too short                                          the size needed
 *   12  no file that the mode accepts has these tables,                  0
 *       name places aside
 *   13  a number of a slip is out of its range                           its position, 0 to 11
 */
typedef struct {
    uint32_t number, place, size;
} kelompuris_written;

/* Writes ten tables as the shortest file that has them: answers 0, 11 or 12; 12 comes before 11. In strict mode a colour outside 0 to 1 is 12.
 *
 * The tables and their lengths in words are as for kelompuris_b3d_read; counts points to ten words, the rows of tables 1 to 10, and words
 * behind those rows are not looked at. Name places are byte places in names; these bytes may be the file that was read.
 * 12 is also the answer to a count of more rows than its table has or than 2,097,151, to a name that passes the end of names (a place past
 * the end too, with length 0) or has a zero byte, to a version or n_texs that no file with these rows has, to a texture slot from n_texs
 * on that is not 0xFFFFFFFF (one below n_texs may be), to a node whose last word is not the number of nodes below it, and to a file of
 * more than 16,777,216 bytes.
 *
 * Written: the output's bytes behind the size stay as they were. Refused, also by 11: the whole output stays as it was.
 * Tables, counts and names are not written.
 */
kelompuris_written kelompuris_b3d_write(
    uint32_t mode,
    const uint32_t *t1, size_t t1_len, const uint32_t *t2, size_t t2_len,
    const uint32_t *t3, size_t t3_len, const uint32_t *t4, size_t t4_len,
    const uint32_t *t5, size_t t5_len, const uint32_t *t6, size_t t6_len,
    const uint32_t *t7, size_t t7_len, const uint32_t *t8, size_t t8_len,
    const uint32_t *t9, size_t t9_len, const uint32_t *t10, size_t t10_len,
    const uint32_t counts[10], uint32_t version, uint32_t n_texs,
    const uint8_t *names, size_t names_len, uint8_t *out, size_t out_len);

/* Copies a file without what is private: answers 0 or 1 to 11; 1 to 10 as kelompuris_b3d_judge does in lenient mode.
 *
 * The copy is what kelompuris_b3d_write makes of the file's tables, in lenient mode, with every name empty. So files that differ only in names, passed-over
 * chunks, where ANIM stands among KEYS, and TEXS or BRUS without items have the same copy. The copy is no longer than the file.
 *
 * Written: the output's bytes behind the size stay as they were. Refused, also by 11: the whole output stays as it was.
 * The file is not written.
 */
kelompuris_written kelompuris_b3d_clear(const uint8_t *file, size_t file_len, uint8_t *out, size_t out_len);

/* Slips. A slip is twelve numbers, one behind the other: version (0 to 99), n_texs (0 to 8) and the rows of tables 1 to 10 (0 to 2,097,151
 * each). A number is in groups of seven bits, the highest first, the top bit set on all bytes but its last, in the shortest form: 128 is
 * 81 00. So a slip has 12 to 32 bytes, and twelve numbers have one slip. */
enum {
    KELOMPURIS_SLIP_NUMBERS = 12,
    KELOMPURIS_SLIP_BYTES = 32
};

/* Writes the slip of a file: answers 0 or 1 to 11; 1 to 10 as kelompuris_b3d_judge does in lenient mode.
 *
 * The numbers are those that kelompuris_b3d_judge answers. Written: the output's bytes behind the size stay as they were. Refused, also
 * by 11: the whole output stays as it was. The file is not written.
 */
kelompuris_written kelompuris_b3d_slip(const uint8_t *file, size_t file_len, uint8_t *out, size_t out_len);

/* Writes the slip of twelve numbers: answers 0, 11 or 13; 13 comes before 11.
 *
 * numbers points to twelve words. Written: the output's bytes behind the size stay as they were. Refused: the whole output stays as it
 * was. The numbers are not written.
 */
kelompuris_written kelompuris_slip_write(const uint32_t numbers[12], uint8_t *out, size_t out_len);

/* What a slip is answered.
 *
 * number 0: accepted. place is 0; numbers are the slip's. number 13: refused, and numbers are 0. place is the first byte of the first number
 * that its bytes so far make wrong, also where the slip ends right behind them; else the length of the slip, if it is cut; else
 * the first byte behind the twelfth number.
 */
typedef struct {
    uint32_t number, place, numbers[12];
} kelompuris_slip;

/* Reads a slip: answers 0 or 13. Writes nothing. */
kelompuris_slip kelompuris_slip_read(const uint8_t *slip, size_t slip_len);

/* The tray label of a file.
 *
 * number 0: name_place and name_length are the byte place and the length of the root's name in the file, vertices is the number of vertices of
 * its mesh, 0 without one. number 14: no label, and all else is 0.
 */
typedef struct {
    uint32_t number, place;
    size_t name_place, name_length, vertices;
} kelompuris_label;

/* Finds the label by a walk over chunk headers: answers 0 or 14.
 *
 * The walk steps over other chunks to BB3D's first NODE, reads its name, steps over unknown chunks to its first known one, and, where that is
 * a MESH, steps over others to its first VRTS. For each file that kelompuris_b3d_judge accepts, in either mode, and that has a node, name and
 * vertices are those of the tables. Other files are not refused for what the walk does not meet. 14 is the answer to a first tag that is not BB3D, a chunk header
 * that is cut or whose length passes the chunk around it or the file, fixed data that is cut, no NODE, a MESH without VRTS, flags, sets or set
 * size out of range, and vertices that do not fill their chunk.
 *
 * The name always lies in the file: name_place + name_length is at most file_len.
 */
kelompuris_label kelompuris_b3d_label(const uint8_t *file, size_t file_len);

/* What a comparison is answered.
 *
 * number 0: written. place and which are 0; size is the number of bytes of the list, 0 if nothing differs. Any other number is a refusal, and
 * size is 0: 1 to 10 are those of kelompuris_b3d_judge in lenient mode, with which 1 for the first file and 2 for the second, the first one's
 * coming first; then 11 with which 0, where place is the size needed. The list of two accepted files has at most 53 * first_len + second_len
 * bytes.
 */
typedef struct {
    uint32_t number, place, which, size;
} kelompuris_compared;

/* Lists what differs between two files: answers 0 or 1 to 11.
 *
 * The list is entries one behind the other, in order of table, row and word. An entry is five numbers, each in groups of seven bits as those of
 * slips are: table, row and word, then the cell of the first file and that of the second. Floats are held by their bits and compared by them, so
 * the two zeros differ and each NaN is as good as another number.
 *   - If any of version, n_texs and the ten counts differs, the list has those and nothing else: table 0, row 0, words 0 to 11.
 *   - Otherwise tables are 1 to 10, rows and words count from 0, and all cells that differ are there, once each.
 *   - A name is word 0 of its row; its place and its length are no cells. The two numbers are the lengths of both names, and behind them stand
 *     the bytes of both. Names are compared by their bytes.
 * So the list is empty exactly if the tables are the same, name places aside. What the tables do not have is not compared: chunks of other tags,
 * and where ANIM stands among KEYS.
 *
 * Written: the output's bytes behind the size stay as they were. Refused, also by 11: the whole output stays as it was.
 * The files are not written; the same file may be lent as both.
 */
kelompuris_compared kelompuris_b3d_compare(
    const uint8_t *first, size_t first_len, const uint8_t *second, size_t second_len, uint8_t *out, size_t out_len);

/* What mending is answered.
 *
 * number 0: written. place is 0; size is the number of bytes of the mended file, report_size that of the report, 0 if nothing was to be mended.
 * Any other number is a refusal, and both sizes are 0: 1 to 10 for the first fault that cannot be mended, with its place in the file as it was
 * given; then 11 where out is too short, then 11 where report is; place is the size needed.
 */
typedef struct {
    uint32_t number, place, size, report_size;
} kelompuris_mended;

/* Which of the four a mend is. */
enum {
    KELOMPURIS_MENDED_LENGTH = 1, /* a wrong BB3D length: it ends where the file does */
    KELOMPURIS_MENDED_ID = 2,     /* a brush or texture id that names nothing: it is -1 */
    KELOMPURIS_MENDED_ITEM = 3,   /* a triangle or weight with a vertex id that names nothing: it is taken out */
    KELOMPURIS_MENDED_SPARE = 4   /* 1 to 7 bytes at the end of BB3D, NODE or MESH: they are taken out */
};

/* Mends a file and reports what it mended: answers 0, 1 to 6 or 8 to 11; 1 to 10 as kelompuris_b3d_judge does in lenient mode if the four kinds
 * of faults above are left out, with 10 counted over the rows of the mended file. 1 is judged by the size of the given file.
 *
 * The mended file is accepted in lenient mode. The lengths of chunks around bytes taken out follow; no other byte changes. An accepted file
 * comes back as it was, with an empty report. The mended file is no longer than the given one, so that with an output of file_len bytes 11 is
 * the report's. The report is no longer than ten times the given file.
 *
 * The report is entries one behind the other, by their places in the given file, one for each mend. An entry is four numbers, each in groups of
 * seven bits as those of slips are: the place where its bytes begin (the length, the id, the whole triangle or weight, the spare bytes), which of
 * the four, and how many bytes those are in the given and in the mended file (4 and 4, or so many and 0); then these bytes as the given file
 * has them and as the mended one does. A length that only follows has no entry.
 *
 * Written: the bytes of out and report behind their sizes stay as they were. Refused, also by 11: both stay as they were whole.
 * The file is not written.
 */
kelompuris_mended kelompuris_b3d_mend(
    const uint8_t *file, size_t file_len, uint8_t *out, size_t out_len, uint8_t *report, size_t report_len);

/* A table row by row, for a terminal that holds a file but not its tables: a row of 42 words is lent, and no table.
 *
 *     uint32_t row[KELOMPURIS_B3D_ROW];
 *     kelompuris_b3d_row_given given = {0};
 *     given.state = kelompuris_b3d_rows_start(file, file_len, 3);
 *     while ((given = kelompuris_b3d_rows_next(file, file_len, given.state, row, KELOMPURIS_B3D_ROW)).rows == 1) {
 *         use(row);
 *     }
 *
 * Of a file that kelompuris_b3d_judge accepts, in either mode, these are the rows of the table that kelompuris_b3d_read gives, in their order.
 * Nothing is judged here: of any other file they are the rows that are found by walking over its chunks, and in table 3 the rows end before a
 * node that stands in 16 others. Judge the file first.
 *
 * Each call is given the file and the state as the last left it. A call that is given others, or a state that no call left, still ends and
 * stays inside what it is lent; it is taken or refused.
 */

/* The words of the widest row, a vertex: they are enough for a row of every table. */
enum {
    KELOMPURIS_B3D_ROW = 42
};

/* What is kept between two calls. Bytes are counted from the start of the file. */
typedef struct {
    uint32_t table;      /* 1 to 10; 0 where no row comes */
    uint32_t item_flags; /* of the open chunk's items: their flags, texture coordinates and size of one */
    uint32_t item_sets;
    uint32_t item_size;
    size_t item_words;   /* how many words each of them has */
    size_t items_at;     /* where the next item stands, and where the items end */
    size_t items_end;
    size_t inner_at;     /* where the next chunk of the open MESH stands, and where they end */
    size_t inner_end;
    size_t at;           /* where the next chunk of all stands */
    size_t nodes;        /* rows so far of tables 3 to 10, of those that rows to come tell of */
    size_t meshes;
    size_t vertices;
    size_t sets;
    size_t triangles;
    size_t weights;
    size_t lists;
    size_t keys;
    size_t depth;            /* nodes that are open, the root first: */
    size_t open_ends[16];    /* the byte behind each, */
    uint32_t open_nodes[16]; /* and its row */
} kelompuris_b3d_row_state;

/* What a call for the next row is answered, and the state for the next call.
 *
 * number 0: place is 0; rows is 1 where a row was written, 0 where none is left. Any other number is a refusal, and rows is 0:
 *
 *    number                                                              place
 *   11  fewer than 42 words are lent                                     42, the words needed
 *   15  a state that cannot be gone on with over this file: a table not  0
 *       1 to 10, a file of more than 16,777,216 bytes, or numbers that
 *       no row of such a file leaves
 *
 * Where no row was written, the state is the one that was given.
 */
typedef struct {
    uint32_t number, place, rows;
    kelompuris_b3d_row_state state;
} kelompuris_b3d_row_given;

/* The state before the first row of a table, 1 to 10, of a file. For any other table, and a file of fewer than 12 or more than 16,777,216 bytes,
 * a state whose numbers are all 0, which every call for a row refuses by 15. The file is not written. */
kelompuris_b3d_row_state kelompuris_b3d_rows_start(const uint8_t *file, size_t file_len, uint32_t table);

/* Writes the next row: answers 0, 11 or 15. row_len is a number of words.
 *
 * A row was written: the row begins with the words of the table's row; the words behind them stay as they were.
 * None was: the whole row stays as it was. The file is not written.
 */
kelompuris_b3d_row_given kelompuris_b3d_rows_next(
    const uint8_t *file, size_t file_len, kelompuris_b3d_row_state state, uint32_t *row, size_t row_len);

/* A file in pieces, for a terminal that is handed a file some bytes at a time and cannot hold it.
 *
 *     kelompuris_b3d_open_chunk row[KELOMPURIS_B3D_OPEN_CHUNKS];
 *     kelompuris_b3d_piece_state state = kelompuris_b3d_pieces_start();
 *     while ((n = next_bytes(bytes, sizeof bytes)) > 0) {
 *         state = kelompuris_b3d_pieces_piece(state, row, KELOMPURIS_B3D_OPEN_CHUNKS, bytes, n).state;
 *     }
 *     answer = kelompuris_b3d_pieces_close(state, row, KELOMPURIS_B3D_OPEN_CHUNKS).answer;
 *
 * The close answers what kelompuris_b3d_judge, in strict mode, says of all bytes joined, however they were cut; a piece may have no bytes. It
 * begins with a fresh state and any row; each later call is given state and row as the last left them. A call that is given others, or a
 * state that no call left, still ends and stays inside what it is lent; it is taken or refused.
 *
 * Two refusals, in this order; they leave the state unchanged, and they and the close change no record:
 *
 *    number                                                              place
 *   11  fewer than 19 records are lent                                   19, the records needed
 *   15  a piece or a close after the close, or a state and a row that    0
 *       cannot be gone on with
 *
 * A record and the state hold no bytes of the file but those of the number that is being read.
 */

/* The records that are enough for every file: a BB3D, 16 nodes, a MESH and a chunk of items. */
enum {
    KELOMPURIS_B3D_OPEN_CHUNKS = 19
};

/* A record: a chunk that is open, around the innermost one. Bytes are counted from the start of the file. */
typedef struct {
    size_t tag;    /* 0 BB3D, 1 TEXS, 2 BRUS, 3 NODE, 4 MESH, 5 VRTS, 6 TRIS, 7 BONE, 8 KEYS, 9 ANIM */
    size_t head;   /* byte of its header */
    size_t end;    /* byte behind it */
    size_t turn;   /* how far the order of the chunks inside it has come */
    size_t spent;  /* 1 where one that may not come again at this turn has come */
    size_t level;  /* levels of nodes that may still be opened inside it */
    size_t first;  /* its first fixed numbers */
    size_t second;
    size_t third;
    size_t count;  /* items so far */
    size_t told;   /* of a node: how many vertices bones may name, as the nodes above it say */
} kelompuris_b3d_open_chunk;

/* What is kept between two calls beside the row. */
typedef struct {
    uint32_t kind;    /* what stands at the present place: 0 a text, 1 a row of numbers, 2 a chunk that is passed over, 3 a refusal, 4 all was read */
    uint32_t number;  /* the refusal */
    size_t size;      /* bytes so far, at most 16,777,217 */
    size_t worth;     /* of BB3D's header: what the bytes of its present number are worth */
    size_t letters;   /* its tag as a number */
    size_t length;    /* its length */
    size_t shut;      /* 1 after the close */
    size_t depth;     /* records of the row in use */
    size_t at;        /* the present place, or that of the refusal */
    size_t fixed;     /* 1 in fixed data, 0 in an item */
    size_t start;     /* where the text or row begins, or the passed-over chunk ends */
    size_t index;     /* of a row: the present number */
    size_t came;      /* how many of its bytes came */
    size_t value;     /* what they are worth */
    size_t first;     /* the first numbers of the row */
    size_t second;
    size_t third;
    kelompuris_b3d_open_chunk inner; /* the innermost chunk */
    size_t version;   /* the file's version */
    size_t slots;     /* n_texs */
    size_t textures;  /* rows so far of tables 1 and 2 */
    size_t brushes;
    size_t own;       /* of the present node: vertices of its mesh, */
    size_t told;      /* how many vertices bones may name, as the nodes above it say, */
    size_t below;     /* and as it says to those below */
    size_t nodes;     /* rows so far of tables 3 to 10 */
    size_t meshes;
    size_t vertices;
    size_t sets;
    size_t triangles;
    size_t weights;
    size_t lists;
    size_t keys;
} kelompuris_b3d_piece_state;

/* What a piece is answered: 0 and 0 where it was taken, else 11 or 15; and the state for the next call. */
typedef struct {
    uint32_t number, place;
    kelompuris_b3d_piece_state state;
} kelompuris_b3d_piece_fed;

/* What the close is answered: 0 to 10, 11 or 15; and the state for the next call. */
typedef struct {
    kelompuris_answer answer;
    kelompuris_b3d_piece_state state;
} kelompuris_b3d_piece_closed;

/* A fresh state. */
kelompuris_b3d_piece_state kelompuris_b3d_pieces_start(void);

/* The next bytes of a file: answers 0, 11 or 15. row_len is a number of records. The bytes are not written. */
kelompuris_b3d_piece_fed kelompuris_b3d_pieces_piece(
    kelompuris_b3d_piece_state state, kelompuris_b3d_open_chunk *row, size_t row_len, const uint8_t *bytes, size_t bytes_len);

/* No byte is left: answers 0 to 10 for all bytes joined, or 11 or 15. Writes no record. */
kelompuris_b3d_piece_closed kelompuris_b3d_pieces_close(
    kelompuris_b3d_piece_state state, const kelompuris_b3d_open_chunk *row, size_t row_len);

/* What a skeleton file of cal3d is answered (binary form, CSF version 1300).
 *
 * number 0: accepted. place is 0; head has the header's numbers (version, number of bones, ambient red, green, blue) and counts the rows of
 * the two tables, 1 bones and 2 children. Any other number is a refusal, and head and counts are 0. They are given in this order, 5 to 7 as the
 * file is read:
 *
 *    number                                                              place
 *    1  file size not 12 to 16,777,216                                   0
 *    2  the magic token is not 'C' 'S' 'F' 0                             0
 *    5  a name, or an entry's numbers up to a name or a list, are cut;   byte where they start;
 *       bytes after the last entry                                       the first of these bytes
 *    6  version not 1300, or a count or length below 0                   byte of the number
 *    7  an id that names no bone (-1 is allowed for a parent)            byte of the number
 *   10  a table would have more than 16,383 rows                         lowest such table, 1 or 2
 *   16  a bone that its parent does not list exactly once, that a bone   first byte of the lowest such bone
 *       not its parent lists, or whose parents never end
 *   11  a lent table is too short for its rows                           lowest such table, 1 or 2
 */
typedef struct {
    uint32_t number, place, head[5], counts[2];
} kelompuris_csf_answer;

/* Judges a skeleton file without tables: answers 0, 1 to 10 or 16. Writes nothing. The counts say how long the tables must be for
 * kelompuris_csf_read. */
kelompuris_csf_answer kelompuris_csf_judge(const uint8_t *file, size_t file_len);

/* Words of a row of bones and of children. A bone's row: name place, name length; translation 3, rotation 4, local translation 3, local
 * rotation 4; parent (0xFFFFFFFF for -1); lighting type; colour 3; number of children; the children's rows before its own. A child's row is
 * the bone's number. Floats are held by their bits. */
enum {
    KELOMPURIS_CSF_BONE_WORDS = 23,
    KELOMPURIS_CSF_CHILD_WORDS = 1
};

/* Reads a skeleton file into two lent tables of 32-bit words: answers 0, 1 to 10, 16 or 11.
 *
 * Accepted: each table begins with its rows, as many as its count says; the words behind them stay as they were.
 * Refused, also by 11: both tables stay as they were.
 * The file is not written. The lengths are in words, not in rows. A name is bytes of the file, of any value; no byte ends it.
 */
kelompuris_csf_answer kelompuris_csf_read(
    const uint8_t *file, size_t file_len,
    uint32_t *bones, size_t bones_len, uint32_t *children, size_t children_len);

/* What a mesh file of cal3d is answered (binary form, CMF version 700).
 *
 * number 0: accepted. place is 0; head has the header's numbers (version, number of submeshes) and counts the rows of the six tables, 1 submeshes,
 * 2 vertices, 3 maps, 4 influences, 5 springs, 6 faces. Any other number is a refusal, and head and counts are 0. They are given in this
 * order, 5 to 7 as the file is read:
 *
 *    number                                                              place
 *    1  file size not 12 to 16,777,216                                   0
 *    2  the magic token is not 'C' 'M' 'F' 0                             0
 *    5  an entry's numbers up to a list are cut;                         byte where they start;
 *       bytes after the last entry                                       the first of these bytes
 *    6  version not 700, or a count below 0                              byte of the number
 *    7  an id that names nothing: a vertex that its submesh has not      byte of the number
 *       (-1 is allowed for a collapse id), a bone below 0 or not below
 *       bone_count
 *   10  a table would have more than 16,383 rows                         lowest such table, 1 to 6
 *   11  a lent table is too short for its rows                           lowest such table, 1 to 6
 */
typedef struct {
    uint32_t number, place, head[2], counts[6];
} kelompuris_cmf_answer;

/* Judges a mesh file for a skeleton of bone_count bones, without tables: answers 0 or 1 to 10. Writes nothing. The counts say how long the
 * tables must be for kelompuris_cmf_read. */
kelompuris_cmf_answer kelompuris_cmf_judge(const uint8_t *file, size_t file_len, uint32_t bone_count);

/* Words of a row of each table. Floats are held by their bits.
 *   submesh    material thread id; numbers of vertices, faces, lod steps, springs, maps; the vertices', springs' and faces' rows before its own
 *   vertex     position 3, normal 3; collapse id (0xFFFFFFFF for -1); face collapse count; number of influences; cloth weight (0 where the
 *              submesh has no springs); the maps' and influences' rows before its own
 *   map        u, v
 *   influence  bone, weight
 *   spring     two vertices, coefficient, idle length
 *   face       three vertices
 * A submesh's number of maps is that of each of its vertices. Vertices are counted from the first of their submesh on. */
enum {
    KELOMPURIS_CMF_SUBMESH_WORDS = 9,
    KELOMPURIS_CMF_VERTEX_WORDS = 12,
    KELOMPURIS_CMF_MAP_WORDS = 2,
    KELOMPURIS_CMF_INFLUENCE_WORDS = 2,
    KELOMPURIS_CMF_SPRING_WORDS = 4,
    KELOMPURIS_CMF_FACE_WORDS = 3
};

/* Reads a mesh file for a skeleton of bone_count bones into six lent tables of 32-bit words: answers 0 or 1 to 11.
 *
 * Accepted: each table begins with its rows, as many as its count says; the words behind them stay as they were.
 * Refused, also by 11: all six tables stay as they were.
 * The file is not written. The lengths are in words, not in rows.
 */
kelompuris_cmf_answer kelompuris_cmf_read(
    const uint8_t *file, size_t file_len, uint32_t bone_count,
    uint32_t *submeshes, size_t submeshes_len, uint32_t *vertices, size_t vertices_len,
    uint32_t *maps, size_t maps_len, uint32_t *influences, size_t influences_len,
    uint32_t *springs, size_t springs_len, uint32_t *faces, size_t faces_len);

#ifdef __cplusplus
}
#endif

#endif
