/*
 * tikomuci.h: the calls of the Tikomuci library, for C99 and C++.
 *
 * What is lent: each call takes memory as a pointer and a length, and keeps neither. A pointer may be null if its
 * length is 0. Spans that are lent to one call may not overlap, and nothing may change them while the call runs.
 *
 * What is promised: every input gets an answer. A refused call changes no lent memory. Nothing is allocated, nothing is
 * kept between calls, and nothing is thrown, so that any number of threads may call at once, on one file too, as long
 * as no store is lent to two of them.
 *
 * FORMAT.md, which is installed beside the README, says what a file and a sheet are, byte by byte and word by word.
 */
#ifndef TIKOMUCI_H
#define TIKOMUCI_H

#include <stddef.h>
#include <stdint.h>

/* The version of this header and of its archive, as a text and in numbers. */
#define TIKOMUCI_VERSION "0.1.0"
#define TIKOMUCI_VERSION_MAJOR 0
#define TIKOMUCI_VERSION_MINOR 1
#define TIKOMUCI_VERSION_PATCH 0

/* What stands before a call: its answer is to be looked at. A (void) says that it is not, but to gcc in C. */
#if defined(__cplusplus) && __cplusplus >= 201703L
#define TIKOMUCI_CALL [[nodiscard]]
#elif defined(__STDC_VERSION__) && __STDC_VERSION__ >= 202311L
#define TIKOMUCI_CALL [[nodiscard]]
#elif defined(__GNUC__)
#define TIKOMUCI_CALL __attribute__((warn_unused_result))
#else
#define TIKOMUCI_CALL
#endif

/* What stands behind a call: none throws. */
#if defined(__cplusplus) && __cplusplus >= 201103L
#define TIKOMUCI_NOEXCEPT noexcept
#else
#define TIKOMUCI_NOEXCEPT
#endif

/* What stands before the functions of this header's own. */
#if defined(__cplusplus) && __cplusplus >= 201402L
#define TIKOMUCI_INLINE constexpr
#elif defined(__cplusplus)
#define TIKOMUCI_INLINE inline
#else
#define TIKOMUCI_INLINE static inline
#endif

#if defined(__cplusplus) && __cplusplus >= 201103L
#define TIKOMUCI_STATIC_ASSERT(holds, name) static_assert(holds, #name)
#elif defined(__STDC_VERSION__) && __STDC_VERSION__ >= 201112L
#define TIKOMUCI_STATIC_ASSERT(holds, name) _Static_assert(holds, #name)
#else
#define TIKOMUCI_STATIC_ASSERT(holds, name) typedef char tikomuci_##name[(holds) ? 1 : -1]
#endif

#ifdef __cplusplus
extern "C" {
#endif

/* What a call answers. */
typedef struct {
    uint64_t refusal; /* 0 if the call was accepted, else one of the numbers below */
    uint64_t stage;   /* of a refusal; else 0 */
    uint64_t first;   /* of an acceptance, see each call; else 0 */
    uint64_t second;  /* of an acceptance, see each call; else 0 */
} tikomuci_answer;

TIKOMUCI_STATIC_ASSERT(sizeof(tikomuci_answer) == 32, an_answer_has_32_bytes);
TIKOMUCI_STATIC_ASSERT(offsetof(tikomuci_answer, refusal) == 0, the_refusal_stands_at_0);
TIKOMUCI_STATIC_ASSERT(offsetof(tikomuci_answer, stage) == 8, the_stage_stands_at_8);
TIKOMUCI_STATIC_ASSERT(offsetof(tikomuci_answer, first) == 16, the_first_number_stands_at_16);
TIKOMUCI_STATIC_ASSERT(offsetof(tikomuci_answer, second) == 24, the_second_number_stands_at_24);

/*
 * The number of the interface between a host's objects and the archive: what the calls take, and how an answer lies in
 * memory. It becomes another one when an object that was compiled before would misread an answer. tikomuci_abi() is the
 * archive's. There is a call that is named after the number, and an object that includes this header refers to it, so
 * that it does not link with an archive of another number. An object that makes no call, and is linked without the
 * archive, says so: #define TIKOMUCI_NO_ABI_REFERENCE before it includes the header.
 */
#define TIKOMUCI_ABI 1
TIKOMUCI_CALL uint64_t tikomuci_abi(void) TIKOMUCI_NOEXCEPT;
TIKOMUCI_CALL uint64_t tikomuci_abi_1(void) TIKOMUCI_NOEXCEPT;

#if defined(__GNUC__) && !defined(TIKOMUCI_NO_ABI_REFERENCE)
#if defined(__has_attribute)
#if __has_attribute(retain)
#define TIKOMUCI_KEPT __attribute__((used, retain))
#endif
#endif
#ifndef TIKOMUCI_KEPT
#define TIKOMUCI_KEPT __attribute__((used))
#endif
static uint64_t (*const tikomuci_abi_reference)(void) TIKOMUCI_KEPT = tikomuci_abi_1;
#endif

/* The limits: of a file that is read or written, and of a sheet and a pool that are handed to the writer. */
#define TIKOMUCI_MAX_FILE_BYTES UINT64_C(1073741824)
#define TIKOMUCI_MAX_POOL_BYTES UINT64_C(1073741824)
#define TIKOMUCI_MAX_SHEET_WORDS UINT64_C(67108864)

/* The refusal numbers. Each is given by a call of this header; those from 1000 on are the C++ headers' own. */
enum {
    TIKOMUCI_REFUSAL_LIMIT = 1,      /* file, image, pool or sheet over its limit */
    TIKOMUCI_REFUSAL_SHORT = 2,      /* the data ends inside an item */
    TIKOMUCI_REFUSAL_OVERLONG = 3,   /* varint past its tenth byte */
    TIKOMUCI_REFUSAL_MAGIC = 4,      /* wrong magic */
    TIKOMUCI_REFUSAL_PADDING = 5,    /* a padding byte is not 0xCB */
    TIKOMUCI_REFUSAL_BOUNDS = 6,     /* start after end, end outside, or an empty debug attribute */
    TIKOMUCI_REFUSAL_PRODUCER = 7,   /* producer index outside */
    TIKOMUCI_REFUSAL_TYPE_TAG = 8,   /* type tag unknown, or above 255 */
    TIKOMUCI_REFUSAL_DEBUG_TAG = 9,  /* debug tag unknown */
    TIKOMUCI_REFUSAL_HINTS = 10,     /* hints flag */
    TIKOMUCI_REFUSAL_FULL = 11,      /* a store or output is smaller than the result */
    TIKOMUCI_REFUSAL_SHEET = 12,     /* sheet or owner table not well-formed */
    TIKOMUCI_REFUSAL_START = 13,     /* a u32 start does not fit */
    TIKOMUCI_REFUSAL_ABSENT = 14,    /* asked index or section not there; patch outside */
    TIKOMUCI_REFUSAL_NO_SLOT = 18,   /* no slot: the instance has none, and all are taken */
    TIKOMUCI_REFUSAL_OVERLAP = 1000, /* two lent spans overlap, and no call was made */
    TIKOMUCI_REFUSAL_MEMORY = 1001,  /* there is no memory for the tables or the cache */
    TIKOMUCI_REFUSAL_BUSY = 1002     /* the lock of the cache is not free, and no call was made */
};

/* The stages: the limits, the parts of a file in the order in which they are read, and what comes after them. */
enum {
    TIKOMUCI_STAGE_LIMITS = 0,
    TIKOMUCI_STAGE_HEADER = 1,
    TIKOMUCI_STAGE_SECTIONS = 2,
    TIKOMUCI_STAGE_STRING = 3,
    TIKOMUCI_STAGE_PRODUCER = 4,
    TIKOMUCI_STAGE_TYPE = 5,
    TIKOMUCI_STAGE_CONSTANT = 6,
    TIKOMUCI_STAGE_GLOBAL = 7,
    TIKOMUCI_STAGE_FUNC = 8,
    TIKOMUCI_STAGE_DEBUG = 9,
    TIKOMUCI_STAGE_CALL = 10 /* stores, asked indices, and every call that is not reading a container */
};

/* The section ids. */
enum {
    TIKOMUCI_SECTION_STRING = 1,
    TIKOMUCI_SECTION_FUNC = 2,
    TIKOMUCI_SECTION_DEBUG = 3,
    TIKOMUCI_SECTION_CONSTANT = 4,
    TIKOMUCI_SECTION_TYPE = 5,
    TIKOMUCI_SECTION_GLOBAL = 6,
    TIKOMUCI_SECTION_PRODUCER = 7
};

/* The tags of types: sixteen scalars and the token, which have no fields, and seven kinds that have. */
enum {
    TIKOMUCI_TYPE_I1 = 0,
    TIKOMUCI_TYPE_I8 = 1,
    TIKOMUCI_TYPE_I16 = 2,
    TIKOMUCI_TYPE_I32 = 3,
    TIKOMUCI_TYPE_I64 = 4,
    TIKOMUCI_TYPE_F16 = 5,
    TIKOMUCI_TYPE_BF16 = 6,
    TIKOMUCI_TYPE_F32 = 7,
    TIKOMUCI_TYPE_TF32 = 8,
    TIKOMUCI_TYPE_F64 = 9,
    TIKOMUCI_TYPE_F8E4M3FN = 10,
    TIKOMUCI_TYPE_F8E5M2 = 11,
    TIKOMUCI_TYPE_POINTER = 12,
    TIKOMUCI_TYPE_TILE = 13,
    TIKOMUCI_TYPE_TENSOR_VIEW = 14,
    TIKOMUCI_TYPE_PARTITION_VIEW = 15,
    TIKOMUCI_TYPE_FUNC = 16,
    TIKOMUCI_TYPE_TOKEN = 17,
    TIKOMUCI_TYPE_F8E8M0FNU = 18,
    TIKOMUCI_TYPE_F4E2M1FN = 19,
    TIKOMUCI_TYPE_GATHER_SCATTER_VIEW = 20,
    TIKOMUCI_TYPE_STRIDED_VIEW = 21,
    TIKOMUCI_TYPE_I4 = 22,
    TIKOMUCI_TYPE_F8E5M3FNU = 130
};

/* The tags of debug attributes. */
enum {
    TIKOMUCI_DEBUG_UNKNOWN = 0,
    TIKOMUCI_DEBUG_DI_COMPILE_UNIT = 1,
    TIKOMUCI_DEBUG_DI_FILE = 2,
    TIKOMUCI_DEBUG_DI_LEXICAL_BLOCK = 3,
    TIKOMUCI_DEBUG_DI_LOC = 4,
    TIKOMUCI_DEBUG_DI_SUBPROGRAM = 5,
    TIKOMUCI_DEBUG_CALL_SITE = 6
};

/* The flags of a function. A file with the third is refused. */
enum { TIKOMUCI_FUNCTION_PRIVATE = 1, TIKOMUCI_FUNCTION_KERNEL = 2, TIKOMUCI_FUNCTION_HINTS = 4 };

/*
 * Writers: each writes at the place `at` of an output of `len` bytes. `first` is the next place. A result that does not
 * fit is refused (11), and so is a place past the output; the bytes before and after the result stay.
 */

/* One byte. */
TIKOMUCI_CALL tikomuci_answer tikomuci_write_byte(uint8_t *out, size_t len, uint64_t at,
                                                  uint8_t value) TIKOMUCI_NOEXCEPT;

/* The `data_len` bytes of `data`. */
TIKOMUCI_CALL tikomuci_answer tikomuci_write_bytes(uint8_t *out, size_t len, uint64_t at, const uint8_t *data,
                                                   size_t data_len) TIKOMUCI_NOEXCEPT;

/* A varint in its shortest spelling: seven bits a byte, low first, the top bit means more. */
TIKOMUCI_CALL tikomuci_answer tikomuci_write_varint(uint8_t *out, size_t len, uint64_t at,
                                                    uint64_t value) TIKOMUCI_NOEXCEPT;

/* A signed varint: the zigzag of the value as a varint. */
TIKOMUCI_CALL tikomuci_answer tikomuci_write_signed_varint(uint8_t *out, size_t len, uint64_t at,
                                                           int64_t value) TIKOMUCI_NOEXCEPT;

/* Numbers of a fixed width, little-endian. */
TIKOMUCI_CALL tikomuci_answer tikomuci_write_le_u8(uint8_t *out, size_t len, uint64_t at,
                                                   uint8_t value) TIKOMUCI_NOEXCEPT;
TIKOMUCI_CALL tikomuci_answer tikomuci_write_le_u16(uint8_t *out, size_t len, uint64_t at,
                                                    uint16_t value) TIKOMUCI_NOEXCEPT;
TIKOMUCI_CALL tikomuci_answer tikomuci_write_le_u32(uint8_t *out, size_t len, uint64_t at,
                                                    uint32_t value) TIKOMUCI_NOEXCEPT;
TIKOMUCI_CALL tikomuci_answer tikomuci_write_le_u64(uint8_t *out, size_t len, uint64_t at,
                                                    uint64_t value) TIKOMUCI_NOEXCEPT;
TIKOMUCI_CALL tikomuci_answer tikomuci_write_le_i32(uint8_t *out, size_t len, uint64_t at,
                                                    int32_t value) TIKOMUCI_NOEXCEPT;
TIKOMUCI_CALL tikomuci_answer tikomuci_write_le_i64(uint8_t *out, size_t len, uint64_t at,
                                                    int64_t value) TIKOMUCI_NOEXCEPT;

/* Floats by their bits, little-endian. */
TIKOMUCI_CALL tikomuci_answer tikomuci_write_le_f32(uint8_t *out, size_t len, uint64_t at,
                                                    uint32_t bits) TIKOMUCI_NOEXCEPT;
TIKOMUCI_CALL tikomuci_answer tikomuci_write_le_f64(uint8_t *out, size_t len, uint64_t at,
                                                    uint64_t bits) TIKOMUCI_NOEXCEPT;

/* A float attribute of type F64: its 64 bits as a signed varint. */
TIKOMUCI_CALL tikomuci_answer tikomuci_write_ap_float_f64(uint8_t *out, size_t len, uint64_t at,
                                                          uint64_t f64_bits) TIKOMUCI_NOEXCEPT;

/* A float attribute of an 8-bit type: one byte, the code nearest to the f64 that has these bits. */
TIKOMUCI_CALL tikomuci_answer tikomuci_write_ap_float_f8e4m3fn(uint8_t *out, size_t len, uint64_t at,
                                                               uint64_t f64_bits) TIKOMUCI_NOEXCEPT;
TIKOMUCI_CALL tikomuci_answer tikomuci_write_ap_float_f8e5m2(uint8_t *out, size_t len, uint64_t at,
                                                             uint64_t f64_bits) TIKOMUCI_NOEXCEPT;

/* A counted array: the count as a varint, then the numbers, little-endian. */
TIKOMUCI_CALL tikomuci_answer tikomuci_write_le_var_size_i32(uint8_t *out, size_t len, uint64_t at,
                                                             const int32_t *values, size_t count) TIKOMUCI_NOEXCEPT;
TIKOMUCI_CALL tikomuci_answer tikomuci_write_le_var_size_i64(uint8_t *out, size_t len, uint64_t at,
                                                             const int64_t *values, size_t count) TIKOMUCI_NOEXCEPT;

/*
 * Padding bytes (0xCB) up to the next multiple of `alignment`; none if it is below 2. It need not be a power of two.
 * `required_alignment` is the largest alignment asked for so far, 1 at the start; `second` is what it is afterwards.
 */
TIKOMUCI_CALL tikomuci_answer tikomuci_align_to(uint8_t *out, size_t len, uint64_t at, uint64_t required_alignment,
                                                uint64_t alignment) TIKOMUCI_NOEXCEPT;

/* Overwrites the number at `offset`, little-endian. Outside the buffer: 14. `first` is the place after it. */
TIKOMUCI_CALL tikomuci_answer tikomuci_patch_u32(uint8_t *buf, size_t len, uint64_t offset,
                                                 uint32_t value) TIKOMUCI_NOEXCEPT;
TIKOMUCI_CALL tikomuci_answer tikomuci_patch_u64(uint8_t *buf, size_t len, uint64_t offset,
                                                 uint64_t value) TIKOMUCI_NOEXCEPT;

/*
 * Readers: each reads at the place `at` of `len` bytes. `first` is the value, a signed one as its bit pattern in its
 * width; `second` is the next place. 2 if the data ends first, which a place past the data does.
 */

/* One byte. */
TIKOMUCI_CALL tikomuci_answer tikomuci_read_byte(const uint8_t *data, size_t len, uint64_t at) TIKOMUCI_NOEXCEPT;

/* The next `n` bytes: `first` is the offset of the first of them. */
TIKOMUCI_CALL tikomuci_answer tikomuci_read_bytes(const uint8_t *data, size_t len, uint64_t at,
                                                  uint64_t n) TIKOMUCI_NOEXCEPT;

/* A varint of at most ten bytes, not only the shortest spelling. A tenth byte with the top bit is refused (3). */
TIKOMUCI_CALL tikomuci_answer tikomuci_read_varint(const uint8_t *data, size_t len, uint64_t at) TIKOMUCI_NOEXCEPT;

/* A signed varint: `first` has the 64 bits of the value. */
TIKOMUCI_CALL tikomuci_answer tikomuci_read_signed_varint(const uint8_t *data, size_t len,
                                                          uint64_t at) TIKOMUCI_NOEXCEPT;

/* Numbers of a fixed width, little-endian. */
TIKOMUCI_CALL tikomuci_answer tikomuci_read_le_u8(const uint8_t *data, size_t len, uint64_t at) TIKOMUCI_NOEXCEPT;
TIKOMUCI_CALL tikomuci_answer tikomuci_read_le_u16(const uint8_t *data, size_t len, uint64_t at) TIKOMUCI_NOEXCEPT;
TIKOMUCI_CALL tikomuci_answer tikomuci_read_le_u32(const uint8_t *data, size_t len, uint64_t at) TIKOMUCI_NOEXCEPT;
TIKOMUCI_CALL tikomuci_answer tikomuci_read_le_u64(const uint8_t *data, size_t len, uint64_t at) TIKOMUCI_NOEXCEPT;
TIKOMUCI_CALL tikomuci_answer tikomuci_read_le_i32(const uint8_t *data, size_t len, uint64_t at) TIKOMUCI_NOEXCEPT;
TIKOMUCI_CALL tikomuci_answer tikomuci_read_le_i64(const uint8_t *data, size_t len, uint64_t at) TIKOMUCI_NOEXCEPT;

/*
 * Padding bytes up to the next multiple of `alignment`: `first` is how many. A byte that is not 0xCB is refused (5). At
 * the end of the data there may be none to pass over; past it the call is refused (2) even then.
 */
TIKOMUCI_CALL tikomuci_answer tikomuci_skip_padding(const uint8_t *data, size_t len, uint64_t at,
                                                    uint64_t alignment) TIKOMUCI_NOEXCEPT;

/* A counted array: `first` is the count, and the numbers are the count times 4 or 8 bytes before `second`. */
TIKOMUCI_CALL tikomuci_answer tikomuci_read_le_var_size_i32(const uint8_t *data, size_t len,
                                                            uint64_t at) TIKOMUCI_NOEXCEPT;
TIKOMUCI_CALL tikomuci_answer tikomuci_read_le_var_size_i64(const uint8_t *data, size_t len,
                                                            uint64_t at) TIKOMUCI_NOEXCEPT;

/* How many bytes stand at `at` and after it; 0 past the end. */
TIKOMUCI_CALL uint64_t tikomuci_remaining(const uint8_t *data, size_t len, uint64_t at) TIKOMUCI_NOEXCEPT;

/* The 8-bit code nearest to the f64 that has these bits, ties to the even code. */
TIKOMUCI_CALL uint8_t tikomuci_f8e4m3fn(uint64_t f64_bits) TIKOMUCI_NOEXCEPT;
TIKOMUCI_CALL uint8_t tikomuci_f8e5m2(uint64_t f64_bits) TIKOMUCI_NOEXCEPT;

/*
 * Whole files of Tile IR bytecode.
 *
 * The tables of a file are read into a sheet and a pool, and written from them. The sheet is a list of 64-bit words,
 * and the pool has the bytes of all strings, then of all constants, then of all bodies, one after the other. The words:
 *
 *     0, 1, 2     the major and the minor version, and the version's tag
 *     3           0, or the number of the string that names the producer, and 1
 *     4           how many bytes the pool has
 *     5 to 18     the start word and the row count of seven tables, in the order in which their rows follow
 *     from 19     the rows, without gaps:
 *
 *     string      its length
 *     type        how many words follow, the tag, the fields of the tag
 *     constant    its length
 *     global      name, type, constant, alignment, visibility (a byte), whether it is constant (0 or 1)
 *     function    name, signature, flags, location, the length of its body
 *     attribute   the tag, and six fields: those that the tag does not have are 0
 *     list        how many ids, the ids
 *
 * The fields of a type. `n..` is a count and as many words; an attribute or padding is there if bit 0 of the
 * flags is set, and else 0.
 *
 *     TIKOMUCI_TYPE_POINTER              flags, element, attribute
 *     TIKOMUCI_TYPE_TILE                 element, n.. shape (i64)
 *     TIKOMUCI_TYPE_TENSOR_VIEW          flags, element, n.. shape (i64), n.. strides (i64), attribute
 *     TIKOMUCI_TYPE_PARTITION_VIEW       flags, n.. shape (i32), view, n.. map (i32), padding
 *     TIKOMUCI_TYPE_GATHER_SCATTER_VIEW  flags, n.. shape (i32), view, sparse dimension, padding
 *     TIKOMUCI_TYPE_STRIDED_VIEW         flags, n.. shape (i32), n.. strides (i32), view, n.. map (i32), padding
 *     TIKOMUCI_TYPE_FUNC                 n.. inputs, n.. results
 *     all others                         none
 *
 * The fields of an attribute:
 *
 *     TIKOMUCI_DEBUG_DI_COMPILE_UNIT     file
 *     TIKOMUCI_DEBUG_DI_FILE             name, directory
 *     TIKOMUCI_DEBUG_DI_LEXICAL_BLOCK    scope, file, line, column
 *     TIKOMUCI_DEBUG_DI_LOC              scope, file, line, column
 *     TIKOMUCI_DEBUG_DI_SUBPROGRAM       file, line, name, linkage name, compile unit, scope line
 *     TIKOMUCI_DEBUG_CALL_SITE           callee, caller
 *     TIKOMUCI_DEBUG_UNKNOWN             none
 *
 * A signed number stands as its bit pattern in its width: the i32 -1 is 0xFFFFFFFF. What a version does not have on the
 * wire is 0: the flags of pointers and tensor views below 13.4, visibility and the constant flag below 13.3. Numbers of
 * rows are kept as the file has them, and may be those of no row; only the producer's is tested.
 *
 * Measuring, reading and the views of a row judge the whole file each time, so that a host that wants many rows reads
 * the tables once; a view of a section costs a step for each section of the file. The first refusal in reading order
 * counts: 1 at stage 0; 2 and 4 at stage 1; 2, 3 and 5 at stage 2; 2, 3, 5 and 6 at stages 3 and 6; 2, 3 and 7 at stage
 * 4; 2, 3, 5, 6 and 8 at stage 5; 2 and 3 at stage 7; 2, 3 and 10 at stage 8; 2, 3, 5, 6 and 9 at stage 9.
 */

/* The words before the first row. */
#define TIKOMUCI_CONTENTS_WORDS 19

/* How large the stores have to be: `first` is the sheet's words (of 8 bytes each), `second` the pool's bytes. */
TIKOMUCI_CALL tikomuci_answer tikomuci_measure(const uint8_t *file, size_t file_len) TIKOMUCI_NOEXCEPT;

/*
 * The tables of a file, with the answer of tikomuci_measure. The sheet's store is lent as bytes and counts its whole
 * words; the words are little-endian, and the store need not be aligned. A store that is smaller than the result is 11
 * at stage 10, after all refusals of the file. A refused call changes neither store, and an accepted one changes no
 * byte behind the result.
 */
TIKOMUCI_CALL tikomuci_answer tikomuci_read(const uint8_t *file, size_t file_len, uint8_t *sheet, size_t sheet_len,
                                            uint8_t *pool, size_t pool_len) TIKOMUCI_NOEXCEPT;

/*
 * The string, the constant or the body of the function that has this number, counted from 0: `first` is its offset in
 * the file, `second` its length. A number that no row has is 14 at stage 10, after all refusals of the file.
 */
TIKOMUCI_CALL tikomuci_answer tikomuci_string(const uint8_t *file, size_t file_len, uint64_t index) TIKOMUCI_NOEXCEPT;
TIKOMUCI_CALL tikomuci_answer tikomuci_constant(const uint8_t *file, size_t file_len, uint64_t index) TIKOMUCI_NOEXCEPT;
TIKOMUCI_CALL tikomuci_answer tikomuci_body(const uint8_t *file, size_t file_len, uint64_t index) TIKOMUCI_NOEXCEPT;

/*
 * The whole payload that counts for a section id, which is the last one with that id: `first` is its offset in the
 * file, `second` its length. Only the header and the walk over the sections are judged: 1 at stage 0, 2 and 4 at stage
 * 1, 2, 3 and 5 at stage 2. An id that is not there is 14 at stage 10.
 */
TIKOMUCI_CALL tikomuci_answer tikomuci_section(const uint8_t *file, size_t file_len, uint64_t id) TIKOMUCI_NOEXCEPT;

/*
 * Writing a file, the image of a sheet and a pool, and saying how large it is judge the whole sheet. It is lent as
 * bytes; the words are little-endian, and it need not be aligned. All refusals are at stage 10, and the first in this
 * order counts: 1 for a sheet over 2^26 words or a pool over 2^30 bytes; 12 for a sheet that is not well-formed, or not
 * whole words, or whose word 4 is not the pool's length; 13; 1 for an image over 2^30 bytes; 11.
 */

/*
 * How large the output has to be: `first` is the image's bytes, `second` is 0. No pool is lent: word 4 is compared with
 * the sum of the row lengths only.
 */
TIKOMUCI_CALL tikomuci_answer tikomuci_image(const uint8_t *sheet, size_t sheet_len) TIKOMUCI_NOEXCEPT;

/*
 * The image of a sheet and a pool. Lent a pool of as many bytes as word 4 says, within its limit, and an output with
 * room, it answers what tikomuci_image answers; a pool of another length is 12, and one over its limit 1. A refused
 * call changes nothing, and an accepted one changes no byte of the output behind the image.
 */
TIKOMUCI_CALL tikomuci_answer tikomuci_write(const uint8_t *sheet, size_t sheet_len, const uint8_t *pool,
                                             size_t pool_len, uint8_t *out, size_t out_len) TIKOMUCI_NOEXCEPT;

/*
 * The text of a type, as the Rust's dump of a file has it: `tile<2x4xf32>`, `(f32, ?) -> ()`; FORMAT.md has all kinds.
 * Rows are counted from 0, and a number in a row that is no earlier row's is put as `?`. `first` is the length of the
 * text in bytes, `second` is 0; the text stands at the output's begin, without a zero behind it, and the bytes behind
 * it stay. The first refusal in this order counts, always at stage 10: 12 for a sheet that is not whole words or not
 * well-formed, where no pool is lent; 14 for a number that no type has; 11 for a text that has no room. A refused call
 * changes nothing. A sheet may have any length.
 *
 * What it costs: the whole sheet is judged, and each name that is put is found by a walk over the rows before it. A
 * text of at most 256 bytes is put into an array of the call's own and copied; a longer one is measured before it is
 * put, so that its names are looked for three times. Putting and measuring stop as soon as the room is used up, so that
 * a call is bounded by the output and the rows, and not by the text: of thirteen function types that each name the one
 * before eight times, the last has a text of more than 2^39 bytes, and is refused with 11 at once.
 *
 * What it takes of the stack: for each type inside another it calls itself, and puts a byte or more before, so that it
 * never goes deeper than the output has bytes, or that array. TIKOMUCI_TYPE_TEXT_STACK is how many bytes of stack
 * suffice for an output of `out_len` bytes, whatever the sheet says. A level takes 480 bytes on x86-64 and 416 on
 * aarch64; the base has 16 KiB for all else, a thread's own data among it, and a level for each byte of the array.
 */
#define TIKOMUCI_TYPE_TEXT_STACK_LEVEL 480
#define TIKOMUCI_TYPE_TEXT_STACK_BASE (16384 + 256 * TIKOMUCI_TYPE_TEXT_STACK_LEVEL)
#define TIKOMUCI_TYPE_TEXT_STACK(out_len) \
    (TIKOMUCI_TYPE_TEXT_STACK_BASE + TIKOMUCI_TYPE_TEXT_STACK_LEVEL * (size_t)(out_len))
TIKOMUCI_CALL tikomuci_answer tikomuci_type_text(const uint8_t *sheet, size_t sheet_len, uint64_t row, uint8_t *out,
                                                 size_t out_len) TIKOMUCI_NOEXCEPT;

/*
 * The shared profile cache: a file for each instance, in slots of one lent buffer, with a lent owner table beside it.
 * The calls tikomuci_cache_* are for 16 slots, and tikomuci_session_* are the same three for the 64 of a session.
 *
 * The slots are equal parts of the buffer, one behind the other. The owner table has a row of three words for each of
 * them. The words are little-endian, and neither store need be aligned. All bytes 0 is an empty cache.
 *
 *     0   the mark: 0 if the slot is free, and anything else if it is taken; a put makes it 1
 *     1   the number of the instance that holds the slot; any number will do
 *     2   the length of the file that stands at the slot's begin
 *
 * Every call judges both stores first: 12 at stage 10 for a buffer that is not a multiple of the number of slots, an
 * owner table of another number of rows, an instance in two taken rows, or a taken row with a length above the slot's.
 * What stands behind the mark of a free row does not count.
 *
 * Nothing is kept but what the stores hold. As long as a host changes them only by these calls, from an empty cache on,
 * an instance fetches from what it put last, whatever others put, dropped or were refused between. Many threads may
 * fetch at once; a put or a drop has to be alone with the stores (ProfileCache of tikomuci_cache.hpp has a lock).
 */

/* The numbers of slots, and the bytes of a row of the owner table. */
#define TIKOMUCI_CACHE_SLOTS 16
#define TIKOMUCI_SESSION_SLOTS 64
#define TIKOMUCI_OWNER_BYTES 24

/*
 * Puts a file for an instance: `first` is its slot, `second` is 0. That is the slot that the instance holds already,
 * whose file is replaced, or else the lowest free one. The file's bytes stand at the slot's begin, the slot's other
 * bytes become 0, and its row is written anew; other slots and rows stay. The first refusal in this order counts: 12;
 * those of the file, as tikomuci_measure answers them; 11 at stage 10 for a file that is larger than a slot; 18 at
 * stage 10 if the instance holds no slot and all are taken. A refused call changes neither store.
 */
TIKOMUCI_CALL tikomuci_answer tikomuci_cache_put(uint8_t *cache, size_t cache_len, uint8_t *owners, size_t owners_len,
                                                 uint64_t instance, const uint8_t *file,
                                                 size_t file_len) TIKOMUCI_NOEXCEPT;
TIKOMUCI_CALL tikomuci_answer tikomuci_session_put(uint8_t *cache, size_t cache_len, uint8_t *owners, size_t owners_len,
                                                   uint64_t instance, const uint8_t *file,
                                                   size_t file_len) TIKOMUCI_NOEXCEPT;

/*
 * The constant with this number, counted from 0, of the file that an instance put: `first` is its offset in the buffer,
 * `second` its length. Exactly the length that the row has is judged, as tikomuci_constant judges a file. The first
 * refusal in this order counts: 12; 14 at stage 10 if the instance holds no slot; those of the file, if somebody
 * damaged it; 14 at stage 10 for a number that no row has.
 */
TIKOMUCI_CALL tikomuci_answer tikomuci_cache_fetch(const uint8_t *cache, size_t cache_len, const uint8_t *owners,
                                                   size_t owners_len, uint64_t instance,
                                                   uint64_t index) TIKOMUCI_NOEXCEPT;
TIKOMUCI_CALL tikomuci_answer tikomuci_session_fetch(const uint8_t *cache, size_t cache_len, const uint8_t *owners,
                                                     size_t owners_len, uint64_t instance,
                                                     uint64_t index) TIKOMUCI_NOEXCEPT;

/*
 * Frees the slot of an instance: `first` is the slot, `second` is 0. All bytes of the slot and of its row become 0;
 * other slots and rows stay. The first refusal in this order counts: 12; 14 at stage 10 if the instance holds no slot.
 * A refused call changes neither store.
 */
TIKOMUCI_CALL tikomuci_answer tikomuci_cache_drop(uint8_t *cache, size_t cache_len, uint8_t *owners, size_t owners_len,
                                                  uint64_t instance) TIKOMUCI_NOEXCEPT;
TIKOMUCI_CALL tikomuci_answer tikomuci_session_drop(uint8_t *cache, size_t cache_len, uint8_t *owners,
                                                    size_t owners_len, uint64_t instance) TIKOMUCI_NOEXCEPT;

#ifdef __cplusplus
}
#endif

/* A name for programs and messages, and a line for people, of a refusal and of a stage; any number has one. */

TIKOMUCI_INLINE const char *tikomuci_refusal_name(uint64_t refusal) TIKOMUCI_NOEXCEPT {
    const char *const names[] = {"accepted", "limit",     "short", "overlong", "magic", "padding", "bounds", "producer",
                                 "type-tag", "debug-tag", "hints", "full",     "sheet", "start",   "absent"};
    if (refusal == TIKOMUCI_REFUSAL_NO_SLOT) {
        return "no-slot";
    }
    if (refusal == TIKOMUCI_REFUSAL_OVERLAP) {
        return "overlap";
    }
    if (refusal == TIKOMUCI_REFUSAL_MEMORY) {
        return "memory";
    }
    if (refusal == TIKOMUCI_REFUSAL_BUSY) {
        return "busy";
    }
    return refusal < sizeof names / sizeof names[0] ? names[refusal] : "unknown";
}

TIKOMUCI_INLINE const char *tikomuci_refusal_text(uint64_t refusal) TIKOMUCI_NOEXCEPT {
    const char *const texts[] = {
        "the call was accepted",
        "a file, image, pool or sheet is over its limit",
        "the data ends inside an item",
        "a varint goes on past its tenth byte",
        "the first eight bytes are not those of Tile IR bytecode",
        "a padding byte is not CB",
        "an entry starts after its end, ends outside its data, or is an empty debug attribute",
        "the producer is no string of the file",
        "a type has a tag that is not known",
        "a debug attribute has a tag that is not known",
        "a function has optimization hints",
        "a store or output is smaller than the result",
        "the sheet or the owner table is not well-formed",
        "a start does not fit 32 bits",
        "what was asked for is not there",
    };
    if (refusal == TIKOMUCI_REFUSAL_NO_SLOT) {
        return "all slots are taken by others";
    }
    if (refusal == TIKOMUCI_REFUSAL_OVERLAP) {
        return "two lent spans overlap";
    }
    if (refusal == TIKOMUCI_REFUSAL_MEMORY) {
        return "there is no memory for the tables or the cache";
    }
    if (refusal == TIKOMUCI_REFUSAL_BUSY) {
        return "the lock of the cache is not free";
    }
    return refusal < sizeof texts / sizeof texts[0] ? texts[refusal] : "no call answers this number";
}

TIKOMUCI_INLINE const char *tikomuci_stage_name(uint64_t stage) TIKOMUCI_NOEXCEPT {
    const char *const names[] = {"limits",   "header", "sections", "string", "producer", "type",
                                 "constant", "global", "func",     "debug",  "call"};
    return stage < sizeof names / sizeof names[0] ? names[stage] : "unknown";
}

TIKOMUCI_INLINE const char *tikomuci_stage_text(uint64_t stage) TIKOMUCI_NOEXCEPT {
    const char *const texts[] = {
        "before the first byte was read",
        "in the magic or the version",
        "on the way from section to section",
        "in the String section",
        "in the Producer section",
        "in the Type section",
        "in the Constant section",
        "in the Global section",
        "in the Func section",
        "in the Debug section",
        "behind the file, or where no file is read",
    };
    return stage < sizeof texts / sizeof texts[0] ? texts[stage] : "no call answers this number";
}

#endif
