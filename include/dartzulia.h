/*
 * Dartzulia: group rules and the code of 200GBASE-R and 400GBASE-R lanes, for C and C++.
 *
 * Answers. Every function but dartzulia_version answers DARTZULIA_ACCEPTED, which is 0, or the number of a refusal; where
 * several apply, the lowest. It also writes `place`: what the refusal points at, and 0 where it points at nothing or the
 * call is accepted. A refused call leaves every buffer, and `changed` and `sound`, as they stood.
 *
 * Records. A block record is nine bytes: its kind, then the eight octets of its payload in the order sent, each octet sent
 * lowest bit first. The kind is the first header bit plus two times the second. The first octet of a control block is its
 * type.
 *
 * Groups. A group is 33 bytes: a byte whose lowest bit is bit 0 of the group, its other bits written 0 and not read, then
 * the other 256 bits as 32 octets, lowest bit first.
 *
 * Symbols. A message is 514 symbols of ten bits and a word is 544, two octets each, the low octet first. The first symbol
 * is the first one sent.
 *
 * Threads. Every function may be called from any thread, and from several at once: none keeps a state or allocates.
 *
 * What the caller owes, since no function can check it:
 *   - a pointer is not null, not even where its length is 0, and is valid for the length passed with it;
 *   - no two pointers of a call point to the same object or overlap: buffers, `changed`, `sound` and `place` are all apart;
 *   - nothing else writes to what a call was given, or reads what it writes, until the call returns.
 */
#ifndef DARTZULIA_H
#define DARTZULIA_H

#include <stddef.h>
#include <stdint.h>

/* The version of this header. The library linked with it tells its own: dartzulia_version. */
#define DARTZULIA_VERSION "0.1.0"
#define DARTZULIA_VERSION_MAJOR 0
#define DARTZULIA_VERSION_MINOR 1
#define DARTZULIA_VERSION_PATCH 0
#define DARTZULIA_VERSION_NUMBER \
    (10000 * DARTZULIA_VERSION_MAJOR + 100 * DARTZULIA_VERSION_MINOR + DARTZULIA_VERSION_PATCH)

/* Sizes of buffers, in bytes. */
#define DARTZULIA_RECORD_BYTES 9      /* a block record */
#define DARTZULIA_RECORDS_BYTES 36    /* the four block records of a group */
#define DARTZULIA_GROUP_BYTES 33      /* a group */
#define DARTZULIA_MESSAGE_BYTES 1028  /* a message */
#define DARTZULIA_WORD_BYTES 1088     /* a word */

/* Sizes of words, in symbols. */
#define DARTZULIA_MESSAGE_SYMBOLS 514
#define DARTZULIA_WORD_SYMBOLS 544
#define DARTZULIA_REACH_SYMBOLS 15    /* dartzulia_correct changes at most as many */

/* Older names of the sizes in bytes. */
#define DARTZULIA_RECORDS DARTZULIA_RECORDS_BYTES
#define DARTZULIA_GROUP DARTZULIA_GROUP_BYTES
#define DARTZULIA_MESSAGE DARTZULIA_MESSAGE_BYTES
#define DARTZULIA_WORD DARTZULIA_WORD_BYTES

/* Kinds of a block record, each beside its header bits in the order sent. */
enum dartzulia_kind {
    DARTZULIA_KIND_BAD_ZEROS = 0, /* 00, a bad header */
    DARTZULIA_KIND_CONTROL = 1,   /* 10, a control block */
    DARTZULIA_KIND_DATA = 2,      /* 01, a data block */
    DARTZULIA_KIND_BAD_ONES = 3   /* 11, a bad header */
};

/* What the functions answer, each beside the place that it tells. */
enum dartzulia_answer {
    DARTZULIA_ACCEPTED = 0,         /* 0 */
    DARTZULIA_REFUSED_BYTES = 3,    /* a wrong count of bytes of records or of a group: 0 */
    DARTZULIA_REFUSED_KIND = 4,     /* a block of a kind above 3: the index of the first such block */
    DARTZULIA_REFUSED_LENGTH = 6,   /* a word that is not 544 symbols long, or a message that is not 514: 0 */
    DARTZULIA_REFUSED_SYMBOL = 7,   /* a symbol above 1,023: the index of the first such symbol */
    DARTZULIA_REFUSED_REACH = 8     /* no codeword within reach: 0 */
};

/* What a compiler is told of the pointers of a call: that none is null, and that no two overlap. */
#if defined(__GNUC__) || defined(__clang__)
#define DARTZULIA_NONNULL __attribute__((nonnull))
#else
#define DARTZULIA_NONNULL
#endif

#if !defined(__cplusplus) && defined(__STDC_VERSION__) && __STDC_VERSION__ >= 199901L
#define DARTZULIA_RESTRICT restrict
#define DARTZULIA_INLINE static inline
#elif defined(__GNUC__) || defined(__clang__)
#define DARTZULIA_RESTRICT __restrict__
#define DARTZULIA_INLINE static __inline__
#elif defined(__cplusplus)
#define DARTZULIA_RESTRICT
#define DARTZULIA_INLINE static inline
#else
#define DARTZULIA_RESTRICT
#define DARTZULIA_INLINE static
#endif

#ifdef __cplusplus
extern "C" {
#endif

/* The version of the library, as DARTZULIA_VERSION_NUMBER writes it: 10,000 for each major, 100 for each minor version. */
uint32_t dartzulia_version(void);

/* An answer in words, without its place. The text is never freed. */
DARTZULIA_INLINE const char *dartzulia_answer_text(uint32_t answer)
{
    switch (answer) {
    case DARTZULIA_ACCEPTED:
        return "accepted";
    case DARTZULIA_REFUSED_BYTES:
        return "wrong count of bytes: 9 a block record, 33 a group";
    case DARTZULIA_REFUSED_KIND:
        return "block of a kind above 3";
    case DARTZULIA_REFUSED_LENGTH:
        return "word not of 544 symbols, or message not of 514";
    case DARTZULIA_REFUSED_SYMBOL:
        return "symbol above 1023";
    case DARTZULIA_REFUSED_REACH:
        return "no codeword within reach";
    default:
        return "not an answer of this library";
    }
}

/* Writes the group of four block records. Refused with 3 unless there are 36 bytes of records and 33 of group; 4. */
DARTZULIA_NONNULL uint32_t dartzulia_write_group(const uint8_t *DARTZULIA_RESTRICT records, size_t records_len,
                                                 uint8_t *DARTZULIA_RESTRICT group, size_t group_len,
                                                 size_t *DARTZULIA_RESTRICT place);

/* Reads a group back as four block records. Of the group's first byte only the lowest bit is read. Refused with 3 unless
   there are 33 bytes of group and room for 36 of records. */
DARTZULIA_NONNULL uint32_t dartzulia_read_group(const uint8_t *DARTZULIA_RESTRICT group, size_t group_len,
                                                uint8_t *DARTZULIA_RESTRICT records, size_t records_len,
                                                size_t *DARTZULIA_RESTRICT place);

/* Writes 1 to `sound` if the group of four block records is sound, else 0. It is sound if all four headers are good and
   its first control block, if it has one, is of a type among 1E 78 4B 87 99 AA B4 CC D2 E1 FF (hexadecimal). Every sound
   group that is written comes back as it was when it is read; some others do too. Refused with 3 unless there are 36 bytes
   of records; 4. */
DARTZULIA_NONNULL uint32_t dartzulia_is_sound(const uint8_t *DARTZULIA_RESTRICT records, size_t records_len,
                                              uint8_t *DARTZULIA_RESTRICT sound, size_t *DARTZULIA_RESTRICT place);

/* Writes the one codeword that begins with the message. Refused with 6 unless there are 514 symbols of message and room
   for 544 of word; 7 where a symbol of the message is above 1,023. What stands in the word is not read. */
DARTZULIA_NONNULL uint32_t dartzulia_encode(const uint8_t *DARTZULIA_RESTRICT message, size_t message_len,
                                            uint8_t *DARTZULIA_RESTRICT word, size_t word_len,
                                            size_t *DARTZULIA_RESTRICT place);

/* Leaves the word as the one codeword that differs from it in at most 15 symbols, and writes to `changed` in how many
   symbols they differ. Refused with 6, with 7, and with 8 exactly if there is no such codeword. */
DARTZULIA_NONNULL uint32_t dartzulia_correct(uint8_t *DARTZULIA_RESTRICT word, size_t word_len,
                                             size_t *DARTZULIA_RESTRICT changed, size_t *DARTZULIA_RESTRICT place);

/* The same with a reach of 0: a codeword is accepted with 0 changed symbols, any other word of 544 symbols refused with 8. */
DARTZULIA_NONNULL uint32_t dartzulia_watch(uint8_t *DARTZULIA_RESTRICT word, size_t word_len,
                                           size_t *DARTZULIA_RESTRICT changed, size_t *DARTZULIA_RESTRICT place);

#ifdef __cplusplus
}
#endif

#endif
