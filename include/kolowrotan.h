/*
 * Kolowrotan: the header table of a link that speaks the February 2017 QPACK draft, encoder and decoder.
 *
 * An encoder turns field lists into header blocks, a decoder turns header blocks into field lists. Each has a table of entries that
 * blocks refer to by index. The encoder fills the table of the decoder by management bytes; the decoder gives entries back by
 * acknowledgement bytes. Every call below is proved to do what docs/CLAIMS.md says, for every input, refusals too.
 *
 * kolowrotan_list.h puts field lists together and takes them apart. docs/HOST.md is the guide; docs/STATE.md has the state memory byte
 * by byte.
 *
 * WHAT THE HOST OWES
 *
 *   - Every pointer is one to as many bytes as the length beside it says. It is never null: for length 0 give any other pointer.
 *   - The buffers of one call do not overlap.
 *   - Nobody else reads or writes them while the call runs, and nobody writes the memory of a table between calls. Calls on
 *     different memories may run at the same time.
 *   - Bytes arrive unchanged: a flipped bit of a block can name another machine's entry, and is answered 0. Where the transport has no
 *     checksum, the host puts one on all that is sent.
 *   - Memory that is kept in a file or a snapshot and is not byte for byte what the last call left is another table: after a restore both
 *     ends start anew.
 *   - What was written for one table reaches no other. An end that starts anew has a new table: blocks and bytes of the one before are
 *     never given to it, and those of a table that this end has not started yet are never given to the one that it has. No byte is read
 *     twice, and no block is offered again once it was answered 0. The host keeps tables apart by a number on all that is sent, or drains
 *     the link before a start (docs/HOST.md, "Starting anew"). No call can tell a late block of another table: it is decoded to the
 *     fields of another machine, and answered 0.
 *   - After a start that is refused, after a read or an acknowledge that is refused with another answer than 2, and after a block that
 *     the decoder refuses with 2, 3, 5, 13, 18 or 19, nothing more is given to either end before both have started anew.
 *
 * WHAT EVERY CALL KEEPS
 *
 *   - No call keeps a pointer, allocates, waits, reads a clock, or prints. Every call returns.
 *   - An answer other than KOLOWROTAN_DONE leaves the memory and every buffer as they were.
 *   - On KOLOWROTAN_DONE only the told count of output bytes is written, from the front of the output.
 *   - The first test that fails gives the answer. The comment at each call has its answers in the order of the tests.
 *   - A told number that is not named at the call is 0.
 */
#ifndef KOLOWROTAN_H
#define KOLOWROTAN_H

#include <stddef.h>
#include <stdint.h>

#ifdef __cplusplus
extern "C" {
#endif

/* The version of the library that this header belongs to: major, minor, patch. */
#define KOLOWROTAN_VERSION "1.6.0"

/* The answers. */
enum kolowrotan_answer {
    KOLOWROTAN_DONE = 0,
    KOLOWROTAN_WAITS = 1,              /* a block names a vacant index, which is told: keep the block and offer it again */
    KOLOWROTAN_TRUNCATED = 2,          /* the bytes end inside an instruction or representation; no management bytes at all */
    KOLOWROTAN_TOO_LARGE = 3,          /* an integer is too large or too long */
    KOLOWROTAN_PACKED = 4,             /* no call gives this: strings whose H bit is set are read */
    KOLOWROTAN_NOT_ALLOWED = 5,        /* an index or instruction that is not allowed here; an index outside 62 to 2^27 - 1 */
    KOLOWROTAN_HELD = 6,               /* an insert at an index that is held */
    KOLOWROTAN_OVER_LIMIT = 7,         /* the limit is passed; a start limit above 4,096 */
    KOLOWROTAN_VACANT = 8,             /* a vacant index: an insert's name, a delete, an enquiry */
    KOLOWROTAN_UNDER_DELETION = 9,     /* a delete of an entry under deletion */
    KOLOWROTAN_NOT_UNDER_DELETION = 10, /* an acknowledgement or an enquiry of an entry that is not under deletion */
    KOLOWROTAN_OUT_OF_TURN = 11,       /* a stream above 4,095, a part that is neither 0 nor 1, or one that is finished or closed */
    KOLOWROTAN_NO_ROOM = 12,           /* the lent output or memory is too small */
    KOLOWROTAN_TOO_LONG = 13,          /* a string or block is too long */
    KOLOWROTAN_BAD_STREAM_LIST = 14,   /* a bad stream list */
    KOLOWROTAN_FULL = 15,              /* no call gives this: an insert that finds all 128 places held passes the limit */
    KOLOWROTAN_BAD_FIELD_LIST = 16,    /* the field list is not in its form */
    KOLOWROTAN_NO_STATE = 17,          /* the memory forms no state of this end */
    KOLOWROTAN_BAD_PACKING = 18,       /* a packed string holds the end mark, or other padding than at most seven ones */
    KOLOWROTAN_PADDED = 19             /* an integer takes more bytes than it needs: its last group is zero and not its only one */
};

/* One more than the largest answer: as many counters as a host needs that counts answers. */
#define KOLOWROTAN_ANSWERS 20

/* A result is answer + 2^8 * first + 2^40 * second: these take it apart. */
#define KOLOWROTAN_ANSWER(result) ((int)((uint64_t)(result) & 0xFFu))
#define KOLOWROTAN_FIRST(result) ((uint32_t)(((uint64_t)(result) >> 8) & 0xFFFFFFFFu))
#define KOLOWROTAN_SECOND(result) ((uint32_t)((uint64_t)(result) >> 40))

/* The bytes that each table takes, at any alignment. Longer memory is accepted and its rest is never touched. */
#define KOLOWROTAN_DECODER_LENGTH 35912
#define KOLOWROTAN_ENCODER_LENGTH 16960

/* The same as functions: a host may compare them with the header that it was compiled with. They do not tell another layout: state memory with an entry that
   a version up to 1.5.0 left is answered 17 by this one, so a host that keeps it over an update starts both ends anew (docs/HOST.md). */
size_t kolowrotan_decoder_length(void);
size_t kolowrotan_encoder_length(void);

/* The largest of each. */
#define KOLOWROTAN_LIMIT 4096         /* limit of a table */
#define KOLOWROTAN_STREAMS 4096       /* message streams are numbered from 0 to one below this */
#define KOLOWROTAN_ENTRIES 128        /* entries of a table */
#define KOLOWROTAN_NAME_LENGTH 255    /* of names, values and entries the bytes count as they are unpacked */
#define KOLOWROTAN_VALUE_LENGTH 2047
#define KOLOWROTAN_BLOCK_LENGTH 16384

/* Room that is enough for what an encoder's insert or delete, or a collect, writes. */
#define KOLOWROTAN_INSERT_ROOM 2310
#define KOLOWROTAN_DELETE_ROOM 10
#define KOLOWROTAN_COLLECT_ROOM 5

/*
 * Room that is enough for the block that an encoder writes of a field list: its bytes and two for each field, and never more than a block
 * may have. The second needs no count of the fields: each takes three bytes of the list at least. They are for the size of a buffer; what
 * a call is lent is always told by the buffer's own size. With constants both can be the size of an array, but of the empty list, whose
 * block is empty, they give 0. Nothing overflows. They evaluate what they are given more than once: kolowrotan_list.h has both as
 * functions. (A decoder writes as many bytes as the list that was put in, which a block does not tell.)
 */
#define KOLOWROTAN_BLOCK_ROOM(list_length, fields) \
    ((size_t)(fields) >= KOLOWROTAN_BLOCK_LENGTH / 2 || (size_t)(list_length) >= KOLOWROTAN_BLOCK_LENGTH - 2 * (size_t)(fields) \
         ? (size_t)KOLOWROTAN_BLOCK_LENGTH \
         : (size_t)(list_length) + 2 * (size_t)(fields))
#define KOLOWROTAN_BLOCK_ROOM_OF(list_length) KOLOWROTAN_BLOCK_ROOM(list_length, (size_t)(list_length) / 3)

/* A buffer of so many bytes holds every management instruction that can be read: to so many bytes a read is never answered 2. */
#define KOLOWROTAN_READ_ROOM 9228

/* The parts of a message: any number of header blocks, those of interim answers before the final one, and at most one trailer block. */
#define KOLOWROTAN_NONTRAILER 0
#define KOLOWROTAN_TRAILER 1

/*
 * FIELD LISTS
 *
 * Fields stand one after another: a byte 0 or 1 (1: never store), name length, name, value length, value. A length is in groups of
 * seven bits, the low group first, the top bit set where another follows, in the shortest form: below 128 one byte, else two. The
 * empty list is no bytes. A name has at most 255 bytes, a value at most 2,047. After decoding, a field has 1 where its literal has
 * the N bit, and 0 else.
 */

/* ---- decoder ---- */

/*
 * Makes a fresh decoder's table with this limit in the memory, whatever stood there. Nothing that was written for a table before it may be
 * given to it, neither blocks nor management bytes, and nothing that the encoder writes for it may be given to the table before it:
 * docs/HOST.md, "Starting anew". A refused start leaves the old table in the memory; do not go on with that.
 * Answers: 7 limit above 4,096; 12 memory shorter than KOLOWROTAN_DECODER_LENGTH; 0.
 */
uint64_t kolowrotan_decoder_start(uint8_t *memory, size_t memory_length, uint64_t limit);

/*
 * Reads one instruction, an insert or a delete, from the front of the management bytes. First told: the bytes that it took. Call it
 * again with the rest. On 2 keep the bytes and call again when more have come.
 * Answers: 17; the first of 2, 3, 5, 13, 14, 18, 19 met in the bytes, left to right, at the end of an integer 3, 19, then 5, 13 or 14; an
 * insert 8, 6, 7; a delete 8, 9; 0.
 */
uint64_t kolowrotan_decoder_read(uint8_t *memory, size_t memory_length, const uint8_t *bytes, size_t bytes_length);

/*
 * Decodes a header block of a part of a stream: its field list is written to the output. First told: the bytes written, on 0 alone. On 1
 * it is the index that the block waits for, the first in byte order, and no length: the output still holds what stood there before, perhaps
 * another block's fields. Keep the block and offer it again later. kolowrotan_fields of kolowrotan_list.h takes the result and gives no
 * field unless it is 0.
 * A non-trailer block finishes nothing, since a message may have several: one that is offered again after 0 is decoded again. A trailer
 * block answered 0 finishes both parts of its stream; with another answer it finishes none. Offer it only when every non-trailer block
 * ever written on the stream was answered 0; there need be none.
 * Answers: 17; 11 a stream above 4,095, a part that is neither 0 nor 1, or a part that is finished; 13 a block above 16,384 bytes; the
 * first of 2, 3, 5, 13, 18, 19 met in the bytes, left to right, at the end of an integer 3, 19, then 5 or 13; 1; 12; 0.
 */
uint64_t kolowrotan_decoder_block(uint8_t *memory, size_t memory_length, uint64_t stream, uint64_t part,
                                  const uint8_t *bytes, size_t bytes_length, uint8_t *output, size_t output_length);

/*
 * The non-trailer part of the stream is over: it is finished, and the trailer part stays as it was. Saying it again is fine, also when
 * the stream has ended. Say it only when every non-trailer block ever written on the stream was answered 0, or the stream was reset, and
 * offer no non-trailer block of it afterwards. Until it is said, or a trailer block is answered 0, or the stream is told as ended, no
 * entry is freed whose deletion names this part.
 * Answers: 17; 11 a stream above 4,095; 0.
 */
uint64_t kolowrotan_decoder_over(uint8_t *memory, size_t memory_length, uint64_t stream);

/*
 * The stream has ended or was reset: both of its parts are finished, whatever was said of them before. Saying it again is fine. Say it
 * only when every block ever written on the stream was answered 0, or the stream was reset, and offer no block of it afterwards.
 * Answers: 17; 11 a stream above 4,095; 0.
 */
uint64_t kolowrotan_decoder_ended(uint8_t *memory, size_t memory_length, uint64_t stream);

/*
 * Of the entries under deletion whose delete names no unfinished part, frees the one whose delete was read first, and writes its
 * acknowledgement, which goes to the encoder. First told: the bytes written, 0 where no entry is ready. Call it until it writes 0
 * bytes. An entry that is ready is acknowledged within 128 collects answered 0, whatever is called between them but a start. With
 * less room than that one's acknowledgement takes the answer is 12, even if another's would fit: lend KOLOWROTAN_COLLECT_ROOM.
 * Answers: 17; 12; 0.
 */
uint64_t kolowrotan_decoder_collect(uint8_t *memory, size_t memory_length, uint8_t *output, size_t output_length);

/*
 * What holds an entry under deletion. First told: how many parts that its deletion names are unfinished; second told: the lowest
 * stream having one, 4,096 if none. The memory is only read.
 * Answers: 17; 5; 8; 10; 0.
 */
uint64_t kolowrotan_decoder_hold(const uint8_t *memory, size_t memory_length, uint64_t index);

/* ---- encoder ---- */

/*
 * Makes a fresh encoder's table with this limit in the memory, whatever stood there. The limit must not be above the decoder's. No
 * acknowledgement of a table before it may be given to it, and nothing that it writes may be given to a decoder that has not started anew
 * too: docs/HOST.md, "Starting anew". A refused start leaves the old table in the memory; do not go on with that.
 * Answers: 7 limit above 4,096; 12 memory shorter than KOLOWROTAN_ENCODER_LENGTH; 0.
 */
uint64_t kolowrotan_encoder_start(uint8_t *memory, size_t memory_length, uint64_t limit);

/*
 * Puts an entry into the table, at the lowest index from 62 that is not held, and writes its insert, which goes to the decoder.
 * First told: the bytes written; second told: the index.
 * Answers: 17; 13; 7; 12; 0.
 */
uint64_t kolowrotan_encoder_insert(uint8_t *memory, size_t memory_length, const uint8_t *name, size_t name_length,
                                   const uint8_t *value, size_t value_length, uint8_t *output, size_t output_length);

/*
 * Puts an entry under deletion and writes its delete, which goes to the decoder. No later block refers to the entry; it is held
 * until its acknowledgement is read. First told: the bytes written.
 * Answers: 17; 5; 8; 9; 12; 0.
 */
uint64_t kolowrotan_encoder_delete(uint8_t *memory, size_t memory_length, uint64_t index, uint8_t *output,
                                   size_t output_length);

/*
 * Writes a field list as a header block of a part of a stream. First told: the bytes written, at most KOLOWROTAN_BLOCK_ROOM of the
 * list: with that room, or with KOLOWROTAN_BLOCK_ROOM_OF, the answer is never 12. With the latter a list of at most 9,830 bytes is not
 * measured first, which spares a third of the call.
 * A stream takes any number of non-trailer blocks, none too, until its trailer is written: a trailer block answered 0 closes both parts,
 * with another answer it closes none. A stream number that another message has used is not refused: the host counts its streams.
 * Answers: 17; 11 a stream above 4,095, a part that is neither 0 nor 1, or a part that is closed; the first of 16, 13 met in the list,
 * left to right; 13 a block above 16,384 bytes; 12; 0.
 */
uint64_t kolowrotan_encoder_block(uint8_t *memory, size_t memory_length, uint64_t stream, uint64_t part,
                                  const uint8_t *list, size_t list_length, uint8_t *output, size_t output_length);

/*
 * Reads one acknowledgement from the front of the decoder's acknowledgement bytes: its entry is gone and its index is free. First
 * told: the bytes that it took. Call it again with the rest. On 2 keep the bytes and call again when more have come.
 * Answers: 17; the first of 2, 3, 5, 19 met in the bytes, left to right, at the end of the index 3, 19, then 5; 10; 0.
 */
uint64_t kolowrotan_encoder_acknowledge(uint8_t *memory, size_t memory_length, const uint8_t *bytes, size_t bytes_length);

#ifdef __cplusplus
}
#endif

#endif
