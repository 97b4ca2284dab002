/* Runs a list of P4Runtime mastership arbitration events: 1 to 8 controller
 * nodes, one election service and one switch, from a fresh state. And reads
 * captured arbitration messages, alone or in the frames of a stream; and writes
 * event lists.
 *
 * Link with libhoefspanker.a. The library needs no start-up call, allocates
 * nothing, keeps nothing between calls and may be called from any thread. */
#ifndef HOEFSPANKER_H
#define HOEFSPANKER_H

#include <stddef.h>
#include <stdint.h>

#define HOEFSPANKER_VERSION "1.0.0"

/* The event list is note bytes (any, possibly none), then records, then a
 * trailer. A record is two bytes, kind and node. The trailer is the offset of
 * the first record and the number of records, each 4 bytes with the least byte
 * first; the node count; a zero byte; and the bytes 4D 41. */
#define HOEFSPANKER_RECORD_BYTES 2
#define HOEFSPANKER_TRAILER_BYTES 12
#define HOEFSPANKER_LONGEST_LIST 65536
#define HOEFSPANKER_MOST_RECORDS 32762
#define HOEFSPANKER_MOST_NODES 8

/* Kinds of records. Shutdown and startup carry node 0. */
#define HOEFSPANKER_JOIN 1
#define HOEFSPANKER_LEAVE 2
#define HOEFSPANKER_LEARN 3
#define HOEFSPANKER_SEND_UPDATE 4
#define HOEFSPANKER_RECEIVE_UPDATE 5
#define HOEFSPANKER_SEND_WRITE 6
#define HOEFSPANKER_RECEIVE_WRITE 7
#define HOEFSPANKER_CONNECT 8
#define HOEFSPANKER_CLOSE 9
#define HOEFSPANKER_HANDLE_UPDATE 10
#define HOEFSPANKER_HANDLE_WRITE 11
#define HOEFSPANKER_SHUTDOWN 12
#define HOEFSPANKER_STARTUP 13

/* The output is one answer byte for each record and then the history of
 * accepted writes. A history entry is 4 bytes: the node, a zero byte, and the
 * term with the least byte first. The output buffer must hold the answers and
 * a full history of 1,024 entries, so a buffer of HOEFSPANKER_MOST_OUT_BYTES
 * is enough for every list. */
#define HOEFSPANKER_ENTRY_BYTES 4
#define HOEFSPANKER_MOST_WRITES 1024
#define HOEFSPANKER_HISTORY_BYTES 4096
#define HOEFSPANKER_MOST_OUT_BYTES 36858

/* Answers to a step. Every answer but HOEFSPANKER_DONE leaves the state as it
 * was, and the run goes on with the next record. A run never meets a state out
 * of range, so it never gives the answer 1. */
#define HOEFSPANKER_DONE 0
#define HOEFSPANKER_OUT_OF_RANGE 1   /* the state is not in range */
#define HOEFSPANKER_UNKNOWN_KIND 2   /* the kind is not 1 to 13 */
#define HOEFSPANKER_WRONG_NODE 3     /* no such node, or not 0 for 12 and 13 */
#define HOEFSPANKER_NOT_ALLOWED 4    /* the rule does not allow the step */
#define HOEFSPANKER_TERM_LIMIT 5     /* the term would pass 10,000 */
#define HOEFSPANKER_HISTORY_FULL 6   /* an accepted write would be the 1,025th */
#define HOEFSPANKER_QUEUE_FULL 7     /* a queue to be appended to holds 8 */

/* Refusals of a whole list. If several apply, the lowest is returned. */
#define HOEFSPANKER_BAD_LENGTH 8       /* shorter than 12 bytes or longer than 65,536 */
#define HOEFSPANKER_BAD_MARK 9         /* last two bytes not 4D 41, or the zero byte not 0 */
#define HOEFSPANKER_BAD_NODE_COUNT 10  /* node count not 1 to 8 */
#define HOEFSPANKER_BAD_EXTENT 11      /* first + 2 * records + 12 is not the length */
#define HOEFSPANKER_OUT_TOO_SHORT 12   /* output shorter than records + 4,096 bytes; of places, than 8;
                                          of a list that is written, than the list */

/* Verdicts on two lists as merges of the same logs. */
#define HOEFSPANKER_SAME 256        /* the same writes are accepted, each record keeps its answer */
#define HOEFSPANKER_ORDER 257       /* two dependent records stand in the other order */
#define HOEFSPANKER_ONLY_FIRST 258  /* the second list lacks a record of the first */
#define HOEFSPANKER_ONLY_SECOND 259 /* the first list lacks a record of the second */

/* Refusals of two lists, beside 8 to 12 above: those of the second list are its
 * 8 to 11 with HOEFSPANKER_OF_SECOND added. */
#define HOEFSPANKER_OF_SECOND 16
#define HOEFSPANKER_NODES_DIFFER 28 /* the node counts of the two lists differ */

/* Bytes of the places that a verdict names. */
#define HOEFSPANKER_PLACES_BYTES 8

/* The least number that a run returns: this one plus the number of writes. */
#define HOEFSPANKER_RAN 256

/* The least number that the call returns that writes a list: this one plus the
 * length of the list. */
#define HOEFSPANKER_WROTE 256

/* The fields of an arbitration message, MasterArbitrationUpdate of
 * p4runtime.proto 1.0.0, are put as 40 bytes, numbers with the least byte
 * first. A scalar that is absent is 0. The status code is the low 32 bits of
 * what stands on the wire, signed: its 4 bytes are an int32_t in two's
 * complement. A flag is 1 if the message has the embedded message, else 0. */
#define HOEFSPANKER_FIELD_BYTES 40
#define HOEFSPANKER_DEVICE_ID_AT 0           /* 8 bytes */
#define HOEFSPANKER_ROLE_ID_AT 8             /* 8 bytes */
#define HOEFSPANKER_ELECTION_ID_HIGH_AT 16   /* 8 bytes */
#define HOEFSPANKER_ELECTION_ID_LOW_AT 24    /* 8 bytes */
#define HOEFSPANKER_STATUS_CODE_AT 32        /* 4 bytes, signed */
#define HOEFSPANKER_HAS_ROLE_AT 36           /* 1 byte, 1 or 0 */
#define HOEFSPANKER_HAS_ELECTION_ID_AT 37    /* 1 byte, 1 or 0 */
#define HOEFSPANKER_HAS_STATUS_AT 38         /* 1 byte, 1 or 0 */
                                             /* the last byte is 0 */

/* Refusals of a message: its first fault from the front, those of an embedded
 * message where it stands. */
#define HOEFSPANKER_CUT_SHORT 13       /* it ends too early, or a length passes its parent */
#define HOEFSPANKER_NUMBER_TOO_LARGE 14  /* the tenth byte of a number is above 1 */
#define HOEFSPANKER_BAD_TAG 15         /* wire type not 0, 1, 2 or 5, or field number
                                          not 1 to 536,870,911 */
/* And then, of the buffer: HOEFSPANKER_OUT_TOO_SHORT, shorter than 40 bytes. */

/* What a message that was read returns. */
#define HOEFSPANKER_READ 0

/* A capture of one direction of a gRPC stream is frames one after another: a
 * flag, a length of 4 bytes with the greatest first, and as many bytes, which
 * are a StreamMessageRequest or StreamMessageResponse of p4runtime.proto 1.0.0.
 * Of a frame the fields of its arbitration message are put, as above, and all 0
 * if it carries none; and after them where the next frame begins. */
#define HOEFSPANKER_FRAME_BYTES 48
#define HOEFSPANKER_NEXT_OFFSET_AT 40        /* 8 bytes */

/* What a frame carries: this number plus the field number of the alternative.
 * Of several the last counts. Which message fields 3 to 5 are depends on the
 * direction. */
#define HOEFSPANKER_CARRIES 256
#define HOEFSPANKER_CARRIES_NOTHING 256
#define HOEFSPANKER_CARRIES_ARBITRATION 257
#define HOEFSPANKER_CARRIES_PACKET 258

/* Refusals of a frame, beside those of its message. */
#define HOEFSPANKER_FRAME_CUT_SHORT 21   /* the bytes end before the frame does */
#define HOEFSPANKER_FRAME_COMPRESSED 22  /* the flag is not 0 */
/* And then, of the buffer: HOEFSPANKER_OUT_TOO_SHORT, shorter than 48 bytes. */

#ifdef __cplusplus
extern "C" {
#endif

/* Runs the `list_len` bytes at `list` and writes to the `out_len` bytes at
 * `out`.
 *
 * Requires: `list` may be read for `list_len` bytes, and `out` read and written
 * for `out_len` bytes. The two do not overlap. A pointer is NULL only if its
 * length is 0. The bytes may be anything: a damaged list is refused.
 *
 * Returns, if the list is run: HOEFSPANKER_RAN plus the number W of accepted
 * writes, 0 to 1,024. With C records, the first C bytes of `out` are the answers
 * in the order of the records, the next 4 * W bytes are the history, oldest
 * write first, and the bytes after that stay as they were.
 *
 * Returns, if it is refused: one of the five refusals above, and `out` stays as
 * it was. The bytes of `list` are never changed.
 *
 * The call takes about 20 KB of stack. */
uint32_t hoefspanker_run(const uint8_t *list, size_t list_len,
                         uint8_t *out, size_t out_len);

/* Reads the `message_len` bytes at `message`, one MasterArbitrationUpdate in
 * protobuf's wire format, and puts its fields into the `fields_len` bytes at
 * `fields`. Unknown fields, and known ones of another wire type, are skipped;
 * the last of a repeated scalar wins; an embedded message given twice is merged.
 *
 * Requires: the same as above, of `message` and `fields`. A message may have any
 * length.
 *
 * Returns, if the message can be read: HOEFSPANKER_READ, with the fields in the
 * first 40 bytes of `fields`; the bytes after them stay as they were.
 *
 * Returns, if the message or the buffer is refused: the refusal, and `fields`
 * stays as it was. A message that cannot be read is refused before a buffer that
 * is too short. The bytes of `message` are never changed.
 *
 * The call takes less than 1 KB of stack. */
uint32_t hoefspanker_read_arbitration(const uint8_t *message, size_t message_len,
                                      uint8_t *fields, size_t fields_len);

/* Reads the frame that begins `offset` bytes into the `capture_len` bytes at
 * `capture`, and puts what it says into the `frame_len` bytes at `frame`.
 *
 * Requires: the same as above, of `capture` and `frame`. A capture may have any
 * length and an offset any value.
 *
 * Returns, if the frame can be read: HOEFSPANKER_CARRIES plus the field number of
 * the alternative that the message carries, 0 to 5, with the fields and the next
 * offset in the first 48 bytes of `frame`; the bytes after them stay as they
 * were. An arbitration message given twice in a row is merged, and another
 * alternative in between sets it aside. Other alternatives are not looked into.
 *
 * Returns, if the frame or the buffer is refused: the refusal, and `frame` stays
 * as it was. The flag is judged first, then the length, then the message, then
 * the buffer. At the end of the capture and after it the refusal is
 * HOEFSPANKER_FRAME_CUT_SHORT. The bytes of `capture` are never changed.
 *
 * Walk a capture from offset 0, each time to the next offset, as long as the
 * offset is below `capture_len`. If only a part of the capture is at hand,
 * HOEFSPANKER_FRAME_CUT_SHORT asks for more of it.
 *
 * The call takes less than 1 KB of stack. */
uint32_t hoefspanker_read_frame(const uint8_t *capture, size_t capture_len,
                                size_t offset, uint8_t *frame, size_t frame_len);

/* Compares the lists `first` and `second`: do exchanges of neighbouring
 * independent records lead from the one to the other? Then both accept the same
 * writes and every record has the same answer in both.
 *
 * Requires: the same as above, of each pointer and length. `places` does not
 * overlap the lists, which may overlap each other.
 *
 * Returns, if both lists can be compared: one of the four verdicts above. The
 * first 8 bytes of `places` are four places P, Q, R, S, two bytes each with the
 * least byte first; places count records from 1, and 0 is no place. The bytes
 * after them stay as they were.
 *   HOEFSPANKER_SAME         0 0 0 0
 *   HOEFSPANKER_ORDER        records P and Q of the first list, P before Q, depend
 *                            on one another and stand at R and S in the second,
 *                            S before R
 *   HOEFSPANKER_ONLY_FIRST   P 0 0 0: the second list lacks record P of the first
 *   HOEFSPANKER_ONLY_SECOND  0 0 0 S: the first list lacks record S of the second
 *
 * Returns, if they are refused: the first list's 8 to 11; 12 if `places_len` is
 * below 8; the second list's, 24 to 27; 28 if the node counts differ. If several
 * apply, the lowest is returned. `places` stays as it was.
 *
 * The call takes about 135 KB of stack. */
uint32_t hoefspanker_same_merge(const uint8_t *first, size_t first_len,
                                const uint8_t *second, size_t second_len,
                                uint8_t *places, size_t places_len);

/* Writes the event list of so many nodes and of the steps in the `steps_len`
 * bytes at `steps`, kind and node of each, to the `out_len` bytes at `out`.
 *
 * Requires: the same as above, of `steps` and `out`. The node count may be any
 * number, and the bytes may be anything.
 *
 * Returns, if the list is written: HOEFSPANKER_WROTE plus its length L, which is
 * `steps_len` plus 12. The first L bytes of `out` are the steps, as they are, and
 * a trailer with the offset 0; the bytes after that stay as they were. A buffer of
 * HOEFSPANKER_LONGEST_LIST bytes is enough for every list.
 *
 * Returns, if it is refused, the first of these that applies, and `out` stays as
 * it was:
 *   HOEFSPANKER_BAD_NODE_COUNT  `nodes` is not 1 to 8
 *   HOEFSPANKER_UNKNOWN_KIND    the first step that does not exist has no such kind
 *   HOEFSPANKER_WRONG_NODE      it has the wrong node, or is cut short behind its kind
 *   HOEFSPANKER_BAD_LENGTH      there are more than 32,762 steps
 *   HOEFSPANKER_OUT_TOO_SHORT   `out_len` is less than L
 * The bytes of `steps` are never changed.
 *
 * The call takes less than 1 KB of stack. */
uint32_t hoefspanker_write(uint32_t nodes, const uint8_t *steps, size_t steps_len,
                           uint8_t *out, size_t out_len);

#ifdef __cplusplus
}
#endif

#endif
