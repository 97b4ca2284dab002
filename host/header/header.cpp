// The header in C++: included twice, its numbers read by the preprocessor and
// the compiler, and the calls linked.
#include "hoefspanker.h"
#include "hoefspanker.h"

#if HOEFSPANKER_DONE != 0 || HOEFSPANKER_QUEUE_FULL != 7
#error "answers"
#endif
#if HOEFSPANKER_BAD_LENGTH != 8 || HOEFSPANKER_OUT_TOO_SHORT != 12
#error "refusals"
#endif
#if HOEFSPANKER_CUT_SHORT != 13 || HOEFSPANKER_BAD_TAG != 15
#error "refusals of a message"
#endif
#if HOEFSPANKER_FRAME_CUT_SHORT != 21 || HOEFSPANKER_FRAME_COMPRESSED != 22
#error "refusals of a frame"
#endif
#if HOEFSPANKER_SAME != 256 || HOEFSPANKER_ONLY_SECOND != 259
#error "verdicts"
#endif
#if HOEFSPANKER_OF_SECOND != 16 || HOEFSPANKER_NODES_DIFFER != 28
#error "refusals of two lists"
#endif
#if HOEFSPANKER_WROTE != 256
#error "a list that was written"
#endif
#if HOEFSPANKER_JOIN != 1 || HOEFSPANKER_STARTUP != 13
#error "kinds"
#endif

static_assert(HOEFSPANKER_LONGEST_LIST - HOEFSPANKER_TRAILER_BYTES
                  == HOEFSPANKER_MOST_RECORDS * HOEFSPANKER_RECORD_BYTES,
              "the longest list has the most records");
static_assert(HOEFSPANKER_HISTORY_BYTES
                  == HOEFSPANKER_MOST_WRITES * HOEFSPANKER_ENTRY_BYTES,
              "the history holds the most writes");
static_assert(HOEFSPANKER_MOST_OUT_BYTES
                  == HOEFSPANKER_MOST_RECORDS + HOEFSPANKER_HISTORY_BYTES,
              "the longest output is that of the longest list");

static_assert(HOEFSPANKER_HAS_STATUS_AT + 2 == HOEFSPANKER_FIELD_BYTES,
              "one byte is left behind the fields of a message");
static_assert(HOEFSPANKER_NEXT_OFFSET_AT == HOEFSPANKER_FIELD_BYTES
                  && HOEFSPANKER_NEXT_OFFSET_AT + 8 == HOEFSPANKER_FRAME_BYTES,
              "the next offset stands behind the fields");

static bool runs()
{
    const uint8_t no_records[HOEFSPANKER_TRAILER_BYTES] =
        {0, 0, 0, 0, 0, 0, 0, 0, HOEFSPANKER_MOST_NODES, 0, 0x4D, 0x41};
    uint8_t out[HOEFSPANKER_HISTORY_BYTES];
    bool refused = hoefspanker_run(nullptr, 0, nullptr, 0) == HOEFSPANKER_BAD_LENGTH;
    bool ran = hoefspanker_run(no_records, sizeof no_records, out, sizeof out)
        == HOEFSPANKER_RAN;
    return refused && ran;
}

static bool judges()
{
    const uint8_t no_records[HOEFSPANKER_TRAILER_BYTES] =
        {0, 0, 0, 0, 0, 0, 0, 0, 1, 0, 0x4D, 0x41};
    uint8_t places[HOEFSPANKER_PLACES_BYTES];
    bool refused = hoefspanker_same_merge(no_records, sizeof no_records, nullptr, 0,
                                          places, sizeof places)
        == HOEFSPANKER_OF_SECOND + HOEFSPANKER_BAD_LENGTH;
    bool judged = hoefspanker_same_merge(no_records, sizeof no_records,
                                         no_records, sizeof no_records,
                                         places, sizeof places)
        == HOEFSPANKER_SAME;
    return refused && judged && places[0] == 0;
}

static bool reads()
{
    const uint8_t message[] = {0x08, 7, 0x12, 0};
    uint8_t fields[HOEFSPANKER_FIELD_BYTES];
    bool refused = hoefspanker_read_arbitration(message, 1, nullptr, 0)
        == HOEFSPANKER_CUT_SHORT;
    bool read = hoefspanker_read_arbitration(message, sizeof message, fields, sizeof fields)
        == HOEFSPANKER_READ;
    return refused && read && fields[HOEFSPANKER_DEVICE_ID_AT] == 7
        && fields[HOEFSPANKER_HAS_ROLE_AT] == 1 && fields[HOEFSPANKER_HAS_STATUS_AT] == 0;
}

static bool walks()
{
    const uint8_t capture[] = {0, 0, 0, 0, 4, 0x0A, 2, 0x08, 7, 0, 0, 0, 0, 2, 0x12, 0};
    uint8_t first[HOEFSPANKER_FRAME_BYTES];
    uint8_t second[HOEFSPANKER_FRAME_BYTES];
    bool refused = hoefspanker_read_frame(capture, sizeof capture, 1, nullptr, 0)
        == HOEFSPANKER_FRAME_CUT_SHORT;
    bool arbitration = hoefspanker_read_frame(capture, sizeof capture, 0, first, sizeof first)
        == HOEFSPANKER_CARRIES_ARBITRATION;
    size_t next = first[HOEFSPANKER_NEXT_OFFSET_AT];
    bool packet = hoefspanker_read_frame(capture, sizeof capture, next, second, sizeof second)
        == HOEFSPANKER_CARRIES_PACKET;
    return refused && arbitration && packet && first[HOEFSPANKER_DEVICE_ID_AT] == 7
        && second[HOEFSPANKER_NEXT_OFFSET_AT] == sizeof capture;
}

static bool writes()
{
    const uint8_t steps[] = {HOEFSPANKER_JOIN, 1, HOEFSPANKER_SHUTDOWN, 0};
    uint8_t list[sizeof steps + HOEFSPANKER_TRAILER_BYTES];
    uint8_t out[HOEFSPANKER_MOST_OUT_BYTES];
    bool refused = hoefspanker_write(1, nullptr, 0, nullptr, 0) == HOEFSPANKER_OUT_TOO_SHORT
        && hoefspanker_write(9, nullptr, 0, nullptr, 0) == HOEFSPANKER_BAD_NODE_COUNT;
    bool wrote = hoefspanker_write(1, steps, sizeof steps, list, sizeof list)
        == HOEFSPANKER_WROTE + sizeof list;
    return refused && wrote
        && hoefspanker_run(list, sizeof list, out, sizeof out) == HOEFSPANKER_RAN;
}

int main()
{
    return runs() && reads() && walks() && judges() && writes() ? 0 : 1;
}
