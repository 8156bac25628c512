/* Bytes through the header (docs/BYTES.md), on the sheet of Joint A: a sheet, an event and runs written and read back; a
 * start and a result as calls in bytes, each answered as in numbers; what is returned for bad bytes, short buffers, wrong
 * numbers and lengths. All arrays and bytes end where memory does. C11 and C++. */
#include "checks.h"

#define BEFORE 0xee

/* Numbers, bytes that are read, and what is written; and memory of which nothing may be touched. */
static struct fenced lent, input, output, shut;

static uint64_t *event = call + KUXHOVEZA_CALL_SEQUENCE;

/* So many bytes that end where memory does. */
static uint8_t *bytes_of(const uint8_t *from, size_t length)
{
    uint8_t *at = input.end - length;
    if (length != 0)
        memcpy(at, from, length);
    return at;
}

/* A buffer that ends where memory does. */
static uint8_t *room(size_t length)
{
    memset(output.end - output.bytes, BEFORE, output.bytes);
    return output.end - length;
}

/* All but the last so many bytes before the buffer's end, less so many that were written, is as it was. */
static void untouched(const char *what, size_t length, size_t written)
{
    for (uint8_t *at = output.end - output.bytes; at < output.end; at++) {
        if (at == output.end - length)
            at += written;
        if (at < output.end && *at != BEFORE) {
            is(what, *at, BEFORE);
            return;
        }
    }
}

/* A number, and what stands above it. */
static void says(const char *what, uint64_t found, uint32_t number, size_t rest)
{
    is(what, KUXHOVEZA_NUMBER(found), number);
    is(what, KUXHOVEZA_REST(found), rest);
}

/* WRITING. */

static uint64_t write_sheet(uint8_t *bytes, size_t length)
{
    return kuxhoveza_write_sheet(numbers_32(lent, sheet, KUXHOVEZA_SHEET, KUXHOVEZA_SHEET), KUXHOVEZA_SHEET, bytes, length);
}

static uint64_t write_run(uint8_t *bytes, size_t length)
{
    return kuxhoveza_write_run(numbers_64(lent, record, KUXHOVEZA_RECORD, KUXHOVEZA_RECORD), KUXHOVEZA_RECORD, bytes, length);
}

static uint64_t write_event(uint8_t *bytes, size_t length)
{
    return kuxhoveza_write_event(numbers_64(lent, event, KUXHOVEZA_EVENT, KUXHOVEZA_EVENT), KUXHOVEZA_EVENT, bytes, length);
}

/* What a call is made of, in bytes, with its sheet and without. */
static uint8_t whole[KUXHOVEZA_CALL_BYTES], rest[KUXHOVEZA_CALL_BYTES];
static size_t whole_len, rest_len;

static uint64_t write_answer(uint8_t *bytes, size_t length)
{
    return kuxhoveza_call(bytes_of(whole, whole_len), whole_len, bytes, length);
}

static uint64_t write_answer_on(uint8_t *bytes, size_t length)
{
    return kuxhoveza_call_on(numbers_32(lent, sheet, KUXHOVEZA_SHEET, KUXHOVEZA_SHEET), KUXHOVEZA_SHEET,
                             bytes_of(rest, rest_len), rest_len, bytes, length);
}

/* These bytes are written wherever there is room for them, and nothing where there isn't. */
static void writes(const char *what, uint64_t (*write)(uint8_t *, size_t), const uint8_t *expected, size_t size)
{
    for (size_t length = 0; length < size + 3; length++) {
        uint8_t *at = room(length);
        uint64_t said = write(at, length);
        if (length < size) {
            says(what, said, KUXHOVEZA_SHORT_BYTES, KUXHOVEZA_NONE);
            untouched(what, length, 0);
            says(what, write(shut.end - length, length), KUXHOVEZA_SHORT_BYTES, KUXHOVEZA_NONE);
        } else {
            says(what, said, 0, size);
            is(what, memcmp(at, expected, size) == 0, 1);
            untouched(what, length, size);
        }
    }
}

/* Nothing is written, for this reason. */
static void writes_none(const char *what, uint64_t (*write)(uint8_t *, size_t), uint32_t number, uint32_t item)
{
    says(what, write(room(KUXHOVEZA_CALL_BYTES), KUXHOVEZA_CALL_BYTES), number, item);
    untouched(what, 0, 0);
    says(what, write(shut.end, 0), number, item);
}

/* READING, into so many bytes that end where memory does. */

static uint64_t read_sheet(const uint8_t *bytes, size_t length, uint8_t *to)
{
    return kuxhoveza_read_sheet(bytes, length, (uint32_t *)(void *)to, KUXHOVEZA_SHEET);
}

static uint64_t read_run(const uint8_t *bytes, size_t length, uint8_t *to)
{
    return kuxhoveza_read_run(bytes, length, (uint64_t *)(void *)to, KUXHOVEZA_RECORD);
}

static uint64_t read_event(const uint8_t *bytes, size_t length, uint8_t *to)
{
    return kuxhoveza_read_event(bytes, length, (uint64_t *)(void *)to, KUXHOVEZA_EVENT);
}

static uint64_t read_call(const uint8_t *bytes, size_t length, uint8_t *to)
{
    return kuxhoveza_call(bytes, length, to, KUXHOVEZA_ANSWER_BYTES);
}

static uint64_t read_call_on(const uint8_t *bytes, size_t length, uint8_t *to)
{
    return kuxhoveza_call_on(numbers_32(lent, sheet, KUXHOVEZA_SHEET, KUXHOVEZA_SHEET), KUXHOVEZA_SHEET, bytes, length, to,
                             KUXHOVEZA_ANSWER_BYTES);
}

typedef uint64_t (*reading)(const uint8_t *, size_t, uint8_t *);

static void bad(const char *what, reading read, const uint8_t *bytes, size_t length, size_t to)
{
    says(what, read(bytes_of(bytes, length), length, room(to)), KUXHOVEZA_BAD_BYTES, KUXHOVEZA_NONE);
    untouched(what, to, 0);
}

/* Every cut of the bytes is bad, and they with a byte more, and they with a number in a longer form: for each number that has
 * one. Then the bytes as they are. */
static uint64_t reads(const char *what, reading read, const uint8_t *bytes, size_t size, size_t to)
{
    static uint8_t other[KUXHOVEZA_CALL_BYTES + 1];
    for (size_t length = 0; length < size; length++)
        bad(what, read, bytes, length, to);
    for (size_t i = 0; i < size; i++) {
        if (bytes[i] >= 128)
            continue;
        memcpy(other, bytes, i + 1);
        other[i] = (uint8_t)(bytes[i] + 128);
        other[i + 1] = 0;
        memcpy(other + i + 2, bytes + i + 1, size - i - 1);
        bad(what, read, other, size + 1, to);
    }
    memcpy(other, bytes, size);
    other[size] = 0;
    bad(what, read, other, size + 1, to);
    return read(bytes_of(bytes, size), size, room(to));
}

/* The buffer holds these numbers, of so many bytes in memory. */
static void holds(const char *what, const void *numbers, size_t bytes)
{
    is(what, memcmp(output.end - bytes, numbers, bytes) == 0, 1);
    untouched(what, bytes, bytes);
}

/* SHEETS, EVENTS, RUNS. */

/* A number's bytes at a place; the place behind them. */
static size_t put(uint8_t *at, size_t place, uint64_t number)
{
    for (; number >= 128; number /= 128)
        at[place++] = (uint8_t)(number % 128 + 128);
    at[place] = (uint8_t)number;
    return place + 1;
}

/* Joint A's numbers are below 128: each is its byte. */
static const uint8_t joint_bytes[] = {
    2, 0, 3, 10, 4, 4, 1, 1, 1,                     /* single numbers */
    1, 2, 3, 4, 0, 0, 0, 0, 0, 0, 0, 0, 0, 5, 0, 0, /* nodes: kind, action, has params, signal, */
    0, 0, 0, 0, 0, 0, 0, 0, 0, 1, 0, 0,             /* error code, error detail, has loopLimits */
    0, 1, 1, 1, 0, 1, 3, 4, 1, 2, 3, 0,             /* routes: node, outcome, target */
    1, 4, 1, 1, 2, 0, 0                             /* the limit, the action, the declared outcome */
};

static void sheets(void)
{
    writes("a sheet written", write_sheet, joint_bytes, sizeof joint_bytes);
    says("a sheet read", reads("a bad sheet", read_sheet, joint_bytes, sizeof joint_bytes, sizeof sheet), 0, 0);
    holds("the sheet read", sheet, sizeof sheet);
    sheet[KUXHOVEZA_SHEET_NODE_COUNT] = KUXHOVEZA_NODES + 1;
    writes_none("65 nodes", write_sheet, 20, KUXHOVEZA_NONE);
    sheet[KUXHOVEZA_SHEET_NODE_COUNT] = 4;
    sheet[KUXHOVEZA_SHEET - 1] = 1;
    writes_none("an outcome that isn't declared", write_sheet, 20, KUXHOVEZA_NONE);
    sheet[KUXHOVEZA_SHEET - 1] = 0;
}

static void events(void)
{
    uint8_t bytes[KUXHOVEZA_EVENT_BYTES];
    size_t size = 0;
    call[KUXHOVEZA_CALL_DELAY] = UINT64_MAX;
    for (size_t i = 0; i < KUXHOVEZA_EVENT; i++)
        size = put(bytes, size, event[i]);
    writes("an event written", write_event, bytes, size);
    says("an event read", reads("a bad event", read_event, bytes, size, KUXHOVEZA_EVENT * sizeof *event), 0, 0);
    holds("the event read", event, KUXHOVEZA_EVENT * sizeof *event);
    call[KUXHOVEZA_CALL_OUTCOME] = 256;
    writes_none("outcome 256 of an event", write_event, KUXHOVEZA_BAD_CALL, 0);
    call[KUXHOVEZA_CALL_OUTCOME] = KUXHOVEZA_NONE;
    call[KUXHOVEZA_CALL_DELAY] = 0;
}

/* A run with nothing stored and no results. */
static size_t run_bytes(uint8_t *bytes)
{
    size_t size = 0;
    for (size_t i = 0; i < KUXHOVEZA_RECORD_SIGNALS; i++)
        size = put(bytes, size, record[i]);
    for (size_t i = KUXHOVEZA_RECORD_VISITS; i < KUXHOVEZA_RECORD_STREAKS; i++)
        size = put(bytes, size, record[i]);
    for (size_t i = 0; i < 2 * KUXHOVEZA_NODES; i++)
        size = put(bytes, size, 0);
    return size;
}

static void wrong_run(const char *what, size_t offset, uint64_t number, uint32_t says, uint32_t item)
{
    uint64_t before = record[offset];
    record[offset] = number;
    writes_none(what, write_run, says, item);
    record[offset] = before;
}

/* The record that a start left. */
static void runs(void)
{
    uint8_t bytes[KUXHOVEZA_RUN_BYTES];
    size_t size = run_bytes(bytes);
    writes("a run written", write_run, bytes, size);
    says("a run read", reads("a bad run", read_run, bytes, size, sizeof record), 0, 0);
    holds("the run read", record, sizeof record);
    wrong_run("a position at node 256", KUXHOVEZA_RECORD_POSITION_NODE, 256, KUXHOVEZA_BAD_RECORD, 0);
    wrong_run("65 stored signals", KUXHOVEZA_RECORD_STORED, KUXHOVEZA_STORE + 1, 25, KUXHOVEZA_NONE);
    wrong_run("a signal that isn't stored", KUXHOVEZA_RECORD_SIGNALS, 1, 25, KUXHOVEZA_NONE);
    wrong_run("a streak's outcome alone", KUXHOVEZA_RECORD_STREAKS, 1, 25, KUXHOVEZA_NONE);
    wrong_run("a result's visit alone", KUXHOVEZA_RECORD_RESULTS, 1, 25, KUXHOVEZA_NONE);
}

/* CALLS. */

/* The bytes of the call, on the record's where it has one. */
static void call_bytes(void)
{
    size_t place = 0;
    for (size_t i = 0; i < KUXHOVEZA_CALL_HAS_RECORD; i++)
        place = put(whole, place, call[i]);
    memcpy(rest, whole, place);
    rest_len = put(rest, place, call[KUXHOVEZA_CALL_HAS_RECORD]);
    if (call[KUXHOVEZA_CALL_HAS_RECORD] == 1)
        rest_len += run_bytes(rest + rest_len);
    for (size_t i = KUXHOVEZA_CALL_SEQUENCE; i < KUXHOVEZA_CALL_MAPPINGS + KUXHOVEZA_MAPPING_WIDTH; i++)
        rest_len = put(rest, rest_len, call[i]);
    memcpy(whole + place, joint_bytes, sizeof joint_bytes);
    memcpy(whole + place + sizeof joint_bytes, rest + place, rest_len - place);
    whole_len = rest_len + sizeof joint_bytes;
}

/* The call in bytes is answered as in numbers: single numbers, a note for each where there is one, and the run. */
static void calls(const char *what)
{
    uint8_t expected[KUXHOVEZA_ANSWER_BYTES];
    size_t size = 0, notes;
    is(what, kuxhoveza_transition(sheet, KUXHOVEZA_SHEET, call, KUXHOVEZA_CALL, record, KUXHOVEZA_RECORD, answer,
                                  KUXHOVEZA_ANSWER), KUXHOVEZA_WRITTEN);
    is(what, answer[KUXHOVEZA_ANSWER_KIND], KUXHOVEZA_NEXT);
    call_bytes();
    notes = KUXHOVEZA_NOTE_WIDTH * (size_t)answer[KUXHOVEZA_ANSWER_NOTED];
    for (size_t i = 0; i < KUXHOVEZA_ANSWER_NOTES + notes; i++)
        size = put(expected, size, answer[i]);
    size += KUXHOVEZA_REST(kuxhoveza_write_run(answer + KUXHOVEZA_ANSWER_RECORD, KUXHOVEZA_RECORD, expected + size,
                                               sizeof expected - size));
    writes(what, write_answer, expected, size);
    writes(what, write_answer_on, expected, size);
    says(what, reads(what, read_call, whole, whole_len, KUXHOVEZA_ANSWER_BYTES), 0, size);
    says(what, reads(what, read_call_on, rest, rest_len, KUXHOVEZA_ANSWER_BYTES), 0, size);
}

/* Refused as in numbers, and before a buffer that is too short. */
static void refused(void)
{
    call[KUXHOVEZA_CALL_SEQUENCE] = 7;
    call_bytes();
    writes_none("a gap in the sequence", write_answer, 22, KUXHOVEZA_NONE);
    writes_none("a gap in the sequence", write_answer_on, 22, KUXHOVEZA_NONE);
    sheet[KUXHOVEZA_SHEET_LIMIT_LIMIT] = 3;
    writes_none("a limit of 3", write_answer_on, 12, 1);
    sheet[KUXHOVEZA_SHEET_LIMIT_LIMIT] = 1;
}

/* An array of another length: no number and no byte is read or written. */
static void lengths(void)
{
    const uint8_t *bytes = shut.end;
    uint8_t *to = shut.end;
    for (size_t i = 0; i < TRIED; i++) {
        size_t length = tried(i, KUXHOVEZA_SHEET);
        uint32_t *s = (uint32_t *)(void *)(shut.end - length * sizeof *s);
        if (length != KUXHOVEZA_SHEET) {
            says("a sheet's length", kuxhoveza_write_sheet(s, length, to, 0), KUXHOVEZA_BAD_SHEET_LENGTH, 0);
            says("a sheet's length", kuxhoveza_read_sheet(bytes, 0, s, length), KUXHOVEZA_BAD_SHEET_LENGTH, 0);
            says("a sheet's length", kuxhoveza_call_on(s, length, bytes, 0, to, 0), KUXHOVEZA_BAD_SHEET_LENGTH, 0);
        }
        length = tried(i, KUXHOVEZA_RECORD);
        uint64_t *r = (uint64_t *)(void *)(shut.end - length * sizeof *r);
        if (length != KUXHOVEZA_RECORD) {
            says("a run's length", kuxhoveza_write_run(r, length, to, 0), KUXHOVEZA_BAD_RECORD_LENGTH, 0);
            says("a run's length", kuxhoveza_read_run(bytes, 0, r, length), KUXHOVEZA_BAD_RECORD_LENGTH, 0);
        }
        length = tried(i, KUXHOVEZA_EVENT);
        r = (uint64_t *)(void *)(shut.end - length * sizeof *r);
        if (length != KUXHOVEZA_EVENT) {
            says("an event's length", kuxhoveza_write_event(r, length, to, 0), KUXHOVEZA_BAD_CALL_LENGTH, 0);
            says("an event's length", kuxhoveza_read_event(bytes, 0, r, length), KUXHOVEZA_BAD_CALL_LENGTH, 0);
        }
    }
}

int main(void)
{
    is("a sheet's most bytes", KUXHOVEZA_SHEET_BYTES, 10 * KUXHOVEZA_SHEET);
    is("a run's most bytes", KUXHOVEZA_RUN_BYTES, 10 * KUXHOVEZA_RECORD);
    is("an event's most bytes", KUXHOVEZA_EVENT_BYTES, 10 * KUXHOVEZA_EVENT);
    is("a call's most bytes", KUXHOVEZA_CALL_BYTES, 10 * (KUXHOVEZA_SHEET + KUXHOVEZA_RECORD + KUXHOVEZA_CALL));
    is("an answer's most bytes", KUXHOVEZA_ANSWER_BYTES, 10 * KUXHOVEZA_ANSWER);
    lent = fence(1);
    input = fence(1);
    output = fence(1);
    shut = fence(0);
    joint_a();
    call_with(1, 1);
    call[KUXHOVEZA_CALL_INPUT] = 42;
    sheets();
    events();
    calls("a start");
    memcpy(record, answer + KUXHOVEZA_ANSWER_RECORD, sizeof record);
    runs();
    call_with(2, 3);
    call[KUXHOVEZA_CALL_VISIT] = 1;
    call[KUXHOVEZA_CALL_ATTEMPT] = 1;
    call[KUXHOVEZA_CALL_STATUS] = 3;
    calls("a result of status 3");
    refused();
    lengths();
    return failures != 0;
}
