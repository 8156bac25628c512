/* Kuxhoveza for hosts. docs/NUMBERS.md says what the numbers mean; every offset counts numbers, not bytes. The library is
 * target/libkuxhoveza.a, which `sh tools/archive` proves and writes; it calls memcpy, memmove and memset and nothing else
 * outside itself.
 *
 * The functions keep nothing between calls, need no initialisation and may be called from several threads at once. A host
 * first compares kuxhoveza_layout_version() with KUXHOVEZA_LAYOUT_VERSION. */
#ifndef KUXHOVEZA_H
#define KUXHOVEZA_H

#include <stddef.h>
#include <stdint.h>

#ifdef __cplusplus
extern "C" {
#endif

/* Lengths of the arrays (SHEET, RECORD, CALL, ANSWER), capacities, widths of rows, and offsets. A field of a sheet's row
 * stands at the offset of its column and the row's number; elsewhere the numbers of a row stand side by side. */

/* Layout, written by tools/layout from crates/workflow/src/layout.rt and crates/host/src/layout.rt. */

/* How many rows of each sort there is room for. */
#define KUXHOVEZA_NODES 64
#define KUXHOVEZA_ROUTES 512
#define KUXHOVEZA_LIMITS 512
#define KUXHOVEZA_ACTIONS 64
#define KUXHOVEZA_DECLARED 256

/* Single numbers. */
#define KUXHOVEZA_SHEET_FORMAT 0
#define KUXHOVEZA_SHEET_START 1
#define KUXHOVEZA_SHEET_MAX_VISITS_PER_NODE 2
#define KUXHOVEZA_SHEET_MAX_ACTIVATIONS 3
#define KUXHOVEZA_SHEET_NODE_COUNT 4
#define KUXHOVEZA_SHEET_ROUTE_COUNT 5
#define KUXHOVEZA_SHEET_LIMIT_COUNT 6
#define KUXHOVEZA_SHEET_ACTION_COUNT 7
#define KUXHOVEZA_SHEET_DECLARED_COUNT 8

/* A column for each field of a row. */
#define KUXHOVEZA_SHEET_NODE_KIND 9
#define KUXHOVEZA_SHEET_NODE_ACTION 73
#define KUXHOVEZA_SHEET_NODE_HAS_PARAMS 137
#define KUXHOVEZA_SHEET_NODE_SIGNAL 201
#define KUXHOVEZA_SHEET_NODE_CODE 265
#define KUXHOVEZA_SHEET_NODE_DETAIL 329
#define KUXHOVEZA_SHEET_NODE_HAS_LIMITS 393
#define KUXHOVEZA_SHEET_ROUTE_NODE 457
#define KUXHOVEZA_SHEET_ROUTE_OUTCOME 969
#define KUXHOVEZA_SHEET_ROUTE_TARGET 1481
#define KUXHOVEZA_SHEET_LIMIT_NODE 1993
#define KUXHOVEZA_SHEET_LIMIT_OUTCOME 2505
#define KUXHOVEZA_SHEET_LIMIT_LIMIT 3017
#define KUXHOVEZA_SHEET_ACTION_EFFECT 3529
#define KUXHOVEZA_SHEET_ACTION_MAX_ATTEMPTS 3593
#define KUXHOVEZA_SHEET_DECLARED_ACTION 3657
#define KUXHOVEZA_SHEET_DECLARED_OUTCOME 3913

/* All numbers of a sheet. */
#define KUXHOVEZA_SHEET 4169

/* The layout's version: one more with every change of what stands below or of the sheet's layout. */
#define KUXHOVEZA_LAYOUT_VERSION 1

/* What a function returns: what it answers is written; or the buffer for it is too short, the call or the record has a
 * number that its field can't hold, or an array has not the length that the layout says. Then nothing is written. */
#define KUXHOVEZA_WRITTEN 0
#define KUXHOVEZA_SHORT_BUFFER 1
#define KUXHOVEZA_BAD_CALL 2
#define KUXHOVEZA_BAD_RECORD 3
#define KUXHOVEZA_BAD_SHEET_LENGTH 4
#define KUXHOVEZA_BAD_CALL_LENGTH 5
#define KUXHOVEZA_BAD_RECORD_LENGTH 6

/* Capacities. */
#define KUXHOVEZA_STORE 64
#define KUXHOVEZA_MAPPINGS 2
#define KUXHOVEZA_NOTES 65
#define KUXHOVEZA_ENDINGS 65

/* How many numbers a row has. */
#define KUXHOVEZA_ERROR_WIDTH 4
#define KUXHOVEZA_OUTPUT_WIDTH 4
#define KUXHOVEZA_SIGNAL_WIDTH 5
#define KUXHOVEZA_STREAK_WIDTH 2
#define KUXHOVEZA_RESULT_WIDTH 6
#define KUXHOVEZA_MAPPING_WIDTH 5
#define KUXHOVEZA_NOTE_WIDTH 5
#define KUXHOVEZA_ENDING_WIDTH 2

/* Run record. */
#define KUXHOVEZA_RECORD_STATUS 0
#define KUXHOVEZA_RECORD_INPUT 1
#define KUXHOVEZA_RECORD_ACTIVATIONS 2
#define KUXHOVEZA_RECORD_LAST_SEQUENCE 3
#define KUXHOVEZA_RECORD_LAST_ACCEPTED_AT 4
#define KUXHOVEZA_RECORD_POSITION_NODE 5
#define KUXHOVEZA_RECORD_POSITION_VISIT 6
#define KUXHOVEZA_RECORD_PHASE 7
#define KUXHOVEZA_RECORD_INVOCATION_NODE 8
#define KUXHOVEZA_RECORD_INVOCATION_VISIT 9
#define KUXHOVEZA_RECORD_INVOCATION_ACTION 10
#define KUXHOVEZA_RECORD_INVOCATION_ATTEMPT 11
#define KUXHOVEZA_RECORD_INVOCATION_INPUT 12

/* The kept error: its mark, code, node, detail. */
#define KUXHOVEZA_RECORD_ERROR 13
#define KUXHOVEZA_RECORD_RESULT 17
#define KUXHOVEZA_RECORD_STORED 21
#define KUXHOVEZA_RECORD_SIGNALS 22
#define KUXHOVEZA_RECORD_VISITS 342
#define KUXHOVEZA_RECORD_STREAKS 406
#define KUXHOVEZA_RECORD_RESULTS 534
#define KUXHOVEZA_RECORD 918

/* Call. */
#define KUXHOVEZA_CALL_CEILING_NODES 0
#define KUXHOVEZA_CALL_CEILING_VISITS 1
#define KUXHOVEZA_CALL_CEILING_ACTIVATIONS 2
#define KUXHOVEZA_CALL_CEILING_ATTEMPTS 3
#define KUXHOVEZA_CALL_LIMIT_MICROSTEPS 4
#define KUXHOVEZA_CALL_LIMIT_COMMANDS 5
#define KUXHOVEZA_CALL_LIMIT_OPERATIONS 6
#define KUXHOVEZA_CALL_HAS_RECORD 7
#define KUXHOVEZA_CALL_SEQUENCE 8
#define KUXHOVEZA_CALL_ACCEPTED_AT 9
#define KUXHOVEZA_CALL_EVENT_ID 10
#define KUXHOVEZA_CALL_KIND 11
#define KUXHOVEZA_CALL_INPUT 12
#define KUXHOVEZA_CALL_SIGNAL 13
#define KUXHOVEZA_CALL_OUTCOME 14
#define KUXHOVEZA_CALL_DATA 15
#define KUXHOVEZA_CALL_NODE 16
#define KUXHOVEZA_CALL_VISIT 17
#define KUXHOVEZA_CALL_ATTEMPT 18
#define KUXHOVEZA_CALL_STATUS 19
#define KUXHOVEZA_CALL_OUTPUT 20
#define KUXHOVEZA_CALL_HAS_ERROR 21
#define KUXHOVEZA_CALL_ERROR_CODE 22
#define KUXHOVEZA_CALL_ERROR_DETAIL 23
#define KUXHOVEZA_CALL_RETRYABLE 24
#define KUXHOVEZA_CALL_DELAY 25
#define KUXHOVEZA_CALL_RESOLUTION 26
#define KUXHOVEZA_CALL_ANSWERED 27

/* How many numbers an event has: those of a call from its sequence on. */
#define KUXHOVEZA_EVENT 19
#define KUXHOVEZA_CALL_MAPPINGS 28
#define KUXHOVEZA_CALL 38

/* Answer: what it says, its notes and endings, and the record. */
#define KUXHOVEZA_ANSWER_KIND 0
#define KUXHOVEZA_ANSWER_MICROSTEPS 1
#define KUXHOVEZA_ANSWER_ORDER 2
#define KUXHOVEZA_ANSWER_ORDER_NODE 3
#define KUXHOVEZA_ANSWER_ORDER_VISIT 4
#define KUXHOVEZA_ANSWER_ORDER_ACTION 5
#define KUXHOVEZA_ANSWER_ORDER_ATTEMPT 6
#define KUXHOVEZA_ANSWER_ORDER_NOT_BEFORE 7
#define KUXHOVEZA_ANSWER_ORDER_INPUT 8
#define KUXHOVEZA_ANSWER_ORDER_HAS_PARAMS 9
#define KUXHOVEZA_ANSWER_ORDER_PARAMS 10
#define KUXHOVEZA_ANSWER_NOTED 11
#define KUXHOVEZA_ANSWER_ENDED 12
#define KUXHOVEZA_ANSWER_NOTES 13
#define KUXHOVEZA_ANSWER_ENDINGS 338
#define KUXHOVEZA_ANSWER_RECORD 468
#define KUXHOVEZA_ANSWER 1386

/* A want. */
#define KUXHOVEZA_ANSWER_WANT_NODE 1
#define KUXHOVEZA_ANSWER_WANT_FIELD 2
#define KUXHOVEZA_ANSWER_WANT_FROM 3
#define KUXHOVEZA_WANT_WIDTH 4

/* A refusal. */
#define KUXHOVEZA_ANSWER_REFUSAL_NUMBER 1
#define KUXHOVEZA_ANSWER_REFUSAL_ITEM 2

/* Verdict: the refusal's number and its item; 0 and 0 for a sheet that is accepted. */
#define KUXHOVEZA_VERDICT_NUMBER 0
#define KUXHOVEZA_VERDICT_ITEM 1
#define KUXHOVEZA_VERDICT 2

/* End of the layout. */

/* What stands in a row of WIDTH numbers:
 *   error           1 or 0 for none, code, node, detail
 *   output          0 nothing, 1 a handle, 2 an error; the handle or the error's code; the error's node; its detail
 *   stored signal   sequence, event id, signal, outcome, data
 *   streak          outcome, count
 *   result          visit, outcome, output
 *   mapping answer  kind, value, code, detail, operations
 *   note            code, node, a, b, c
 *   ending          sequence, ending */

/* What the numbers are (docs/NUMBERS.md has all of them, with the refusals and the a, b, c of notes):
 *   node's kind         1 activity, 2 await-signal, 3 complete, 4 fail
 *   action's effect     0 repeatable, 1 not, 2 reconcilable
 *   outcome             0 ok, 1 received, 2 failed, 3 exhausted, 4 to 254 the host's, 255 absent
 *   RECORD_STATUS       1 running, 2 waiting, 3 needs intervention, 4 completed, 5 failed
 *   RECORD_PHASE        0 none, 1 scheduled, 2 unknown, 3 stuck
 *   CALL_KIND           1 start, 2 signal, 3 result, 4 resolved, 5 noted
 *   CALL_STATUS         1 success, 2 failure, 3 unknown, 4 expired
 *   CALL_RESOLUTION     1 complete, 2 retry, 3 fail
 *   mapping answer      1 value, 2 fault, 3 unencodable
 *   ANSWER_ORDER        0 none, 1 schedule, 2 retry
 *   ANSWER_WANT_FIELD   0 input, 1 params, 2 output
 *   note                1 ignored, 2 stale, 3 not applicable, 4 overflow, 5 unrouted, 6 unknown, 7 stuck, 8 retry,
 *                       9 loop exhausted
 *   ending              1 routed, 2 unrouted, 3 overflow, 4 ignored, 5 left over
 *   kernel's error code 1 visits exceeded, 2 activations exceeded, 3 undeclared outcome, 4 attempts exhausted,
 *                       5 activity failed
 * Times and delays are milliseconds. */

/* No node, and an absent outcome. */
#define KUXHOVEZA_NONE 255

/* Kinds of answer: number KUXHOVEZA_ANSWER_KIND of it. */
#define KUXHOVEZA_NEXT 1
#define KUXHOVEZA_WANT 2
#define KUXHOVEZA_REFUSAL 3

/* The layout's version of the library that is linked. A host compares it with KUXHOVEZA_LAYOUT_VERSION, that of the header
 * it was built with, before its first call. Where they differ it makes no call: its numbers would stand elsewhere or
 * mean something else. Arrays of a layout with other lengths are refused by their lengths besides. */
uint32_t kuxhoveza_layout_version(void);

/* One call: writes the answer into the first KUXHOVEZA_ANSWER numbers of the buffer and returns KUXHOVEZA_WRITTEN. Or
 * returns why not, the first of these that holds, and writes nothing:
 *   KUXHOVEZA_BAD_SHEET_LENGTH    sheet_len is not KUXHOVEZA_SHEET
 *   KUXHOVEZA_BAD_CALL_LENGTH     call_len is not KUXHOVEZA_CALL
 *   KUXHOVEZA_BAD_RECORD_LENGTH   record_len is not KUXHOVEZA_RECORD
 *   KUXHOVEZA_SHORT_BUFFER        answer_len is less than KUXHOVEZA_ANSWER
 *   KUXHOVEZA_BAD_CALL            the call has a number that its field can't hold
 *   KUXHOVEZA_BAD_RECORD          the record has one, and number KUXHOVEZA_CALL_HAS_RECORD of the call is 1
 * The lengths are tested before any number is read, and nothing is read or written outside them: each must be that of
 * its array. Numbers of the buffer behind the answer stay as they were. The record is lent also where the call
 * goes without one, of any numbers then. The buffer must not overlap the other arrays.
 *
 * What a field holds. A call's numbers are held to this also where its kind of event or its count of mapping answers
 * doesn't read them, a record's also behind the count of its stored signals (docs/NUMBERS.md has it as a table):
 *   64 bits   sequences (of a stored signal too), accepted times, CALL_DELAY
 *   0 or 1    CALL_HAS_RECORD, CALL_HAS_ERROR, CALL_RETRYABLE, the mark of the kept error
 *   8 bits    CALL_SIGNAL, CALL_OUTCOME, CALL_NODE; RECORD_POSITION_NODE, RECORD_INVOCATION_NODE,
 *             RECORD_INVOCATION_ACTION; the node of the kept error and of an output that is an error; signal and
 *             outcome of a stored signal; outcome of a streak and of a node's result
 *   16 bits   CALL_ERROR_CODE; the code of both mapping answers, of the kept error and of an output that is an error
 *   32 bits   all else. An output's kind is 0, 1 or 2, and what it gives no meaning is 0, as behind a mark of 0.
 *
 * Only the record of a KUXHOVEZA_NEXT is one to keep and to lend to the next call. A refusal has none; and the record of a
 * KUXHOVEZA_WANT is for the evaluation of the wanted value alone, and must never be kept: a later call would take it, and a
 * signal would be lost or an entry counted twice. A want is answered by the same call, with the same sequence, on the
 * same record (or none) as before, with the value added to its mapping answers. */
uint32_t kuxhoveza_transition(const uint32_t *sheet, size_t sheet_len, const uint64_t *call, size_t call_len,
                              const uint64_t *record, size_t record_len, uint64_t *answer, size_t answer_len);

/* The verdict on a sheet alone, under four ceilings: writes the refusal's number and its item (a node, an action, or
 * KUXHOVEZA_NONE) as numbers KUXHOVEZA_VERDICT_NUMBER and KUXHOVEZA_VERDICT_ITEM of the buffer, 0 and 0 where the sheet is
 * accepted, and returns KUXHOVEZA_WRITTEN. Or returns why not, the first of these that holds, and writes nothing:
 *   KUXHOVEZA_BAD_SHEET_LENGTH    sheet_len is not KUXHOVEZA_SHEET
 *   KUXHOVEZA_SHORT_BUFFER        verdict_len is less than KUXHOVEZA_VERDICT
 * For lengths and buffer holds what is said above. */
uint32_t kuxhoveza_verdict(const uint32_t *sheet, size_t sheet_len, uint32_t nodes, uint32_t visits,
                           uint32_t activations, uint32_t attempts, uint32_t *verdict, size_t verdict_len);

/* Bytes, for storing and piping: docs/BYTES.md has the format. A function of bytes returns one number of 64 bits. Its low
 * half is 0 where it is done, and else says why not; its high half is the number of bytes written, the item of a refusal,
 * and else 0. Where the low half isn't 0 nothing is written. Lengths and buffers are as above, but that a buffer for bytes
 * may be of any length: of it the first bytes are written, as many as the function says, and no others. */
#define KUXHOVEZA_NUMBER(r) ((uint32_t)(r))
#define KUXHOVEZA_REST(r) ((uint32_t)((uint64_t)(r) >> 32))

/* Beside the numbers above and the refusals: bad bytes, and a buffer too short for the bytes. Their item is
 * KUXHOVEZA_NONE. */
#define KUXHOVEZA_BAD_BYTES 31
#define KUXHOVEZA_SHORT_BYTES 32

/* No sheet, run, event, call or answer has more bytes: ten for each number that it can have. */
#define KUXHOVEZA_SHEET_BYTES 41690
#define KUXHOVEZA_RUN_BYTES 9180
#define KUXHOVEZA_EVENT_BYTES 190
#define KUXHOVEZA_CALL_BYTES 51250
#define KUXHOVEZA_ANSWER_BYTES 13860

/* Numbers to bytes and back. A write is refused with 20 (a sheet) or 25 (a run) where a count is above its capacity or an
 * unused slot isn't zero, and judges no other rule. An event is the KUXHOVEZA_EVENT numbers of a call from
 * KUXHOVEZA_CALL_SEQUENCE on. */
uint64_t kuxhoveza_write_sheet(const uint32_t *sheet, size_t sheet_len, uint8_t *bytes, size_t bytes_len);
uint64_t kuxhoveza_read_sheet(const uint8_t *bytes, size_t bytes_len, uint32_t *sheet, size_t sheet_len);
uint64_t kuxhoveza_write_run(const uint64_t *record, size_t record_len, uint8_t *bytes, size_t bytes_len);
uint64_t kuxhoveza_read_run(const uint8_t *bytes, size_t bytes_len, uint64_t *record, size_t record_len);
uint64_t kuxhoveza_write_event(const uint64_t *event, size_t event_len, uint8_t *bytes, size_t bytes_len);
uint64_t kuxhoveza_read_event(const uint8_t *bytes, size_t bytes_len, uint64_t *event, size_t event_len);

/* One call in bytes, with its sheet; or on a sheet in numbers, with the bytes of a call without its sheet. The answer's bytes
 * end with the run, to keep or for evaluation alone as above. A refusal has no bytes: it is what is returned. */
uint64_t kuxhoveza_call(const uint8_t *bytes, size_t bytes_len, uint8_t *answer, size_t answer_len);
uint64_t kuxhoveza_call_on(const uint32_t *sheet, size_t sheet_len, const uint8_t *bytes, size_t bytes_len,
                           uint8_t *answer, size_t answer_len);

#ifdef __cplusplus
}
#endif

#endif
