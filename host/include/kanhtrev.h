/* The entries of Kanhtrev, for C: lists of calls, run by proved software.
 *
 * Link target/staticlib/libkanhtrev.a, which `bash host/library.sh` makes; x86-64 alone. There is nothing to initialize, no entry keeps
 * anything between two calls or allocates, and all may be called from several threads at once. Each is proved to end and to stay within the
 * buffers that it is lent, whatever they hold; they must not overlap. Stack: 256 KB are enough for every entry.
 *
 * A request and an answer are a record of five little-endian 32-bit words. A request is a code and its arguments, unused words 0:
 *
 *   1 INCOMING OUTGOING        adds a block            0 NODE FIRST_PORT
 *   2 NODE                     removes it              0
 *   3 NODE INCOMING OUTGOING   changes its port counts 0 EVENTS
 *   4 PORT PORT                links two ports         0 PORT OFFSET PORT OFFSET
 *   5 PORT                     cuts a port's wires     0 1 PORT OFFSET, or 0 0
 *   6 PORT OFFSET PORT OFFSET  links two subports      0 PORT OFFSET PORT OFFSET
 *   7 PORT OFFSET              cuts a subport's wire   0 1 PORT OFFSET, or 0 0
 *   8 PORT OFFSET              asks for its far end    0 1 PORT OFFSET, or 0 0
 *   9                          asks for the counts     0 BLOCKS PORTS WIRES
 *
 * An answer begins with 0, or with the number of the refusal and what it carries (docs/RULES.md); the run goes on past it. A list is run from
 * the empty graph each time. After a resize ports may have new numbers: kanhtrev's view tells them. */
#ifndef KANHTREV_H
#define KANHTREV_H

#include <stddef.h>
#include <stdint.h>

#ifdef __cplusplus
extern "C" {
#endif

/* Bytes of a record; of the longest file, view, and list that a file is loaded as: buffers of so many bytes are never too short. */
#define KANHTREV_RECORD 20
#define KANHTREV_LONGEST_FILE 21504
#define KANHTREV_LONGEST_VIEW 65544
#define KANHTREV_LONGEST_LOAD 51200

/* Node slots: a list of times has so many, and no path has more blocks. */
#define KANHTREV_SLOTS 1024

/* What an entry that answers a length returns is the length, or KANHTREV_REFUSED and the refusal's number. */
#define KANHTREV_REFUSED UINT64_C(4294967296)

/* Runs a list of requests and writes an answer for each. 0, or 1 if a length is not a multiple of 20 or the two differ; nothing is then
 * written. */
uint32_t run_records(const uint8_t *requests, size_t request_bytes, uint8_t *answers, size_t answer_bytes);

/* Runs a list of requests and writes the view of what it leaves, as little-endian 32-bit words: the numbers of blocks and of wires; for each
 * block, by ascending number, node, incoming, outgoing and first port, from which its ports are numbered on, inputs first; for each wire port,
 * offset, node and position of its outgoing end, then of its incoming end. The view's length; refused with 1 if the list is not whole, with 15
 * if the buffer is too short. What stands past the view stays, and all of it after a refusal. */
uint64_t view_of_records(const uint8_t *requests, size_t request_bytes, uint8_t *view, size_t view_bytes);

/* Runs a list of requests and writes the file of what it leaves. The file's length; refused with 1 or 15 as above. */
uint64_t save_records(const uint8_t *requests, size_t request_bytes, uint8_t *file, size_t file_bytes);

/* Reads a file and writes the requests that build its wiring, to which more may be added. Their length; refused with 16 or 17 if it is no file
 * that was saved, with 3 or 10 if it cannot be built here, with 15 if the buffer is too short. */
uint64_t records_of_file(const uint8_t *file, size_t file_bytes, uint8_t *requests, size_t request_bytes);

/* Reads two files and writes one of both, the second's blocks behind the first's. The file's length; refused with 16 or 17 for the first file, then for
 * the second, with 3 or 10 if the first, the second or both together cannot be built here, with 15 if the buffer is too short. */
uint64_t merge_files(const uint8_t *first, size_t first_bytes, const uint8_t *second, size_t second_bytes, uint8_t *file, size_t file_bytes);

/* Runs a list of requests and answers the largest sum of times along wires that end at a block of what it leaves, the block's own included. Times are in
 * microseconds, one for each node slot. Refused with 1 if the list is not whole, with 4 or 5 if there is no such block, with 19 if there are not
 * KANHTREV_SLOTS times, with 20 if a cycle can reach the block. */
uint64_t longest_of_records(const uint8_t *requests, size_t request_bytes, const uint16_t *times, size_t times_count, uint32_t block);

/* The same by its blocks: writes a path along wires that has this sum, from its first block to the one named. How many blocks; refused as the sum is, and
 * then with 15 if the list is too short. */
uint64_t path_of_records(const uint8_t *requests, size_t request_bytes, const uint16_t *times, size_t times_count, uint32_t block, uint32_t *list, size_t list_count);

#ifdef __cplusplus
}
#endif

#endif
