/* The entries from C, on a small wiring of the kit: drawn, resized, viewed, timed, saved and loaded again.

   bash host/library.sh && cc -Ihost/include host/c/kit.c target/staticlib/libkanhtrev.a -o target/kit && target/kit */
#include <kanhtrev.h>
#include <stdio.h>
#include <stdlib.h>
#include <string.h>

enum { RECEIVER, FUSION, VALVE };

/* Words of records, in the byte order of an x86-64 machine, which is that of the records. */
static const uint32_t list[][5] = {
    {1, 0, 1},    /* the receiver: block 0, its output port 0 */
    {1, 1, 1},    /* fusion: block 1, input 1, output 2 */
    {1, 1, 0},    /* the valve: block 2, input 3 */
    {4, 0, 1},    /* receiver to fusion */
    {4, 2, 3},    /* fusion to valve */
    {4, 1, 3},    /* two inputs: refused with 12 */
    {3, 1, 2, 1}, /* fusion gets a second input, and its ports new numbers */
    {9},
};
enum { CALLS = sizeof list / sizeof *list };

static void want(int held, const char *what) {
    if (!held) {
        printf("not so: %s\n", what);
        exit(1);
    }
}

int main(void) {
    static uint32_t answers[CALLS][5], view[KANHTREV_LONGEST_VIEW / 4];
    static uint8_t file[KANHTREV_LONGEST_FILE], again[KANHTREV_LONGEST_FILE], loaded[KANHTREV_LONGEST_LOAD];
    const uint8_t *requests = (const uint8_t *)list;

    want(run_records(requests, sizeof list, (uint8_t *)answers, sizeof answers) == 0, "the list is run");
    want(answers[5][0] == 12 && answers[5][3] == 0, "both ends of the third link are inputs");
    want(answers[7][1] == 3 && answers[7][3] == 2, "there are three blocks and two wires");
    want(run_records(requests, sizeof list - 1, (uint8_t *)answers, sizeof answers) == 1, "a list that is not whole is refused");

    uint64_t length = view_of_records(requests, sizeof list, (uint8_t *)view, sizeof view);
    want(length == 4 * (2 + 3 * 4 + 2 * 8) && view[0] == 3 && view[1] == 2, "the view has three blocks and two wires");
    const uint32_t *fusion = view + 2 + 4 * FUSION, *wires = view + 2 + 4 * view[0];
    want(fusion[0] == FUSION && fusion[1] == 2 && fusion[2] == 1, "fusion has two inputs and an output");
    printf("fusion's inputs are ports %u and %u by now, its output is port %u\n", fusion[3], fusion[3] + 1, fusion[3] + 2);
    for (uint32_t wire = 0; wire < view[1]; wire++, wires += 8)
        printf("output %u of block %u feeds input %u of block %u\n", wires[3], wires[2], wires[7], wires[6]);
    want(view_of_records(requests, sizeof list, (uint8_t *)view, length - 1) == KANHTREV_REFUSED + 15, "a short buffer is refused");

    static uint16_t times[KANHTREV_SLOTS] = {[RECEIVER] = 2500, [FUSION] = 6100, [VALVE] = 600};
    uint32_t path[KANHTREV_SLOTS];
    want(longest_of_records(requests, sizeof list, times, KANHTREV_SLOTS, VALVE) == 9200, "the way to the valve takes 9.2 milliseconds");
    want(path_of_records(requests, sizeof list, times, KANHTREV_SLOTS, VALVE, path, KANHTREV_SLOTS) == 3, "along three blocks");
    want(path[0] == RECEIVER && path[1] == FUSION && path[2] == VALVE, "receiver, fusion, valve");
    want(longest_of_records(requests, sizeof list, times, 3, VALVE) == KANHTREV_REFUSED + 19, "three times are too few");

    uint64_t bytes = save_records(requests, sizeof list, file, sizeof file);
    want(bytes == 1024, "a unit of blocks and one of wires");
    uint64_t built = records_of_file(file, bytes, loaded, sizeof loaded);
    want(built == 5 * KANHTREV_RECORD, "three adds and two links");
    want(save_records(loaded, built, again, sizeof again) == bytes && memcmp(file, again, bytes) == 0, "the same file again");
    file[4]++;
    want(records_of_file(file, bytes, loaded, sizeof loaded) == KANHTREV_REFUSED + 16, "a damaged file is refused");
    printf("saved as %llu bytes, loaded as %llu requests\n", (unsigned long long)bytes, (unsigned long long)(built / KANHTREV_RECORD));
}
