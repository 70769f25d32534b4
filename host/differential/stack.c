/* How much stack the entries take: each runs on a thread whose stack is painted beforehand, and how much of it was written is
   printed, the thread's own part included. The run has 20,000 random calls, the file and the view as many blocks and wires as there is room for.

   cc -O1 -Ihost/include host/differential/stack.c target/staticlib/libkanhtrev.a -lpthread -o target/stack && target/stack */
#include <kanhtrev.h>
#include <pthread.h>
#include <stdint.h>
#include <stdio.h>
#include <stdlib.h>
#include <string.h>
#include <sys/mman.h>

enum { CALLS = 20000, WORDS = 5, STACK = 1 << 20, PAINT = 0xA5, BLOCKS = 1000, LINKS = BLOCKS - 1, FILE_BYTES = 65536 };

static uint32_t requests[CALLS * WORDS], answers[CALLS * WORDS], ring[(BLOCKS + LINKS) * WORDS], loaded[CALLS * WORDS];
static uint8_t file[FILE_BYTES], merged[FILE_BYTES], view[KANHTREV_LONGEST_VIEW];
static uint16_t times[KANHTREV_SLOTS];
static uint32_t path[KANHTREV_SLOTS];
static uint64_t file_bytes, loaded_bytes, merged_bytes, view_bytes, sum, path_blocks;

static void draw(uint32_t *request) {
    static const uint32_t below[10][5] = {
        {0}, {0, 5, 5}, {0, 40}, {0, 40, 40, 40}, {0, 300, 300}, {0, 300}, {0, 300, 3, 300, 3}, {0, 300, 3}, {0, 300, 3}, {0},
    };
    request[0] = 1 + rand() % 9;
    for (int word = 1; word < WORDS; word++) {
        uint32_t bound = below[request[0]][word];
        request[word] = bound ? rand() % bound : 0;
    }
}

static void *run(void *unused) {
    run_records((uint8_t *)requests, sizeof requests, (uint8_t *)answers, sizeof answers);
    return unused;
}

static void *save(void *unused) {
    file_bytes = save_records((uint8_t *)ring, sizeof ring, file, sizeof file);
    return unused;
}

static void *look(void *unused) {
    view_bytes = view_of_records((uint8_t *)ring, sizeof ring, view, sizeof view);
    return unused;
}

static void *load(void *unused) {
    loaded_bytes = records_of_file(file, file_bytes, (uint8_t *)loaded, sizeof loaded);
    return unused;
}

static void *merge(void *unused) {
    merged_bytes = merge_files(file, file_bytes, file, 0, merged, sizeof merged);
    return unused;
}

static void *longest(void *unused) {
    sum = longest_of_records((uint8_t *)ring, sizeof ring, times, KANHTREV_SLOTS, BLOCKS - 1);
    return unused;
}

static void *follow(void *unused) {
    path_blocks = path_of_records((uint8_t *)ring, sizeof ring, times, KANHTREV_SLOTS, BLOCKS - 1, path, KANHTREV_SLOTS);
    return unused;
}

static size_t taken(void *(*entry)(void *)) {
    uint8_t *stack = mmap(0, STACK, PROT_READ | PROT_WRITE, MAP_PRIVATE | MAP_ANONYMOUS, -1, 0);
    if (stack == MAP_FAILED)
        exit(1);
    memset(stack, PAINT, STACK);
    pthread_attr_t attributes;
    pthread_t thread;
    pthread_attr_init(&attributes);
    if (pthread_attr_setstack(&attributes, stack, STACK) || pthread_create(&thread, &attributes, entry, 0) || pthread_join(thread, 0))
        exit(1);
    size_t free_bytes = 0;
    while (free_bytes < STACK && stack[free_bytes] == PAINT)
        free_bytes++;
    munmap(stack, STACK);
    return STACK - free_bytes;
}

int main(void) {
    srand(5);
    for (int call = 0; call < CALLS; call++)
        draw(requests + WORDS * call);
    for (uint32_t block = 0; block < BLOCKS; block++)
        memcpy(ring + WORDS * block, (uint32_t[WORDS]){1, 1, 1}, WORDS * sizeof *ring);
    for (uint32_t link = 0; link < LINKS; link++)
        memcpy(ring + WORDS * (BLOCKS + link), (uint32_t[WORDS]){4, 2 * link + 1, 2 * link + 2}, WORDS * sizeof *ring);
    size_t bytes = taken(run);
    int accepted = 0;
    for (int call = 0; call < CALLS; call++)
        accepted += answers[WORDS * call] == 0;
    printf("run_records: %d of %d calls accepted, %zu bytes of stack\n", accepted, CALLS, bytes);
    bytes = taken(save);
    printf("save_records: a file of %llu bytes, %zu bytes of stack\n", (unsigned long long)file_bytes, bytes);
    bytes = taken(load);
    printf("records_of_file: %llu requests, %zu bytes of stack\n", (unsigned long long)(loaded_bytes / 20), bytes);
    bytes = taken(merge);
    printf("merge_files: a file of %llu bytes, %zu bytes of stack\n", (unsigned long long)merged_bytes, bytes);
    bytes = taken(look);
    printf("view_of_records: a view of %llu bytes, %zu bytes of stack\n", (unsigned long long)view_bytes, bytes);
    for (int slot = 0; slot < KANHTREV_SLOTS; slot++)
        times[slot] = 65535;
    bytes = taken(longest);
    printf("longest_of_records: a sum of %llu, %zu bytes of stack\n", (unsigned long long)sum, bytes);
    bytes = taken(follow);
    printf("path_of_records: a path of %llu blocks, %zu bytes of stack\n", (unsigned long long)path_blocks, bytes);
}
