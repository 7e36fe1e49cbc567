/* pools wide       prints a pool of 128 buffers of which one is in use, by two holders
   pools runs       prints one whose free list is long and has no rising runs, with a name for one file
   pools dump FILE  writes two pools' snapshots, step by step, to one file
   pools told FILE  writes one pool's, of pages that go, of a block that is damaged, of a bad cap, of damage that comes and goes, and of a
                    page with several holders
   pools full       status 0 if a dump on a full device results in -1 */
#include <stdlib.h>

#include "lend.h"

/* A step writes what it did to the file of snapshots. */
struct day {
    struct bufpool m;
    FILE *dump;
    uint32_t pool;
};

static void put(struct day *day, struct bufpool_event event)
{
    event.pool = day->pool;
    see(bufpool_dump(day->dump, &day->m, &event) == 0, "dump");
}

static void note(struct day *day, const char *text)
{
    put(day, bufpool_event_of_call(text, BUFPOOL_DONE));
}

/* A holder's pin, and its snapshot unless who is null. */
static void pin(struct day *day, uint64_t holder, const char *who, struct bufpool_file file, uint32_t block, uint32_t wanted)
{
    struct bufpool_pinned pinned;
    struct bufpool_name name = bufpool_name_of(file, block);
    uint32_t refusal = bufpool_pin_page(&day->m, bufpool_holder_of(holder), name, &pinned);
    see(refusal == wanted, "pin");
    if (who != NULL) put(day, bufpool_event_of_pin(who, name, refusal, &pinned));
}

static void unpin(struct day *day, uint64_t holder, uint64_t number)
{
    struct bufpool_buffer buffer = {number};
    see(bufpool_unpin_buffer(&day->m, bufpool_holder_of(holder), buffer) == BUFPOOL_DONE, "unpin");
}

static void give_all_back(struct day *day, uint64_t holder)
{
    see(bufpool_give_back_pins(&day->m, bufpool_holder_of(holder)) == BUFPOOL_DONE, "give back");
}

static void write_line(struct day *day, uint64_t holder, uint64_t number, uint64_t position)
{
    static const uint8_t line[] = "2 loaves, 5.40";
    struct bufpool_buffer buffer = {number};
    see(bufpool_log_inserted_to(&day->m, position) == BUFPOOL_DONE, "log inserted");
    see(bufpool_write_buffer(&day->m, bufpool_holder_of(holder), buffer, 24, line, sizeof line, position) == BUFPOOL_DONE, "write");
}

/* Three buffers: each thing that can happen to a page. */
static void small_day(struct day *day)
{
    uint64_t written;
    note(day, "the till is set up");
    pin(day, 1, "till 1", table_file, 0, BUFPOOL_DONE);
    write_line(day, 1, 0, 147);
    note(day, "till 1 writes a line");
    pin(day, 1, "", table_file, 0, BUFPOOL_DONE);
    pin(day, 2, "till 2", table_file, 1, BUFPOOL_DONE);
    pin(day, 2, "till 2", map_file, 2, BUFPOOL_DONE);
    pin(day, 3, "till 3", table_file, 3, BUFPOOL_ALL_PINNED);
    pin(day, 3, "till 3", table_file, 99, BUFPOOL_NO_BLOCK);
    unpin(day, 1, 0);
    unpin(day, 1, 0);
    note(day, "till 1 gives both pins back, and the text of this step is longer than the eighty characters that it may have");
    see(bufpool_log_flushed_to(&day->m, 147) == BUFPOOL_DONE, "log flushed");
    put(day, bufpool_event_of(BUFPOOL_EVENT_NONE, NULL));
    pin(day, 3, "till 3", table_file, 3, BUFPOOL_DONE);
    unpin(day, 3, 0);
    give_all_back(day, 2);
    pin(day, 2, NULL, table_file, 1, BUFPOOL_DONE);
    write_line(day, 2, 1, 150);
    unpin(day, 2, 1);
    note(day, "three \033[31msteps\n in one");
    see(bufpool_checkpoint_pool(&day->m, &written) == BUFPOOL_DONE && written == 1, "checkpoint");
    note(day, "checkpoint");
    see(bufpool_drop_file(&day->m, map_file) == BUFPOOL_DONE, "drop");
    note(day, "the map is dropped");
    day->m.chain[0] ^= 1; /* not sound any more: no call follows */
    note(day, "a link is damaged");
}

/* 128 buffers with cap 7, every page with the greatest usage: the next pin looks at each buffer seven times, and at one again. */
static void long_sweep(struct day *day)
{
    uint32_t k;
    note(day, "set up");
    for (k = 0; k < 8 * 128; k++) {
        pin(day, 0, NULL, table_file, k % 128, BUFPOOL_DONE);
        unpin(day, 0, k % 128);
    }
    note(day, "every page is used eight times");
    pin(day, 1, "till 1", table_file, 128, BUFPOOL_DONE);
    unpin(day, 1, 0);
    pin(day, 1, NULL, table_file, 0, BUFPOOL_DONE);
    pin(day, 2, "till 2", table_file, 1, BUFPOOL_DONE);
}

static void drop(struct day *day, struct bufpool_file file)
{
    see(bufpool_drop_file(&day->m, file) == BUFPOOL_DONE, "drop");
}

static void extend(struct day *day, struct bufpool_file file)
{
    uint32_t block;
    see(bufpool_extend_file(&day->m, file, &block) == BUFPOOL_DONE, "extend");
}

/* One buffer. What became of a page is known only where the step before is from right before the sweep. */
static void pages_go(struct day *day)
{
    pin(day, 1, NULL, table_file, 0, BUFPOOL_DONE);
    write_line(day, 1, 0, 147);
    unpin(day, 1, 0);
    note(day, "a page is dirty");
    drop(day, table_file);
    pin(day, 1, "its file is dropped: till 1", map_file, 1, BUFPOOL_DONE);
    unpin(day, 1, 0);
    drop(day, map_file);
    extend(day, table_file);
    pin(day, 2, "that file too: till 2", table_file, 0, BUFPOOL_DONE);
    write_line(day, 2, 0, 150);
    note(day, "till 2 writes");
    unpin(day, 2, 0);
    extend(day, table_file);
    pin(day, 1, "two steps in one: till 1", table_file, 1, BUFPOOL_DONE);
    write_line(day, 1, 0, 160);
    unpin(day, 1, 0);
    note(day, "till 1 writes");
    pin(day, 2, "till 2", table_file, 0, BUFPOOL_DONE);
    write_line(day, 2, 0, 170);
    unpin(day, 2, 0);
    note(day, "till 2 writes");
    drop(day, table_file);
    note(day, "its file is dropped");
}

/* The sweep writes a page back that was loaded and written after the step before: that one's page was clean, and went with its file. */
static void page_between(struct day *day)
{
    extend(day, table_file);
    extend(day, table_file);
    pin(day, 1, NULL, table_file, 1, BUFPOOL_DONE);
    unpin(day, 1, 0);
    note(day, "a page is clean");
    drop(day, table_file);
    extend(day, table_file);
    extend(day, table_file);
    pin(day, 1, NULL, table_file, 1, BUFPOOL_DONE);
    write_line(day, 1, 0, 180);
    unpin(day, 1, 0);
    pin(day, 1, "several steps in one: till 1", table_file, 0, BUFPOOL_DONE);
}

/* A block changes on the card: its pin is refused before a buffer is sought, though the only one is pinned. */
static void block_changes(struct day *day)
{
    day->m.store[bufpool_page_size(&day->m) + 100] ^= 1;
    pin(day, 2, "its block has changed: till 2", table_file, 1, BUFPOOL_CHECKSUM);
}

/* No call accepts this pool: what the snapshots say of a pin is not followed by a cap that none is. */
static void cap_is_bad(struct day *day)
{
    const struct bufpool_pinned pinned = {{0}, 0, 0, 1};
    unpin(day, 1, 0);
    day->m.states[0] &= ~(15u << 18);
    day->m.control[BUFPOOL_CONTROL_AT_CAP] = BUFPOOL_MAX_CAP + 1;
    note(day, "the cap is beyond");
    put(day, bufpool_event_of_pin("till 1", bufpool_name_of(table_file, 1), BUFPOOL_DONE, &pinned));
    day->m.control[BUFPOOL_CONTROL_AT_CAP] = 2;
    pin(day, 1, "the cap is back: till 1", table_file, 0, BUFPOOL_DONE);
    day->m.control_len--;
    note(day, "five control words, as before the cap");
    day->m.control_len++;
    note(day, "six again");
}

static void damage_comes(struct day *day)
{
    day->m.rows[BUFPOOL_ROW_AT_CAPACITY]++;
    note(day, "a row is damaged");
    note(day, "and stays so");
    day->m.rows[BUFPOOL_ROW_AT_CAPACITY]--;
    day->m.control[BUFPOOL_CONTROL_AT_HAND] = 1;
    note(day, "the hand instead");
    day->m.control[BUFPOOL_CONTROL_AT_HAND] = 0;
    note(day, "all is well");
    day->m.states[0] ^= 1u << 31;
    note(day, "a flag is gone");
    day->m.rows[BUFPOOL_FILE_AT_FORK] = 2;
    note(day, "a row is another file's");
    day->m.control[BUFPOOL_CONTROL_AT_PAGE_SIZE] = 3;
    note(day, "no such blocks");
    day->m.control[BUFPOOL_CONTROL_AT_PAGE_SIZE] = 5;
    note(day, "nor these");
}

/* One page with several holders; then damage to counts that no word shows, of a page and of an empty buffer. */
static void counts_change(struct day *day)
{
    day->m.control[BUFPOOL_CONTROL_AT_PAGE_SIZE] = 1024;
    day->m.rows[BUFPOOL_FILE_AT_FORK] = 0;
    day->m.states[0] ^= 1u << 31;
    note(day, "all is mended");
    pin(day, 1, "a second pin: till 1", table_file, 0, BUFPOOL_DONE);
    pin(day, 2, "till 2", table_file, 0, BUFPOOL_DONE);
    pin(day, 63, "till 63", table_file, 0, BUFPOOL_DONE);
    unpin(day, 1, 0);
    note(day, "till 1 gives one of its pins back");
    give_all_back(day, 63);
    give_all_back(day, 1);
    note(day, "two tills have died");
    day->m.counts[5] = 1;
    note(day, "a count is damaged");
    day->m.counts[5] = 0;
    give_all_back(day, 2);
    drop(day, table_file);
    note(day, "its file is dropped");
    day->m.counts[5] = 1;
    note(day, "a count of an empty buffer");
}

static void write_told(const char *path)
{
    struct day day = {lend(1, 1, 6, 2), fopen(path, "wb"), 0};
    see(day.dump != NULL, "a file for the dump");
    pages_go(&day);
    page_between(&day);
    block_changes(&day);
    cap_is_bad(&day);
    damage_comes(&day);
    counts_change(&day);
    see(fclose(day.dump) == 0, "the dump is closed");
    give_back(&day.m);
}

/* The steps of both pools stand one after the other, but for the last, which is the first pool's. */
static void write_dump(const char *path)
{
    struct day small = {lend(3, 5, 6, 5), fopen(path, "wb"), 0}, wide = {lend(128, 256, 129, 7), small.dump, 1};
    see(small.dump != NULL, "a file for the dump");
    small_day(&small);
    long_sweep(&wide);
    note(&small, "the first pool again");
    put(&small, bufpool_event_of(BUFPOOL_EVENT_END, "never shown"));
    see(fclose(small.dump) == 0, "the dump is closed");
    give_back(&small.m);
    give_back(&wide.m);
}

static void print_wide(void)
{
    static const uint64_t holders[] = {0, 63, 7, 63};
    struct day day = {lend(128, 256, 129, 15), NULL, 0};
    size_t k;
    for (k = 0; k < sizeof holders / sizeof *holders; k++) pin(&day, holders[k], NULL, table_file, 7, BUFPOOL_DONE);
    unpin(&day, 0, 0);
    write_line(&day, 7, 0, 147);
    bufpool_print(stdout, &day.m);
    give_back(&day.m);
}

static void print_runs(void)
{
    static const struct bufpool_file_name names[] = {{{1663, 5, 16384, 0}, "receipts"}};
    struct day day = {lend(40, 64, 40, 1), NULL, 0};
    uint32_t k;
    for (k = 0; k < 40; k++) {
        pin(&day, 0, NULL, k % 10 < 9 ? map_file : table_file, k, BUFPOOL_DONE);
        unpin(&day, 0, k);
    }
    see(bufpool_drop_file(&day.m, map_file) == BUFPOOL_DONE, "drop");
    bufpool_print_named(stdout, &day.m, names, 1);
    give_back(&day.m);
}

static int full_device(void)
{
    FILE *full = fopen("/dev/full", "wb");
    struct bufpool m = lend(3, 5, 6, 5);
    int result;
    see(full != NULL, "/dev/full");
    result = bufpool_dump(full, &m, NULL);
    fclose(full);
    give_back(&m);
    return result == -1 ? 0 : 1;
}

int main(int argc, char **argv)
{
    if (argc == 3 && strcmp(argv[1], "dump") == 0) {
        write_dump(argv[2]);
    } else if (argc == 3 && strcmp(argv[1], "told") == 0) {
        write_told(argv[2]);
    } else if (argc == 2 && strcmp(argv[1], "wide") == 0) {
        print_wide();
    } else if (argc == 2 && strcmp(argv[1], "runs") == 0) {
        print_runs();
    } else {
        return argc == 2 && strcmp(argv[1], "full") == 0 ? full_device() : 2;
    }
    return 0;
}
