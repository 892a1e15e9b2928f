#include "plain.h"

#include <string.h>

/* Integers are copied to and from bytes as they are: the machine is little-endian. */
static inline uint16_t get16(const uint8_t *bytes)
{
    uint16_t value;

    memcpy(&value, bytes, sizeof value);
    return value;
}

static inline uint32_t get32(const uint8_t *bytes)
{
    uint32_t value;

    memcpy(&value, bytes, sizeof value);
    return value;
}

static inline uint64_t get64(const uint8_t *bytes)
{
    uint64_t value;

    memcpy(&value, bytes, sizeof value);
    return value;
}

static inline void put32(uint8_t *bytes, uint32_t value)
{
    memcpy(bytes, &value, sizeof value);
}

static inline void put64(uint8_t *bytes, uint64_t value)
{
    memcpy(bytes, &value, sizeof value);
}

/* A completion queue entry. */
struct entry {
    uint32_t result;
    uint32_t reserved;
    uint16_t sqhd;
    uint16_t sqid;
    uint16_t cid;
    uint16_t status_and_tag;
};

uint64_t plain_completion_write(uint8_t *entry, size_t entry_bytes, uint32_t result, uint16_t sqhd, uint16_t sqid,
                                uint16_t cid, uint64_t status, uint64_t phase)
{
    if (status > 32767)
        return BELLRAFTER_STATUS;
    if (entry_bytes < sizeof(struct entry))
        return BELLRAFTER_BUFFER;
    struct entry e = {result, 0, sqhd, sqid, cid, (uint16_t)(status << 1 | (phase & 1))};
    memcpy(entry, &e, sizeof e);
    return BELLRAFTER_DONE;
}

struct bellrafter_completion plain_completion_read(const uint8_t *entry, size_t entry_bytes)
{
    if (entry_bytes < sizeof(struct entry))
        return (struct bellrafter_completion){.refusal = BELLRAFTER_BUFFER};
    uint16_t last = get16(entry + 14);
    return (struct bellrafter_completion){
        .result = get32(entry),
        .sqhd = get16(entry + 8),
        .sqid = get16(entry + 10),
        .cid = get16(entry + 12),
        .status = last >> 1,
        .phase = last & 1,
    };
}

/* How many of the `most` entries at `entry`, from the first on, have the phase tag. */
static uint64_t run_of(const uint8_t *entry, uint64_t most, uint64_t phase)
{
    uint64_t n = 0;

    while (n < most && (entry[16 * n + 14] & 1) == phase)
        n++;
    return n;
}

struct bellrafter_waiting plain_ring_read(const uint8_t *ring, size_t ring_bytes, uint64_t size, uint64_t head,
                                          uint64_t phase)
{
    if (size < 2 || size > 1024)
        return (struct bellrafter_waiting){BELLRAFTER_RING_SIZE, 0};
    if (ring_bytes < 16 * size)
        return (struct bellrafter_waiting){BELLRAFTER_RING_MEMORY, 0};
    if (head >= size)
        return (struct bellrafter_waiting){BELLRAFTER_DOORBELL, 0};
    uint64_t ahead = size - head;
    if (ahead > size - 1)
        ahead = size - 1;
    phase &= 1;
    uint64_t count = run_of(ring + 16 * head, ahead, phase);
    if (count == ahead)
        count += run_of(ring, size - 1 - ahead, phase ^ 1);
    return (struct bellrafter_waiting){BELLRAFTER_DONE, count};
}

/* How far `to` lies after `from`; both are below `size`. */
static inline uint64_t distance(uint64_t size, uint64_t from, uint64_t to)
{
    return from <= to ? to - from : to + size - from;
}

uint64_t plain_tail_check(uint64_t size, uint64_t head, uint64_t tail, uint64_t value)
{
    if (size < 2 || size > 1024)
        return BELLRAFTER_RING_SIZE;
    if (head >= size || tail >= size || value >= size || distance(size, head, value) <= distance(size, head, tail))
        return BELLRAFTER_DOORBELL;
    return BELLRAFTER_DONE;
}

uint64_t plain_head_check(uint64_t size, uint64_t head, uint64_t tail, uint64_t value)
{
    if (size < 2 || size > 1024)
        return BELLRAFTER_RING_SIZE;
    if (head >= size || tail >= size || value >= size || value == head ||
        distance(size, head, value) > distance(size, head, tail))
        return BELLRAFTER_DOORBELL;
    return BELLRAFTER_DONE;
}

/*
 * Checks the PRP list at `at`, of `left` pages: the entries of a list page that lie in memory all at once. Answers the
 * refusal number.
 */
static uint64_t check_list(const uint8_t *memory, size_t memory_bytes, uint64_t page_bytes, uint64_t at,
                           uint64_t left, uint64_t *reads)
{
    *reads = 0;
    for (;;) {
        uint64_t here = (page_bytes - (at & (page_bytes - 1))) / 8;
        uint64_t wanted = left <= here ? left : here;
        uint64_t inside = at < memory_bytes ? (memory_bytes - at) / 8 : 0;
        uint64_t count = wanted < inside ? wanted : inside;
        uint64_t value = 0, bits = 0;

        for (uint64_t i = 0; i < count; i++) {
            value = get64(memory + at + 8 * i);
            bits |= value;
        }
        if (bits & (page_bytes - 1))
            return BELLRAFTER_PRP_OFFSET;
        if (count < wanted)
            return BELLRAFTER_PRP_MEMORY;
        *reads += count;
        if (left <= here)
            return BELLRAFTER_DONE;
        left -= here - 1;
        at = value;
    }
}

/* Copies the addresses of `left` pages from the checked PRP list at `at`. */
static void copy_list(const uint8_t *memory, uint64_t page_bytes, uint64_t at, uint8_t *addresses, uint64_t left)
{
    for (;;) {
        uint64_t here = (page_bytes - (at & (page_bytes - 1))) / 8;

        if (left <= here) {
            memcpy(addresses, memory + at, 8 * left);
            return;
        }
        memcpy(addresses, memory + at, 8 * (here - 1));
        addresses += 8 * (here - 1);
        left -= here - 1;
        at = get64(memory + at + 8 * (here - 1));
    }
}

/* Stores the byte counts of `pages` pages: the first has room for `room` bytes, those before the last are full. */
static void store_counts(uint8_t *counts, uint64_t pages, uint64_t room, uint64_t page_bytes, uint64_t length)
{
    if (pages == 1) {
        put32(counts, (uint32_t)length);
        return;
    }
    put32(counts, (uint32_t)room);
    for (uint64_t i = 1; i < pages - 1; i++)
        put32(counts + 4 * i, (uint32_t)page_bytes);
    put32(counts + 4 * (pages - 1), (uint32_t)(length - room - (pages - 2) * page_bytes));
}

/* The result buffers stay as they are where a later entry is refused, so the list is read twice: that was faster
   than a copy on the stack. */
struct bellrafter_pages plain_page_walk(const uint8_t *memory, size_t memory_bytes, uint64_t prp1, uint64_t prp2,
                                        uint64_t length, uint64_t page, uint8_t *addresses, size_t address_bytes,
                                        uint8_t *counts, size_t count_bytes)
{
    uint64_t reads = 0;

    if (length < 1 || length > 1048576)
        return (struct bellrafter_pages){BELLRAFTER_LENGTH, 0, 0};
    if (page > 4)
        return (struct bellrafter_pages){BELLRAFTER_PAGE_SIZE, 0, 0};
    if (prp1 % 4 != 0)
        return (struct bellrafter_pages){BELLRAFTER_PRP_OFFSET, 0, 0};

    uint64_t page_bytes = (uint64_t)4096 << page;
    uint64_t offset = prp1 & (page_bytes - 1);
    uint64_t pages = (offset + length + page_bytes - 1) >> (12 + page);
    if (address_bytes < 8 * pages || count_bytes < 4 * pages)
        return (struct bellrafter_pages){BELLRAFTER_BUFFER, 0, 0};

    if (pages == 2) {
        if (prp2 & (page_bytes - 1))
            return (struct bellrafter_pages){BELLRAFTER_PRP_OFFSET, 0, 0};
        put64(addresses + 8, prp2);
    } else if (pages > 2) {
        if (prp2 % 8 != 0)
            return (struct bellrafter_pages){BELLRAFTER_PRP_OFFSET, 0, 0};
        uint64_t refusal = check_list(memory, memory_bytes, page_bytes, prp2, pages - 1, &reads);
        if (refusal != BELLRAFTER_DONE)
            return (struct bellrafter_pages){refusal, 0, 0};
        copy_list(memory, page_bytes, prp2, addresses + 8, pages - 1);
    }
    put64(addresses, prp1);
    store_counts(counts, pages, page_bytes - offset, page_bytes, length);
    return (struct bellrafter_pages){BELLRAFTER_DONE, pages, reads};
}
