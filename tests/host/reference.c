#include "reference.h"

#include <stdbool.h>

/* The `width` bytes at `bytes`, little-endian. */
static uint64_t get(const uint8_t *bytes, int width)
{
    uint64_t value = 0;

    for (int i = width - 1; i >= 0; i--)
        value = value << 8 | bytes[i];
    return value;
}

static void set(uint8_t *bytes, int width, uint64_t value)
{
    for (int i = 0; i < width; i++)
        bytes[i] = (uint8_t)(value >> (8 * i));
}

uint64_t ref_completion_write(uint8_t *entry, size_t entry_bytes, uint32_t result, uint16_t sqhd, uint16_t sqid,
                              uint16_t cid, uint64_t status, uint64_t phase)
{
    if (status > 32767)
        return BELLRAFTER_STATUS;
    if (entry_bytes < 16)
        return BELLRAFTER_BUFFER;
    set(entry, 4, result);
    set(entry + 4, 4, 0);
    set(entry + 8, 2, sqhd);
    set(entry + 10, 2, sqid);
    set(entry + 12, 2, cid);
    set(entry + 14, 2, 2 * status + phase % 2);
    return BELLRAFTER_DONE;
}

struct bellrafter_completion ref_completion_read(const uint8_t *entry, size_t entry_bytes)
{
    if (entry_bytes < 16)
        return (struct bellrafter_completion){.refusal = BELLRAFTER_BUFFER};
    return (struct bellrafter_completion){
        .result = (uint32_t)get(entry, 4),
        .sqhd = (uint16_t)get(entry + 8, 2),
        .sqid = (uint16_t)get(entry + 10, 2),
        .cid = (uint16_t)get(entry + 12, 2),
        .status = (uint16_t)(get(entry + 14, 2) / 2),
        .phase = entry[14] % 2,
    };
}

uint64_t ref_submission_write(uint8_t *entry, size_t entry_bytes, uint8_t opc, uint64_t fuse, uint64_t psdt,
                              uint16_t cid, uint32_t nsid, uint64_t mptr, uint64_t prp1, uint64_t prp2, uint64_t slba,
                              uint16_t nlb, uint16_t cdw12_upper, uint32_t cdw13, uint32_t cdw14, uint32_t cdw15)
{
    if (entry_bytes < 64)
        return BELLRAFTER_BUFFER;
    set(entry, 1, opc);
    set(entry + 1, 1, psdt % 4 << 6 | fuse % 4);
    set(entry + 2, 2, cid);
    set(entry + 4, 4, nsid);
    set(entry + 8, 8, 0);
    set(entry + 16, 8, mptr);
    set(entry + 24, 8, prp1);
    set(entry + 32, 8, prp2);
    set(entry + 40, 8, slba);
    set(entry + 48, 2, nlb);
    set(entry + 50, 2, cdw12_upper);
    set(entry + 52, 4, cdw13);
    set(entry + 56, 4, cdw14);
    set(entry + 60, 4, cdw15);
    return BELLRAFTER_DONE;
}

struct bellrafter_submission ref_submission_read(const uint8_t *entry, size_t entry_bytes)
{
    if (entry_bytes < 64)
        return (struct bellrafter_submission){.refusal = BELLRAFTER_BUFFER};
    return (struct bellrafter_submission){
        .opc = entry[0],
        .fuse = entry[1] % 4,
        .psdt = entry[1] / 64,
        .cid = (uint16_t)get(entry + 2, 2),
        .nsid = (uint32_t)get(entry + 4, 4),
        .mptr = get(entry + 16, 8),
        .prp1 = get(entry + 24, 8),
        .prp2 = get(entry + 32, 8),
        .slba = get(entry + 40, 8),
        .nlb = (uint16_t)get(entry + 48, 2),
        .cdw12_upper = (uint16_t)get(entry + 50, 2),
        .cdw13 = (uint32_t)get(entry + 52, 4),
        .cdw14 = (uint32_t)get(entry + 56, 4),
        .cdw15 = (uint32_t)get(entry + 60, 4),
    };
}

static bool size_wrong(uint64_t size)
{
    return size < 2 || size > 1024;
}

struct bellrafter_waiting ref_ring_read(const uint8_t *ring, size_t ring_bytes, uint64_t size, uint64_t head,
                                        uint64_t phase)
{
    if (size_wrong(size))
        return (struct bellrafter_waiting){BELLRAFTER_RING_SIZE, 0};
    if (ring_bytes < 16 * size)
        return (struct bellrafter_waiting){BELLRAFTER_RING_MEMORY, 0};
    if (head >= size)
        return (struct bellrafter_waiting){BELLRAFTER_DOORBELL, 0};

    uint64_t count = 0, slot = head, expected = phase % 2;
    while (count < size - 1 && ring[16 * slot + 14] % 2 == expected) {
        count++;
        slot++;
        if (slot == size) {
            slot = 0;
            expected = 1 - expected;
        }
    }
    return (struct bellrafter_waiting){BELLRAFTER_DONE, count};
}

/* How far `to` lies ahead of `from` in a ring; both are below the size. */
static uint64_t distance(uint64_t size, uint64_t from, uint64_t to)
{
    return (to + size - from) % size;
}

/* "a write of the value held is refused with 10 on either doorbell, in the plain checks too" */

uint64_t ref_tail_check(uint64_t size, uint64_t head, uint64_t tail, uint64_t value)
{
    if (size_wrong(size))
        return BELLRAFTER_RING_SIZE;
    if (head >= size || tail >= size || value >= size || distance(size, head, value) < distance(size, head, tail))
        return BELLRAFTER_DOORBELL;
    if (value == tail)
        return BELLRAFTER_DOORBELL;
    return BELLRAFTER_DONE;
}

uint64_t ref_head_check(uint64_t size, uint64_t head, uint64_t tail, uint64_t value)
{
    if (size_wrong(size))
        return BELLRAFTER_RING_SIZE;
    if (head >= size || tail >= size || value >= size || distance(size, head, value) > distance(size, head, tail))
        return BELLRAFTER_DOORBELL;
    if (value == head)
        return BELLRAFTER_DOORBELL;
    return BELLRAFTER_DONE;
}

/* Reads the PRP list at `at` until it has given `left` pages; answers the refusal number. */
static uint64_t read_list(const uint8_t *memory, size_t memory_bytes, uint64_t page_bytes, uint64_t at,
                          uint64_t *pages, uint64_t left, uint64_t *reads)
{
    while (left > 0) {
        if (memory_bytes < 8 || at > memory_bytes - 8)
            return BELLRAFTER_PRP_MEMORY;
        uint64_t value = get(memory + at, 8);
        ++*reads;
        if (value % page_bytes != 0)
            return BELLRAFTER_PRP_OFFSET;
        if (at % page_bytes == page_bytes - 8 && left > 1) {
            at = value;
        } else {
            *pages++ = value;
            left--;
            at += 8;
        }
    }
    return BELLRAFTER_DONE;
}

/* Finds the `left` pages after the first one; answers the refusal number. */
static uint64_t other_pages(const uint8_t *memory, size_t memory_bytes, uint64_t page_bytes, uint64_t prp2,
                            uint64_t *pages, uint64_t left, uint64_t *reads)
{
    if (left == 0)
        return BELLRAFTER_DONE;
    if (prp2 % (left == 1 ? page_bytes : 8) != 0)
        return BELLRAFTER_PRP_OFFSET;
    if (left > 1)
        return read_list(memory, memory_bytes, page_bytes, prp2, pages, left, reads);
    pages[0] = prp2;
    return BELLRAFTER_DONE;
}

struct bellrafter_pages ref_page_walk(const uint8_t *memory, size_t memory_bytes, uint64_t prp1, uint64_t prp2,
                                      uint64_t length, uint64_t page, uint8_t *addresses, size_t address_bytes,
                                      uint8_t *counts, size_t count_bytes)
{
    if (length < 1 || length > 1048576)
        return (struct bellrafter_pages){BELLRAFTER_LENGTH, 0, 0};
    if (page > 4)
        return (struct bellrafter_pages){BELLRAFTER_PAGE_SIZE, 0, 0};
    if (prp1 % 4 != 0)
        return (struct bellrafter_pages){BELLRAFTER_PRP_OFFSET, 0, 0};

    uint64_t page_bytes = (uint64_t)4096 << page;
    uint64_t offset = prp1 % page_bytes;
    uint64_t pages = (offset + length - 1) / page_bytes + 1;
    if (address_bytes < 8 * pages || count_bytes < 4 * pages)
        return (struct bellrafter_pages){BELLRAFTER_BUFFER, 0, 0};

    uint64_t found[257] = {prp1};
    uint64_t reads = 0;
    uint64_t refusal = other_pages(memory, memory_bytes, page_bytes, prp2, found + 1, pages - 1, &reads);
    if (refusal != BELLRAFTER_DONE)
        return (struct bellrafter_pages){refusal, 0, 0};

    uint64_t room = page_bytes - offset;
    for (uint64_t i = 0; i < pages; i++) {
        uint64_t here = length < room ? length : room;
        set(addresses + 8 * i, 8, found[i]);
        set(counts + 4 * i, 4, here);
        length -= here;
        room = page_bytes;
    }
    return (struct bellrafter_pages){BELLRAFTER_DONE, pages, reads};
}
