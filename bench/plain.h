/* The six calls of bellrafter.h in plain C, written for speed: what the exports are timed against. */
#ifndef PLAIN_H
#define PLAIN_H

#include "bellrafter.h"

uint64_t plain_completion_write(uint8_t *entry, size_t entry_bytes, uint32_t result, uint16_t sqhd, uint16_t sqid,
                                uint16_t cid, uint64_t status, uint64_t phase);
struct bellrafter_completion plain_completion_read(const uint8_t *entry, size_t entry_bytes);
struct bellrafter_waiting plain_ring_read(const uint8_t *ring, size_t ring_bytes, uint64_t size, uint64_t head,
                                          uint64_t phase);
uint64_t plain_tail_check(uint64_t size, uint64_t head, uint64_t tail, uint64_t value);
uint64_t plain_head_check(uint64_t size, uint64_t head, uint64_t tail, uint64_t value);
struct bellrafter_pages plain_page_walk(const uint8_t *memory, size_t memory_bytes, uint64_t prp1, uint64_t prp2,
                                        uint64_t length, uint64_t page, uint8_t *addresses, size_t address_bytes,
                                        uint8_t *counts, size_t count_bytes);

#endif
