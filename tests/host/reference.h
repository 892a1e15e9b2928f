/*
 * The calls of bellrafter.h that need no controller once more, in plain C: what the library's answers are compared
 * with.
 */
#ifndef REFERENCE_H
#define REFERENCE_H

#include "bellrafter.h"

uint64_t ref_completion_write(uint8_t *entry, size_t entry_bytes, uint32_t result, uint16_t sqhd, uint16_t sqid,
                              uint16_t cid, uint64_t status, uint64_t phase);
struct bellrafter_completion ref_completion_read(const uint8_t *entry, size_t entry_bytes);
uint64_t ref_submission_write(uint8_t *entry, size_t entry_bytes, uint8_t opc, uint64_t fuse, uint64_t psdt,
                              uint16_t cid, uint32_t nsid, uint64_t mptr, uint64_t prp1, uint64_t prp2, uint64_t slba,
                              uint16_t nlb, uint16_t cdw12_upper, uint32_t cdw13, uint32_t cdw14, uint32_t cdw15);
struct bellrafter_submission ref_submission_read(const uint8_t *entry, size_t entry_bytes);
struct bellrafter_waiting ref_ring_read(const uint8_t *ring, size_t ring_bytes, uint64_t size, uint64_t head,
                                        uint64_t phase);
uint64_t ref_tail_check(uint64_t size, uint64_t head, uint64_t tail, uint64_t value);
uint64_t ref_head_check(uint64_t size, uint64_t head, uint64_t tail, uint64_t value);
struct bellrafter_pages ref_page_walk(const uint8_t *memory, size_t memory_bytes, uint64_t prp1, uint64_t prp2,
                                      uint64_t length, uint64_t page, uint8_t *addresses, size_t address_bytes,
                                      uint8_t *counts, size_t count_bytes);

#endif
