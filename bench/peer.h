/* peer.h: a loader in C with the duties of the library and written for speed, to measure the library beside. Each call takes what
   the call of that name in clamp.h takes, and gives the same answer, over the same desk (docs/DESK.md): it tests the whole desk
   first, and leaves desk and core as the library leaves them. Reseal, needs and assign have no desk, and leave the block and the
   lists so. */

#ifndef PEER_H
#define PEER_H

#include <stdint.h>

uint64_t peer_make(uint64_t *desk, uint64_t desk_len, uint64_t core_len, const uint64_t *map, uint64_t map_len);

uint64_t peer_open(uint64_t *desk, uint64_t desk_len, uint64_t *core, uint64_t core_len, uint64_t room, uint64_t area,
                   uint64_t size, const uint64_t *io, uint64_t io_len, const uint64_t *tables, uint64_t tables_len);

uint64_t peer_feed(uint64_t *desk, uint64_t desk_len, uint64_t *core, uint64_t core_len, uint64_t room, uint64_t place,
                   const uint64_t *block, uint64_t block_len);

uint64_t peer_release(uint64_t *desk, uint64_t desk_len, uint64_t core_len, uint64_t room, uint64_t place);

uint64_t peer_reseal(uint64_t *block, uint64_t block_len, uint64_t index);

uint64_t peer_needs(const uint64_t *label, uint64_t label_len);

uint64_t peer_assign(const uint8_t *book, uint64_t book_len, const uint64_t *blocks, uint64_t blocks_len, uint64_t *io,
                     uint64_t io_len, uint64_t *tables, uint64_t tables_len);

#endif
