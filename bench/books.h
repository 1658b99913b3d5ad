/* books.h: a file to measure assign with: label and modification blocks, each entry with tags of its own; and its facility book. */

#ifndef BOOKS_H
#define BOOKS_H

#include "book_rules.h"
#include "file.h"

enum { FRONT_WORDS_MOST = 4 * WORDS_IN_BLOCK, RECORDS_MOST = 4096, BOOK_BYTES_MOST = RECORDS_MOST * RECORD_BYTES };

/* The blocks of a file with these entries; gives how many words they have. */
uint64_t write_front(uint64_t *blocks, struct entries entries);

/* Writes record `at` of a book: the one for tag `which` of the file. Its tags are numbered through the kinds A, L and P; from
   tags_in(entries) on they are not the file's. */
void write_record(uint8_t *book, uint64_t at, uint64_t which, struct entries entries);

/* A record for each tag of the file, in an order that is not the file's; gives how many bytes they are. */
uint64_t write_whole_book(uint8_t *book, struct entries entries);

/* How many records such a book has. */
uint64_t tags_in(struct entries entries);

#endif
