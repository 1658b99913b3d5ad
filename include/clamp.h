/* clamp.h: the CLAMP loader for an emulated UNIVAC 1107, to be linked with libclamp.a (x86-64).

   The loader reads program files of the 1962 CLAMP reference, a block at a time, for eight rooms at once. This header is its
   manual: what each call takes, every answer that it can give and when, and what it leaves behind. examples/host.c is a whole host;
   a short one is at the end of this file. docs/FORMAT.md describes the file.


   WHAT THE EMULATOR KEEPS

   Everything is a uint64_t, but for the bytes of a facility book. The loader keeps nothing of its own between two calls, and
   allocates no memory: all that it knows stands in a desk, which the emulator keeps and lends to each call.

     desk     CLAMP_DESK_WORDS numbers. Make fills it, open, feed and release keep it. Do not write into it: they test the whole
              desk first, and answer one that cannot be right with refusal 1. Two desks have nothing to do with each other.
     core     the words of the emulated core, one 36-bit word in each number, from 1 to 65,536 of them. The loader reads no core
              word, and stores only values below 2^36.
     map      which stretch of the core belongs to which room: start and length of room 0's, of room 1's, and so on to room 7's,
              16 numbers. Make copies it into the desk.

   A room (0 to 7) loads a program into an area, a run of words in its stretch. While it does, it holds one of the desk's twelve
   places (0 to 11): open gives the place, release gives it back. A load that is complete, or that a bad block has broken, holds
   its place and area until released.

   A run of n words from a is the words a to a + n - 1. A run of no words is empty: it shares no word with anything. It still has
   to lie inside what holds it, but may start at its very end. A sum past 2^64 does not wrap: such a run lies inside nothing.


   WORDS OF THE FILE

     block          256 words of the tape. The first of a file is its label, the last its termination block. One of them is its
                    checksum.
     entry          what the file says of one thing that it refers to by number: an I/O reference or a table.
     I/O reference  a jump switch, a channel or a unit. Open is given the number that is to stand for it.
     table          a core table: words of the area beside the program's own. Open is given its address and length.
     IBANK, DBANK   the program's own two runs of words: its instructions and its data.
     section        a part of the program blocks: the segment section fills IBANK and DBANK, a table section fills one table.
     group          a run of program words with one address, and after them which of their fields are changed, and how.
     tag            a word of an entry: the name, in six characters of Fieldata, that the program's source had for it.
     book           a facility book: for tags, what is assigned to them (clamp_assign).


   WHAT IS TAKEN ON TRUST

   A pointer and the number after it lend a call that many numbers, or that many bytes of a book. The loader cannot see whether that
   is so, and trusts that

     - lent memory is as long as said, aligned as a uint64_t is (a book may stand anywhere), and may be written where the pointer is
       not to const;
     - no two slices lent to one call overlap. So do not lend make a map that lies inside the desk (copy it out first), nor feed a
       block that lies inside the core (read it into a buffer of its own);
     - nothing else reads or writes the desk and the core, or writes into the others, while the call runs.

   A slice of length 0 is not dereferenced, so its pointer may be NULL. All other arguments may be any number whatever: a wrong one
   is refused.

   What done says, that the area holds the program's image, is proved for a load that meets three conditions from open to done:

     - nothing but calls wrote to the desk;
     - each of its own feeds was lent the core that its open was lent (a feed that was refused for another core's length, too);
     - nothing from outside was stored in its area.

   Short of a new make and its own release nothing else does harm: programs may run and store in other areas, other loads may be
   opened, fed and released, calls may be refused, and other loads may be lent another core. The load's feeds are then answered, and
   its area is left, as if they alone had come. Where a store hits the area, or one of its own feeds is lent another core, nothing is
   promised of the area any more, and no call can tell (but that a core of another length meets 2). The area holds the image from
   done on, until one of these happens, the place is released or a new desk is made.

   What open says of places, refusals 5 and 6 among it, holds whatever cores were lent and whatever was stored, as long as nothing
   but calls wrote to the desk since make. (A core of another length meets 2 first.)


   THREADS, COPIES, STACK, COST

   Threads. The library has no variables, so threads may call it at the same time for different desks and cores. Calls that share a
   desk or a core must take turns, under a lock of the host's, and the emulated processor must not run on that core meanwhile.

   Copies. A desk is plain numbers, without a pointer. It may be moved, copied and saved, and brought back bit by bit, at another
   address and in another process. It knows nothing of what the core holds. So save the core with it, or at least the areas of its
   loads, and bring both back together: a load that goes on over another core ends in another image, and no call can tell. A desk
   is for the library that made it: save CLAMP_VERSION_STRING beside it.

   Stack. Measured, the most of many calls: 6,432 bytes in assign, 2,688 in open, 840 in feed, 400 in release, 160 in needs, 128 in
   make, 16 in reseal (docs/PERFORMANCE.md). The tests fail where assign takes over 8,192, open over 3,072 or another call over
   1,024. The first call that copies or clears memory may take some 3 KB more, where the dynamic linker then looks for memcpy or
   memset. No call is recursive.

   Cost. Open, feed and release test the whole desk: some 400 instructions with one load of few tables, 8,700 with twelve loads of
   128 tables each. To that a program block adds from 1,300 (no field changed) to 22,000 (every field), and open has the area to
   clear and the tables to sort. Reseal goes through the block once, some 510, and so does needs, some 830. Assign takes some
   310,000 with a full file and its book of 384 records, 14,000 with an eighth of both. No call waits, calls the operating system
   or calls back.

   A call that does not return (longjmp out of a signal handler, a thread that is ended) may leave any desk and core: make the desk
   again. The library has no unwind tables, because the Rattle kit makes none: a debugger that stops inside a call may not find the
   caller, and no C++ exception may pass through a call. None can arise in one. */

#ifndef CLAMP_H
#define CLAMP_H

#include <stdint.h>

#ifdef __cplusplus
extern "C" {
#endif

/* The version of this header, and of the library that it came with. The last number rises with a correction, the one before it with
   a new call or answer, or one that tells more; the first where a program that takes answers apart by the macros below has to
   change, or a saved desk is of no use any more. */

#define CLAMP_VERSION_MAJOR 1
#define CLAMP_VERSION_MINOR 3
#define CLAMP_VERSION_PATCH 0
#define CLAMP_VERSION_STRING "1.3.0"
#define CLAMP_VERSION_NUMBER (CLAMP_VERSION_MAJOR * 10000 + CLAMP_VERSION_MINOR * 100 + CLAMP_VERSION_PATCH)

/* How many numbers a desk has, 29,224 bytes: what clamp_desk_words() answers. Where the two differ, the program was compiled with
   the header of another library. */

#define CLAMP_DESK_WORDS 3653


/* An answer is one number: its code times 2^32, and its value. */

#define CLAMP_CODE(answer) ((uint64_t)(answer) >> 32)
#define CLAMP_VALUE(answer) ((uint64_t)(answer) & 0xffffffffu)

/* Whether an answer is a refusal: a code from 1 to 63, which is the refusal's number. The value of refusals 1 to 12 and 24 to 27 is
   0; that of 13 to 22 tells where the fault is. */

#define CLAMP_IS_REFUSAL(answer) (CLAMP_CODE(answer) - 1u < 63u)

/* Whether an answer tells where a fault is, as refusals 13 to 22 do; and of one that does, the word and the half. The word is its
   number in the block that was refused, 0 to 255; assign, which is lent several blocks at once, counts it through all of them. The
   half is the left one (bits 33-18), the right one (bits 15-0) or none. The value is the word's number times 4, plus the half's;
   before version 1.2 it was 0. At clamp_feed stands which word is told. */

#define CLAMP_TELLS_FAULT(answer) (CLAMP_CODE(answer) - 13u < 10u)
#define CLAMP_FAULT_WORD(answer) (CLAMP_VALUE(answer) >> 2)
#define CLAMP_FAULT_HALF(answer) (CLAMP_VALUE(answer) & 3u)

#define CLAMP_HALF_NONE 0u
#define CLAMP_HALF_LEFT 1u
#define CLAMP_HALF_RIGHT 2u

/* What CLAMP_NEEDS, the answer of needs, tells of a label's file: how many I/O references it has, how many core tables, and how many
   modification blocks stand after its label. The value is the first, 2^10 times the second and 2^20 times the third. */

#define CLAMP_NEEDS_IO(answer) (CLAMP_VALUE(answer) & 1023u)
#define CLAMP_NEEDS_TABLES(answer) (CLAMP_VALUE(answer) >> 10 & 1023u)
#define CLAMP_NEEDS_BLOCKS(answer) (CLAMP_VALUE(answer) >> 20)

/* Refusals 1 to 12 change nothing: desk and core are left as they were. Of several that are due the lowest is given. */

#define CLAMP_REFUSED_DESK 1u         /* the desk is not CLAMP_DESK_WORDS long, or cannot be right */
#define CLAMP_REFUSED_CORE 2u         /* the core length is 0, over 65,536, or not the one that the desk was made with */
#define CLAMP_REFUSED_MAP 3u          /* the map is not eight pairs, a stretch is not inside the core, or two share a word */
#define CLAMP_REFUSED_ROOM 4u         /* the room is over 7 */
#define CLAMP_REFUSED_HOLDS_TWO 5u    /* the room already holds two places */
#define CLAMP_REFUSED_KEPT 6u         /* the room holds one place, and the free ones are kept for rooms that hold none */
#define CLAMP_REFUSED_AREA 7u         /* the area is empty, not inside the room's stretch, or shares a word with the room's other */
#define CLAMP_REFUSED_LISTS 8u        /* a list is too long, ends in half a pair or has a number out of range; a table is not inside
                                         the area, or two tables share a word */
#define CLAMP_REFUSED_PLACE 9u        /* the place is over 11, free, or another room's */
#define CLAMP_REFUSED_ENDED 10u       /* the load is complete or broken */
#define CLAMP_REFUSED_BLOCK 11u       /* the block is not 256 words, or a word is 2^36 or more */
#define CLAMP_REFUSED_CHECKSUM 12u    /* the block's checksum word differs */

/* Refusals 13 to 22 are feed's; 13 to 15 are assign's too, and 14 and 15 are needs'. By feed they set the area to zero and break the
   load. The first fault in reading order is given, and of several at one word or field the lowest. The value tells where it is. */

#define CLAMP_REFUSED_RECORD 13u      /* the block is of the wrong record; by assign also: a block is missing or over */
#define CLAMP_REFUSED_TYPE_FLAG 14u   /* the label's program type flag is not 001 */
#define CLAMP_REFUSED_LABEL 15u       /* the label is at fault */
#define CLAMP_REFUSED_ASSIGNMENTS 16u /* the lists that were given to open do not fit the file */
#define CLAMP_REFUSED_SECTION 17u     /* a section is at fault */
#define CLAMP_REFUSED_GROUP 18u       /* a group is at fault */
#define CLAMP_REFUSED_FORM 19u        /* a modification type that is not carried, or a field of the wrong form */
#define CLAMP_REFUSED_REFERENCE 20u   /* a field refers to an entry that does not exist */
#define CLAMP_REFUSED_VALUE 21u       /* a field's value would be outside 0 to 65,535 */
#define CLAMP_REFUSED_START 22u       /* the start is not in the IBANK */

/* Refusals 24 to 27 are assign's alone. They change nothing, and of several that are due the lowest is given. 23 is none yet. */

#define CLAMP_REFUSED_BOOK 24u        /* the book has a bad record or a part of one, or a list is not as long as the file needs */
#define CLAMP_REFUSED_TAG_UNKNOWN 25u /* the book has a tag that the file does not have in its kind */
#define CLAMP_REFUSED_TAG_TWICE 26u   /* the book has a tag twice in one kind */
#define CLAMP_REFUSED_TAG_MISSING 27u /* the file has a tag that the book does not have in its kind */

/* The codes from 64 on are the answers of a call that was accepted. The value is 0 except where noted. */

#define CLAMP_MADE 64u     /* by make */
#define CLAMP_OPENED 65u   /* by open; the value is the place, 0 to 11 */
#define CLAMP_MORE 66u     /* by feed: the block is accepted, another is due */
#define CLAMP_DONE 67u     /* by feed: the load is complete; the value is the absolute address of its start */
#define CLAMP_RELEASED 68u /* by release */
#define CLAMP_ASSIGNED 69u /* by assign */
#define CLAMP_NEEDS 70u    /* by needs; the value is what CLAMP_NEEDS_IO and the two after it tell */
#define CLAMP_RESEALED 72u /* by reseal */

/* A code in words, for a person to read: what was refused and why, or what was accepted. It is never NULL. */

static inline const char *clamp_text(uint64_t code) {
  switch (code) {
  case CLAMP_REFUSED_DESK: return "the desk is not of its length, or cannot be right";
  case CLAMP_REFUSED_CORE: return "the core length is 0, over 65,536, or not the desk's";
  case CLAMP_REFUSED_MAP: return "the map is not eight pairs, or a stretch is not inside the core or shares a word with another";
  case CLAMP_REFUSED_ROOM: return "the room is over 7";
  case CLAMP_REFUSED_HOLDS_TWO: return "the room already holds two places";
  case CLAMP_REFUSED_KEPT: return "the room holds a place, and the free ones are kept for rooms that hold none";
  case CLAMP_REFUSED_AREA: return "the area is empty, not inside the room's stretch, or shares a word with the room's other";
  case CLAMP_REFUSED_LISTS: return "a list is too long or has a wrong number, or a table is not inside the area or shares a word";
  case CLAMP_REFUSED_PLACE: return "the place is over 11, free, or another room's";
  case CLAMP_REFUSED_ENDED: return "the load is complete or broken";
  case CLAMP_REFUSED_BLOCK: return "the block is not 256 words, or a word is over 36 bits";
  case CLAMP_REFUSED_CHECKSUM: return "the block's checksum differs";
  case CLAMP_REFUSED_RECORD: return "the block is of the wrong record";
  case CLAMP_REFUSED_TYPE_FLAG: return "the label's program type flag is not 001";
  case CLAMP_REFUSED_LABEL: return "the label is at fault";
  case CLAMP_REFUSED_ASSIGNMENTS: return "the assigned numbers and tables do not fit the file";
  case CLAMP_REFUSED_SECTION: return "a section is at fault";
  case CLAMP_REFUSED_GROUP: return "a group is at fault";
  case CLAMP_REFUSED_FORM: return "field form or type";
  case CLAMP_REFUSED_REFERENCE: return "a field refers to an entry that does not exist";
  case CLAMP_REFUSED_VALUE: return "a field's value would be outside 0 to 65,535";
  case CLAMP_REFUSED_START: return "the start is not in the IBANK";
  case CLAMP_REFUSED_BOOK: return "the book has a bad record or a part of one, or a list is not as long as the file needs";
  case CLAMP_REFUSED_TAG_UNKNOWN: return "the book has a tag that the file does not have in its kind";
  case CLAMP_REFUSED_TAG_TWICE: return "the book has a tag twice in one kind";
  case CLAMP_REFUSED_TAG_MISSING: return "the file has a tag that the book does not have in its kind";
  case CLAMP_MADE: return "made";
  case CLAMP_OPENED: return "opened";
  case CLAMP_MORE: return "more";
  case CLAMP_DONE: return "done";
  case CLAMP_RELEASED: return "released";
  case CLAMP_ASSIGNED: return "assigned";
  case CLAMP_NEEDS: return "needs";
  case CLAMP_RESEALED: return "resealed";
  default: return "no answer of this version";
  }
}


/* How many numbers a desk has, in this library: always the same, CLAMP_DESK_WORDS. Nothing is changed. */

uint64_t clamp_desk_words(void);


/* Make: a fresh desk, on which every place is free.

     desk, desk_len   where the desk is to be. What stands there does not matter: it may be a desk in use, whose loads are then
                      forgotten.
     core_len         how many words the core has. The core itself is not lent, and no core word is written.
     map, map_len     start, length, start, length, .. of the stretches of rooms 0 to 7. A room that has no words to load into is
                      given an empty stretch, say 0, 0.

   Answers:

     CLAMP_MADE, 0    the desk is ready. The map may be thrown away.
     1, 0             desk_len is not clamp_desk_words()
     2, 0             core_len is 0 or over 65,536
     3, 0             map_len is not 16, a stretch does not lie inside the core, or two stretches share a word

   Refused, the desk is as it was. */

uint64_t clamp_make(uint64_t *desk, uint64_t desk_len,
                    uint64_t core_len,
                    const uint64_t *map, uint64_t map_len);


/* Open: a place and an area for one load.

     desk, desk_len       the desk
     core, core_len       the core; core_len is what the desk was made with
     room                 who asks, 0 to 7
     area, size           the area: the address of its first word in the core, and how many words it has, at least 1
     io, io_len           for each I/O reference of the file, in the file's order, the number assigned to it: at most 128 numbers,
                          each at most 65,535
     tables, tables_len   for each core table of the file, in the file's order, the address of its first word in the core and its
                          length: address, length, address, length, .., at most 128 pairs, so tables_len is at most 256. Each table
                          lies inside the area, and no two share a word.

   Answers:

     CLAMP_OPENED, place  the room holds this place, the lowest that was free. Every word of the area is now zero and no other core
                          word is changed. The desk has copied both lists, which may be thrown away. The load waits for its label.
     1, 0                 the desk is not of its length, or cannot be right
     2, 0                 core_len is not what the desk was made with
     4, 0                 room is over 7
     5, 0                 the room holds two places
     6, 0                 the room holds one place, and there are no more free places than rooms that hold none
     7, 0                 size is 0, the area does not lie inside the room's stretch, or it shares a word with another area that the
                          room holds
     8, 0                 io_len is over 128, tables_len is over 256 or odd, an I/O number is over 65,535, a table does not lie
                          inside the area, or two tables share a word

   Refused, desk and core are as they were. Because of 6 a room that holds no place is never without one to be had: nothing but its
   own arguments can have it refused. */

uint64_t clamp_open(uint64_t *desk, uint64_t desk_len,
                    uint64_t *core, uint64_t core_len,
                    uint64_t room, uint64_t area, uint64_t size,
                    const uint64_t *io, uint64_t io_len,
                    const uint64_t *tables, uint64_t tables_len);


/* Feed: the next block of a load.

     desk, desk_len     the desk
     core, core_len     the core; core_len is what the desk was made with
     room, place        the room, and the place that open gave it for this load
     block, block_len   the block: 256 words, each below 2^36. It is only read.

   The blocks of a file are fed in the file's order: one label, the modification blocks (none where the label counts no entries),
   the program blocks, one termination block. Loads of several places may be interleaved in any order.

   Answers:

     CLAMP_MORE, 0        the block is accepted. Its program words, if it has any, are stored in the area, and the next block is due.
     CLAMP_DONE, start    the termination block is accepted and the load is complete: the area holds the program's image, and start
                          is the absolute address at which it begins. The place and the area are the room's until released. If
                          since open something from outside was stored in the area, or one of the load's own feeds was lent
                          another core, nothing is promised of the area (WHAT IS TAKEN ON TRUST).
     1, 0                 the desk is not of its length, or cannot be right
     2, 0                 core_len is not what the desk was made with
     4, 0                 room is over 7
     9, 0                 place is over 11, free, or another room's
     10, 0                the load is complete or broken: release it
     11, 0                block_len is not 256, or a word is 2^36 or more
     12, 0                the checksum word differs. The same block may be read and fed again. A block that a writer of before
                          version 1.1 has sealed may need to be resealed first (clamp_reseal).
     13, fault            the block is of the wrong record
     14, fault            the label's program type flag is not 001
     15, fault            the label is at fault
     16, fault            the lists that were given to open do not fit the file
     17, fault            a section is at fault
     18, fault            a group is at fault
     19, fault            a modification type that is not carried, or a field of the wrong form
     20, fault            a field refers to an entry that does not exist
     21, fault            a field's value would be outside 0 to 65,535
     22, fault            the start is not in the IBANK

   The value `fault` tells a word of this block, and with 19 to 21 a half of it (CLAMP_FAULT_WORD, CLAMP_FAULT_HALF):

     13   word 0, the identifier
     14   word 2, which has the type flag
     15   word 0 or 1: it has the name's first character that may not stand there (after a space, the next that is no space);
          words 4 to 8: the first table word that breaks a rule, or by which the entries counted so far are too many; word 3: the
          entry total is wrong; word 253: the segments, the table sections, or the rest; word 255: it does not repeat word 0
     16   word 3 of the label; or, in the modification block where it stands, the third word of the first entry that does not fit
     17   the section's first word, also where its second is at fault, or the word that stands where a section is due
     18   the group's first word, or the word that stands where a group is due
     19   the program word, and the half that has the wrong form or type
     20   the program word, and the half that refers to what does not exist
     21   the program word, and the half whose value would be outside
     22   word 1, which has the start

   Refused with 1 to 12, desk and core are as they were: the load still waits for the same block. Refused with 13 to 22, every word
   of the area is zero and the load is broken; it holds its place and area until released. In every case no core word outside the
   area is changed. */

uint64_t clamp_feed(uint64_t *desk, uint64_t desk_len,
                    uint64_t *core, uint64_t core_len,
                    uint64_t room, uint64_t place,
                    const uint64_t *block, uint64_t block_len);


/* Release: a place and its area are given back.

     desk, desk_len   the desk
     core_len         what the desk was made with. The core itself is not lent, and no core word is written: a program that was
                      loaded stays there until the words are used again.
     room, place      the room, and a place that it holds, at whatever point its load is

   Answers:

     CLAMP_RELEASED, 0   the place is free, and the area may be opened again
     1, 0                the desk is not of its length, or cannot be right
     2, 0                core_len is not what the desk was made with
     4, 0                room is over 7
     9, 0                place is over 11, free, or another room's

   Refused, the desk is as it was. */

uint64_t clamp_release(uint64_t *desk, uint64_t desk_len,
                       uint64_t core_len, uint64_t room, uint64_t place);


/* Needs: what a file's label says of the lists and blocks that its file needs. It needs no desk, and writes nothing.

     label, label_len   the label, the first block of the file

   Answers:

     CLAMP_NEEDS, value   the label is without fault. CLAMP_NEEDS_IO is how many I/O references the file has, at most 128, and so how
                          long open's list of I/O numbers is to be. CLAMP_NEEDS_TABLES is how many core tables it has, at most 128:
                          the list of tables is to be twice as long. CLAMP_NEEDS_BLOCKS is how many modification blocks stand after
                          the label, at most 3: none just where the file has neither.
     11, 0                label_len is not 256, or a word is 2^36 or more
     12, 0                the checksum word, word 254, differs
     14, fault            the label's program type flag is not 001
     15, fault            the label is at fault

   14 and 15 and their words are those of clamp_feed. Whether lists fit the file (16) is not looked at. */

uint64_t clamp_needs(const uint64_t *label, uint64_t label_len);


/* Assign: open's two lists for a file, by the tags of its entries. It needs no desk.

     book, book_len       the facility book: records of CLAMP_RECORD_BYTES bytes, in any order, and nothing else
     blocks, blocks_len   the file's label and its modification blocks, one after the other: 256 words each
     io, io_len           where the list of I/O numbers is to be: as many numbers as the file has I/O references
     tables, tables_len   where the list of tables is to be: twice as many numbers as the file has core tables

   A record of the book gives one tag of the file a number:

     byte 0          its kind, a capital letter of ASCII: A a table's address, L a table's length, P an I/O reference (a peripheral)
     bytes 1 to 6    the tag, a Fieldata code from 0 to 63 in each: byte 1 is in bits 35-30 of the tag's word, byte 6 in bits 5-0
     bytes 7 to 12   the number, six digits of ASCII: 000000 to 999999
     byte 13         a newline, 10. A code of the tag may be 10 too: do not cut a book at its newlines.

   P is about the first word of an I/O reference's entry, A about the first word of a table's entry, L about the second. Where
   entries share a tag, one record gives all of them its number: one length may serve several tables. The same tag in two kinds is
   two tags. examples/book makes a book of lines that a person has typed.

   Answers:

     CLAMP_ASSIGNED, 0   io has for each I/O reference, in the file's order, the number that the book gives its tag; tables has for
                         each core table the number of its address tag and that of its length tag. No other lists agree with the
                         book. It is for open and feed to judge the numbers (8, 16).
     11, 0               a block is not 256 words, or a word is 2^36 or more
     12, 0               a block's checksum word differs
     13, fault           there is no block at all, or the one at this word is missing, no modification block, or one too many
     14, fault           the label's program type flag is not 001
     15, fault           the label is at fault
     24, 0               book_len is no multiple of 14; a record has another letter, a code over 63, no digit where one is due or no
                         newline; io_len is not the number of I/O references, or tables_len not twice that of core tables
     25, 0               a record's tag is no entry's, at the word that its kind is about
     26, 0               two records have the same kind and tag, be it with the same number
     27, 0               an entry has a tag for which there is no record of its kind

   The blocks are tested first, one after the other, each for 11, then 12, then the rest, as feeding them would; but 16 is left out.
   The value `fault` tells a word, counted from the first of all blocks (CLAMP_FAULT_WORD). Of a missing block it is the word where
   it would begin. Of blocks over, the first is tested for 11 and 12 before it is refused with 13, and no other is looked at. Then 24
   is tested over book and lists, 25 over the whole book, then 26, then 27. For a file without entries an empty book is right.

   Refused, both lists are as they were. */

#define CLAMP_RECORD_BYTES 14

uint64_t clamp_assign(const uint8_t *book, uint64_t book_len,
                      const uint64_t *blocks, uint64_t blocks_len,
                      uint64_t *io, uint64_t io_len,
                      uint64_t *tables, uint64_t tables_len);


/* Reseal: a block of an old file is sealed by the checksum rule in force.

   The checksum is the sum of a block's other 255 words, its upper 18 bits added to its lower 18. Before version 1.1 a carry out of
   bit 35 of the sum was dropped; now it is added back at bit 0, each time one arises. The two differ just where a carry arises: such
   a block of an old file meets 12 until it is resealed. It needs no desk.

     block, block_len   the block, as it was sealed by the old rule
     index              its number in the file: 0 for the label, any other number for any other block

   Answers:

     CLAMP_RESEALED, 0   the checksum word, word 254 of the label and word 255 of any other block, is the one that feed asks for. No
                         other word is changed, and none is looked at but for its bits.
     11, 0               block_len is not 256, or a word is 2^36 or more
     12, 0               the checksum word is not that of the old rule: the block was misread, or is resealed already. (One in which
                         no carry arises may be resealed as often as you like, and stays as it is.)

   Refused, the block is as it was. The program reseal does this for a file of octal lines (README.md). */

uint64_t clamp_reseal(uint64_t *block, uint64_t block_len, uint64_t index);


/* An example: a core of 4,096 words, all of them room 0's; a load of 64 words at 512 with one I/O reference, which is assigned 3,
   and one core table, the area's last 16 words. read_block gives 0 at the end of the tape; back_up goes back by one block. A tape
   that never reads well is fed again at most three times a block. examples/host.c is the whole of this, for two rooms.

     static uint64_t desk[CLAMP_DESK_WORDS], core[4096];
     const uint64_t map[16] = {0, 4096}, io[1] = {3}, tables[2] = {560, 16};
     uint64_t answer, place, block[256];
     int again = 0;

     answer = clamp_make(desk, CLAMP_DESK_WORDS, 4096, map, 16);
     if (CLAMP_IS_REFUSAL(answer))
       return say(clamp_text(CLAMP_CODE(answer)));
     answer = clamp_open(desk, CLAMP_DESK_WORDS, core, 4096, 0, 512, 64, io, 1, tables, 2);
     if (CLAMP_IS_REFUSAL(answer))
       return say(clamp_text(CLAMP_CODE(answer)));
     place = CLAMP_VALUE(answer);
     while (read_block(block)) {
       answer = clamp_feed(desk, CLAMP_DESK_WORDS, core, 4096, 0, place, block, 256);
       if (CLAMP_CODE(answer) == CLAMP_REFUSED_CHECKSUM && again++ < 3)
         back_up();
       else if (CLAMP_CODE(answer) != CLAMP_MORE)
         break;
       else
         again = 0;
     }
     if (CLAMP_CODE(answer) == CLAMP_DONE)
       run_from(CLAMP_VALUE(answer));
     else if (CLAMP_TELLS_FAULT(answer))
       say_where(clamp_text(CLAMP_CODE(answer)), CLAMP_FAULT_WORD(answer), CLAMP_FAULT_HALF(answer));
     else if (CLAMP_IS_REFUSAL(answer))
       say(clamp_text(CLAMP_CODE(answer)));
     else
       say("the tape ended before the load was complete");
     clamp_release(desk, CLAMP_DESK_WORDS, 4096, 0, place); */

#ifdef __cplusplus
}
#endif

#endif
