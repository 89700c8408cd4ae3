/* Dergamoyne: a heap of equal blocks with an incremental mark and sweep collector, for programs in C (C99 on) and C++.
   MIT licence, see LICENSE.

   This header declares the bare library: the calls as they are proved, each with the record and the buffers as arguments. Most
   programs are better off with dergamoyne_heap.h, which is built on this header, keeps record and buffers in one struct, and is
   hard to misuse. The terms are explained here.

       enum { M = 1000 };
       static uint32_t words[8 * M], colours[M];
       static uint8_t bytes[M];
       static struct dergamoyne_regs regs;
       #define LENT words, 8 * M, colours, M, bytes, M

       struct dergamoyne_answer a = dergamoyne_format(&regs, LENT, M, 10);
       if (a.refusal == DERGAMOYNE_DONE)
           a = dergamoyne_allocate(&regs, LENT, 0, 0);                 a block, held by the root; a.value is its number
       if (a.refusal == DERGAMOYNE_DONE)
           a = dergamoyne_store_number(&regs, LENT, a.value, 1, 42);   42 in its word 1

   Test every answer. A refused Allocate has the value 0, and an Allocate with holder 0 and word 0 makes a new root. So a program
   that uses the value without testing the refusal can lose a whole list.


   THE HEAP

   A heap has M blocks, 1 to 16,384. Their numbers are 2 to M + 1. A block has eight words of 32 bits, numbered 0 to 7. Each word
   holds a number or a reference. A reference is the number of a block, or 0 for none (the null reference). The words of a new
   block are the number 0, not the null reference.

   One block may be the root. The collector keeps every block that can be reached from the root by references, and frees the
   others. It works in small steps of bounded cost, called units. Each Allocate does U of them, and Work does as many as you ask
   for. U is the pace, 0 to 65,535; with pace 0 an Allocate does more units the fewer blocks are free. docs/SIZING.md says how to
   choose M and U.

   What doesn't fit a block goes into an object: a chain of 1 to 256 blocks. Words 0 to 6 of each hold fields, and word 7 is the
   reference to the next block, null in the last. So an object of n blocks has the fields 0 to 7n - 1, 1,791 at most: field k
   stands in block k/7 of the chain, word k mod 7. An object goes by the number of its first block. docs/OBJECTS.md shows one.

   Keeping a block's number in a variable does not keep the block: store a reference to it. A block that can no longer be reached
   is freed some time later. When the collector is about to free it, the block is called doomed. From then on every call that
   names it is refused, until the block is allocated again. After that its number means the new block.


   WHAT YOU LEND

   The memory is yours: one register record, and three buffers of exactly these lengths.

       words     8M of 32 bits     32 bytes a block     the blocks' words: those of block b begin at words[8 * (b - 2)]
       colours    M of 32 bits      4 bytes a block     what the collector knows of each block
       bytes      M of  8 bits      1 byte  a block     which words are references: bit w of bytes[b - 2] is for word w

   Together with the record's 40 bytes that is 37M + 40 bytes: 37,040 for 1,000 blocks, 606,248 for 16,384. A call uses this
   memory while it runs and keeps no pointer to it. Between calls you may move a heap or copy it. To take it to another process or
   another machine, Save writes it as one string of bytes, its image, and Load reads it back. docs/IMAGE.md has the format.

   Only the calls should write to this memory. Whatever it contains when a call starts, the call stays inside it and gives a
   definite answer, provided that nothing else writes to it while the call runs. If another thread, a signal handler, or another
   process that shares the memory does write to it, nothing is promised, not even that the call stays inside: a call tests a
   number first and uses it later. If others can write to the memory, make a copy and call on the copy.

   If something else has written to a heap between calls, only this is promised: a call that meets the damage refuses by 2 or 8,
   and Audit tells whether the heap is still well-formed.

   A refused call leaves the record as it was, but it may store the same values again. So a record that is lent to a call by
   pointer must be in writable memory, even if the call will be refused.


   POINTERS AND LENGTHS

   A length counts elements, not bytes. Every call tests the three lengths against M and refuses by 1 if one of them doesn't fit
   (Audit, which never refuses, has the value 0). A buffer of length 0 never fits, since M is at least 1, and nothing is read or
   written through its pointer.

   A call can't test the following, so you have to ensure it: no pointer is null (not even with length 0), each is aligned for
   its type, the memory behind it is as long as you say, and no two of the record, the three buffers and the further buffers of a
   call (those of an export, an image or Why) overlap. Otherwise the behaviour is undefined.


   THREADS AND SIGNALS

   The library has no state of its own, allocates no memory, and makes no system calls. Calls on different heaps may run at the
   same time. Two calls on the same heap (its record and its three buffers) may not, not even calls that only read. Protect the
   heap with a lock, and don't call from a signal handler that may interrupt a call on the same heap.


   THE ARCHIVE

   libdergamoyne.a is for x86-64 with the System V calling convention, as on Linux. It is position-independent. It needs `memset`
   from the C library and nothing else. It uses SSE registers, so it can't be called where they are not saved, for example in a
   kernel. The deepest call takes less than 512 bytes of stack.

   The archive has no unwind information, so a debugger or a profiler can't see the callers of a call that is running. It has no
   control-flow marks (IBT, shadow stack), so a program that is linked with it doesn't have them either.


   VERSIONS

   DERGAMOYNE_VERSION is the version of this header, dergamoyne_version() that of the library, and dergamoyne_record_size() the
   size of the library's record. Compare them when your program starts; dergamoyne_heap.h does. CHANGELOG.md says what each
   version changes.

   Later versions will add registers to the record. So start with a record of zeroes, write sizeof and never 40, use the fields
   by name and not by order, and compile with the header of the version that you link. You may read the fields; only the calls
   should write to them. A program that keeps a record of its own has to be compiled again when the record grows, as it did with
   0.7.0, which added mark. A record that an earlier version kept doesn't have that field; take its heap over by an image, which
   0.5.0 and 0.6.0 write and Load reads.


   WHAT IS PROVED

   Each function of the library is proved to give exactly the answer, the record and the buffers that a short definition says,
   for all numbers and all contents of the memory that it is lent (crates/dergamoyne/src/lib.rt has the statements). On a heap
   that Format made or Load read, and only calls have changed, it is proved that nothing that can be reached is lost and that no
   call answers 8.

   This header, the way in which C passes arguments and results, and the compilers are not proved. They are tested. tests/c makes
   more than 200,000 calls through this header, also on damaged heaps and with wrong lengths. It compares what they answer with a
   second model's answers, and the whole heap after 71,000 of them. tests/fuzz compares millions of calls with the same machine in
   plain C. */
#ifndef DERGAMOYNE_H
#define DERGAMOYNE_H

#include <stddef.h>
#include <stdint.h>

/* The version: 1,000,000 for each major, 1,000 for each minor, 1 for each patch. */
#define DERGAMOYNE_VERSION 8000u
#define DERGAMOYNE_VERSION_TEXT "0.8.0"

/* Marks a function whose answer must not be ignored: the compiler warns if it is. */
#ifndef DERGAMOYNE_MUST_USE
#if defined(__cplusplus) && __cplusplus >= 201703L
#define DERGAMOYNE_MUST_USE [[nodiscard]]
#elif defined(__GNUC__)
#define DERGAMOYNE_MUST_USE __attribute__((warn_unused_result))
#else
#define DERGAMOYNE_MUST_USE
#endif
#endif

#ifdef __cplusplus
extern "C" {
#endif

enum {
    DERGAMOYNE_MOST_BLOCKS = 16384, /* the largest M */
    DERGAMOYNE_MOST_PACE = 65535,   /* the largest U */
    DERGAMOYNE_MOST_UNITS = 65535,  /* the largest n of Work */
    DERGAMOYNE_BLOCK_WORDS = 8,     /* the words of a block */
    DERGAMOYNE_BLOCK_FIELDS = 7,    /* the fields in a block of an object; the word after them is the link */
    DERGAMOYNE_OBJECT_BLOCKS = 256, /* the most blocks of an object */
    DERGAMOYNE_OBJECT_FIELDS = 1792 /* the most fields of an object */
};

/* The length in bytes of the image of a heap of m blocks, as Save writes it; and of the images that versions before 0.7.0 wrote,
   without the mark, which Load reads too. */
#define DERGAMOYNE_IMAGE_BYTES(m) (56 + 37 * (size_t)(m))
#define DERGAMOYNE_EARLIER_IMAGE_BYTES(m) (52 + 37 * (size_t)(m))

/* The numbers of the buffer that Why needs for the path on a heap of m blocks: two for a pair, m pairs. */
#define DERGAMOYNE_PATH_NUMBERS(m) (2 * (size_t)(m))

/* The index that a refused Look answers: past the end of every word buffer. */
#define DERGAMOYNE_NO_INDEX 4294967295u

/* REFUSALS, in the order in which they are tested. A refused call has the value 0 and changes nothing, neither the record nor a
   buffer, with one exception: Work, Allocate and Allocate chain do units before some of their tests. The units that they finished
   before the refusal stay done and are counted in the answer. With 1, 2, 9, 3 and 4 there are none. */
enum dergamoyne_refusal {
    DERGAMOYNE_DONE = 0,           /* not refused */
    DERGAMOYNE_DOES_NOT_FIT = 1,   /* M isn't 1 to 16,384, U is above 65,535, or the lengths aren't 8M, M and M. Format tests
                                      the M and U that it is given, every other call those of the record, Load neither. So a
                                      record of zeroes, never formatted, is refused by 1 */
    DERGAMOYNE_REGISTERS = 2,      /* the record is not legal: something else has written to it. Format and Load don't test
                                      this; Save and Why refuse it by 10 */
    DERGAMOYNE_TOO_MANY_UNITS = 9, /* Work: n is above 65,535 */
    DERGAMOYNE_NO_SUCH_WORD = 3,   /* the block is not 2 to M + 1, or the word is above 7. Allocate and Allocate chain also take
                                      block 0, but only with word 0. Allocate chain: n is not 1 to 256. Of fields: k is above
                                      1,791; and, tested on the way after 4, the object has no such field, since a word 7 that
                                      has to be followed is null or a number */
    DERGAMOYNE_NO_SUCH_TARGET = 4, /* the target is neither 0 nor 2 to M + 1 */
    DERGAMOYNE_DAMAGE = 8,         /* the call met a colour or a link that can't be: something else has written to the
                                      buffers */
    DERGAMOYNE_BLOCK_GONE = 5,     /* the block to read or write is free or doomed */
    DERGAMOYNE_TARGET_GONE = 6,    /* the target is free or doomed */
    DERGAMOYNE_NO_FREE_BLOCK = 7,  /* Allocate: no block is free. Allocate chain: fewer than n are */
    DERGAMOYNE_NOT_WELL_FORMED = 10, /* Save and Why: Audit turns the heap down. Why tests this before the block. Load: the bytes
                                        are not the image of a heap that Audit accepts, or something comes after it */
    DERGAMOYNE_OTHER_LENGTH = 13,    /* Save: the output is shorter than the image. Load: the lengths of the buffers aren't
                                        those of the image's heap. Why: a buffer is too short */

    /* Only dergamoyne_heap.h returns these. The library itself never answers them. */
    DERGAMOYNE_NO_MEMORY = 100,      /* there is no memory for the heap */
    DERGAMOYNE_OTHER_VERSION = 101,  /* the library and this header have different versions */
    DERGAMOYNE_NOT_A_NUMBER = 102,   /* a number was asked for, but the word holds a reference */
    DERGAMOYNE_NOT_A_REFERENCE = 103 /* a reference was asked for, but the word holds a number */
};

/* The register record. */
struct dergamoyne_regs {
    uint32_t blocks;   /* M */
    uint32_t pace;     /* U */
    uint32_t phase;    /* of the collector: 0 idle, 1 marking, 2 sweeping */
    uint32_t grey;     /* the first block of the grey list, 1 if there is none */
    uint32_t free;     /* the first free block, 0 if there is none; how many are free is in count */
    uint32_t count;    /* how many blocks are free */
    uint32_t position; /* the block that the sweep looks at next, 0 when not sweeping; at most the mark */
    uint32_t root;     /* the root, 0 if there is none */
    uint32_t cycle;    /* how many cycles have begun; after 4,294,967,295 comes 0 */
    uint32_t mark;     /* the highest block handed out since Format, 1 if there is none: the sweep ends after it, since the blocks
                          above it are free. It never falls, except by Format and Load. It has nothing to do with marking. On a
                          heap that wasn't loaded, mark less 1 is the most blocks that were ever allocated at once */
};

/* What most calls answer: a refusal or 0; a value, 0 if the call has none or is refused; and the units done. */
struct dergamoyne_answer {
    uint32_t refusal, value, units;
};

/* What Read and Read field answer: the same, and reference, which is 1 if the word holds a reference, else 0. The units are 0. */
struct dergamoyne_read_answer {
    uint32_t refusal, value, units, reference;
};

/* What Look answers: a refusal or 0, and the index in words of the block's first word, or DERGAMOYNE_NO_INDEX if it is
   refused. */
struct dergamoyne_look_answer {
    uint32_t refusal, at;
};

/* What State tells of a number. A call that names a block is refused by 5 or 6 if the block is free or doomed, and by 8 if its
   colour is outside the layout. Otherwise the block's state does not stand in its way. */
enum dergamoyne_block_state {
    DERGAMOYNE_STATE_LIVE_WHITE = 1, /* allocated; not met by the collector in this cycle, or swept already */
    DERGAMOYNE_STATE_DOOMED = 2,     /* allocated, but the sweep is about to free it */
    DERGAMOYNE_STATE_GREY = 3,       /* allocated; met by the collector, its references not yet */
    DERGAMOYNE_STATE_BLACK = 4,      /* allocated; met by the collector, and its references too; or new */
    DERGAMOYNE_STATE_FREE = 5,       /* not allocated */
    DERGAMOYNE_STATE_OUTSIDE = 6     /* no block, that is not 2 to M + 1; or a block whose colour can't be: something else has
                                        written to the buffers */
};

/* Why an export is not complete, in the order in which this is tested before each row. */
enum dergamoyne_reason {
    DERGAMOYNE_COMPLETE = 0,
    DERGAMOYNE_CIRCLE = 1,      /* the list goes on after M rows, so it runs in a circle. In a record that was never formatted
                                   M is 0, and this is the reason before the first row */
    DERGAMOYNE_NO_ROOM = 2,     /* the next row doesn't fit the buffer */
    DERGAMOYNE_REFUSED = 3,     /* Read refuses the link word of the next block, or Read field a field of the next row; refusal has
                                   the number */
    DERGAMOYNE_NO_REFERENCE = 4 /* the link word of the next block, or the link field of the next row, holds a number */
};

/* What Export and Export objects answer: complete, 1 or 0; the number of rows written, in either case; the reason; and with
   reason 3 the refusal of Read or Read field, else 0. */
struct dergamoyne_export_answer {
    uint32_t complete, rows, reason, refusal;
};

/* WHY A BLOCK IS STILL HERE. Why answers with one of these reasons:

       FREE        The block is not in use, so it takes no memory from you. There is nothing to do.
       DOOMED      Nothing leads to it from the root, and the sweep is about to free it. It is free by the end of this cycle:
                   go on, or call Work.
       REACHABLE   References lead to it from the root, so it stays. The path shows one way. Put the null reference, or another
                   block, into one of the words on it, preferably the one that you forgot, and ask again: there may be another path.
       KEPT        Nothing leads to it from the root any more, but the collector has not found that out. It is freed by the end of
                   the next cycle that begins, unless by then a store or a root change has named a block that nothing leads to.
                   If that takes too long, call Work. The state says how far the running cycle is with it: grey and black blocks
                   outlast this cycle; a live white one is not met yet, or the sweep has passed it already.

   The path is a row of pairs, each a block and one of its words. The first block is the root. Each word is a reference to the block
   of the next pair, the last one to the block that you asked for. The root itself has no pairs. No path has fewer pairs; of several
   equally short ones it is the one whose first word is the smallest, or if that is the same the second, and so on. To print it:

       for (uint32_t i = 0; i < a.pairs; i++)
           printf("block %u, word %u ->\n", path[2 * i], path[2 * i + 1]);
       printf("block %u\n", b);

   Inside an object, word 7 leads to its next block. So a pair with word 7 goes on in the same object, and a pair with another word
   w is field 7i + w, if its block is the object's block i, counted from 0. */
enum dergamoyne_why_reason {
    DERGAMOYNE_WHY_FREE = 1,      /* not allocated */
    DERGAMOYNE_WHY_DOOMED = 2,    /* out of reach, and the sweep is about to free it */
    DERGAMOYNE_WHY_REACHABLE = 3, /* the root, or references lead to it from the root; with a path */
    DERGAMOYNE_WHY_KEPT = 4       /* out of reach, but not doomed; with its state */
};

/* What Why answers: a refusal or 0; the reason, 0 on a refusal; with DERGAMOYNE_WHY_REACHABLE the number of pairs, else 0; and with
   DERGAMOYNE_WHY_KEPT the block's state as State tells it (live white, grey or black), else 0. */
struct dergamoyne_why_answer {
    uint32_t refusal, reason, pairs, state;
};

/* These don't compile if the compiler lays the structs out differently from this version of the library. They can't detect a
   library of another version; dergamoyne_record_size() does that. */
typedef char dergamoyne_regs_is_40_bytes[sizeof(struct dergamoyne_regs) == 40 ? 1 : -1];
typedef char dergamoyne_answer_is_12_bytes[sizeof(struct dergamoyne_answer) == 12 ? 1 : -1];
typedef char dergamoyne_read_answer_is_16_bytes[sizeof(struct dergamoyne_read_answer) == 16 ? 1 : -1];
typedef char dergamoyne_look_answer_is_8_bytes[sizeof(struct dergamoyne_look_answer) == 8 ? 1 : -1];
typedef char dergamoyne_export_answer_is_16_bytes[sizeof(struct dergamoyne_export_answer) == 16 ? 1 : -1];
typedef char dergamoyne_why_answer_is_16_bytes[sizeof(struct dergamoyne_why_answer) == 16 ? 1 : -1];
typedef char dergamoyne_length_is_8_bytes[sizeof(size_t) == 8 ? 1 : -1];

/* The version of the library, to be compared with DERGAMOYNE_VERSION. */
DERGAMOYNE_MUST_USE uint32_t dergamoyne_version(void);

/* The size of the library's record in bytes, to be compared with sizeof(struct dergamoyne_regs). */
DERGAMOYNE_MUST_USE uint32_t dergamoyne_record_size(void);


/* CALLS THAT YOU USE ALL THE TIME. The cost of each is constant, whatever the size of the heap. Allocate also does its units, each
   of which has a constant cost too. */

/* Allocate: does its units, takes the first free block, and stores a reference to it in word w of the block b. If b and w are 0,
   the new block becomes the root. The value is the new block. The reference replaces what was in the word, or the old root. The
   words of the new block are the number 0, so in the last row of a list use Store reference to make the link the null reference.
   Refusals: 1, 2, 3; then, after the units, 8, 5, 7 (and 8 if a unit meets damage). After 7, make something unreachable, call
   Work to give the collector time, and try again. docs/SIZING.md says how to make sure that 7 never comes. */
DERGAMOYNE_MUST_USE struct dergamoyne_answer dergamoyne_allocate(
    struct dergamoyne_regs *regs, uint32_t *words, size_t words_length, uint32_t *colours, size_t colours_length,
    uint8_t *bytes, size_t bytes_length, uint32_t b, uint32_t w);

/* Read: the value is word w of the block b, and reference says whether the word holds a reference. It changes nothing.
   Refusals: 1, 2, 3, 8, 5. */
DERGAMOYNE_MUST_USE struct dergamoyne_read_answer dergamoyne_read(
    struct dergamoyne_regs regs, const uint32_t *words, size_t words_length, const uint32_t *colours,
    size_t colours_length, const uint8_t *bytes, size_t bytes_length, uint32_t b, uint32_t w);

/* Store number: word w of the block b becomes the number v, which may be any number. The record stays as it is.
   Refusals: 1, 2, 3, 8, 5. */
DERGAMOYNE_MUST_USE struct dergamoyne_answer dergamoyne_store_number(
    struct dergamoyne_regs *regs, uint32_t *words, size_t words_length, uint32_t *colours, size_t colours_length,
    uint8_t *bytes, size_t bytes_length, uint32_t b, uint32_t w, uint32_t v);

/* Store reference: word w of the block b becomes a reference to the block t, or the null reference if t is 0. The
   collector keeps t as long as t can be reached from the root. Refusals: 1, 2, 3, 4; 8 and 5 for b; 8 and 6 for t. */
DERGAMOYNE_MUST_USE struct dergamoyne_answer dergamoyne_store_reference(
    struct dergamoyne_regs *regs, uint32_t *words, size_t words_length, uint32_t *colours, size_t colours_length,
    uint8_t *bytes, size_t bytes_length, uint32_t b, uint32_t w, uint32_t t);

/* Look: where the eight words of the block b are, so that you can read words[at] to words[at + 7] without a call for each. It
   changes nothing. It refuses if Read of word 0 would: 1, 2, 3, 8, 5. Then at is DERGAMOYNE_NO_INDEX, so that words[at] faults;
   with an index 0 it would read another block. Test the refusal all the same, since at + 1 in 32 bits is 0. A block's place never
   changes, but after an Allocate or a Work ask again whether it may be read. */
DERGAMOYNE_MUST_USE struct dergamoyne_look_answer dergamoyne_look(
    struct dergamoyne_regs regs, const uint32_t *words, size_t words_length, const uint32_t *colours,
    size_t colours_length, const uint8_t *bytes, size_t bytes_length, uint32_t b);

/* State: what the number b is. The value is one of enum dergamoyne_block_state, and never 0 unless the call is refused. b may be
   any number; one that is no block is outside the layout and not refused. It changes nothing. The answer is about this moment:
   any call that is lent the record by pointer can change what a block is. It says what calls may do with the block, not whether
   the root reaches it. Refusals: 1, 2. */
DERGAMOYNE_MUST_USE struct dergamoyne_answer dergamoyne_state(
    struct dergamoyne_regs regs, const uint32_t *words, size_t words_length, const uint32_t *colours,
    size_t colours_length, const uint8_t *bytes, size_t bytes_length, uint32_t b);


/* OBJECTS. The cost of Allocate chain besides its units goes with n; that of a field with the blocks up to it. */

/* Allocate chain: n times the units of Allocate (with pace 0, n times what Allocate would do at this moment), then the first n
   free blocks become an object, all of them or none, and a reference to its first block is stored: in word w of the block b, or
   with b and w 0 as the root. The value is the first block. Every field is the number 0; each word 7 is the reference to the
   next block, null in the last. What was in the word, or was the root, is replaced. (With w 7 and a block of an object it is the
   rest of that object that is replaced.) Refusals: 1, 2; 3 also for n not 1 to 256; then, after the units, 8 and 5 for b; 7 where
   fewer than n blocks are free; 8 where the free list is damaged. */
DERGAMOYNE_MUST_USE struct dergamoyne_answer dergamoyne_allocate_chain(
    struct dergamoyne_regs *regs, uint32_t *words, size_t words_length, uint32_t *colours, size_t colours_length,
    uint8_t *bytes, size_t bytes_length, uint32_t b, uint32_t w, uint32_t n);

/* Read field: the value is field k of the object b, and reference says whether it is one. The object is walked from its first
   block to the one with the field. Refusals: 1, 2; 3 for the block or for k above 1,791; then of each block walked 8, 5, and
   where it isn't the last, 3 for a word 7 that is null or a number, 8 for one that names no block. It changes nothing. */
DERGAMOYNE_MUST_USE struct dergamoyne_read_answer dergamoyne_read_field(
    struct dergamoyne_regs regs, const uint32_t *words, size_t words_length, const uint32_t *colours,
    size_t colours_length, const uint8_t *bytes, size_t bytes_length, uint32_t b, uint32_t k);

/* Store field number: field k of the object b becomes the number v. The record stays as it is. Refusals: those of Read field. */
DERGAMOYNE_MUST_USE struct dergamoyne_answer dergamoyne_store_field_number(
    struct dergamoyne_regs *regs, uint32_t *words, size_t words_length, uint32_t *colours, size_t colours_length,
    uint8_t *bytes, size_t bytes_length, uint32_t b, uint32_t k, uint32_t v);

/* Store field reference: field k of the object b becomes a reference to the block t, or with t 0 the reference to none. The
   collector sees to it that t is kept. Refusals: those of Read field, 4 before the walk; 8 and 6 for t after it. */
DERGAMOYNE_MUST_USE struct dergamoyne_answer dergamoyne_store_field_reference(
    struct dergamoyne_regs *regs, uint32_t *words, size_t words_length, uint32_t *colours, size_t colours_length,
    uint8_t *bytes, size_t bytes_length, uint32_t b, uint32_t k, uint32_t t);


/* CALLS FOR NOW AND THEN */

/* Set root: the block t becomes the root; if t is 0, there is no root any more. Blocks that only the old root reached are let go.
   Its cost is constant. Refusals: 1, 2, 4, 8, 6. */
DERGAMOYNE_MUST_USE struct dergamoyne_answer dergamoyne_set_root(
    struct dergamoyne_regs *regs, uint32_t *words, size_t words_length, uint32_t *colours, size_t colours_length,
    uint8_t *bytes, size_t bytes_length, uint32_t t);

/* Work: does n units, at most 65,535, when your program has time. A cycle of the collector takes two units, and one more for each
   block that it marks and for each block at or below the mark, which it sweeps: at most 2 * mark in all. A block that can't be
   reached when a cycle begins has been freed by its end, unless a store or a root change named an unreachable block in the meantime.
   Refusals: 1, 2, 9; 8 if a unit meets damage, and then the units before it stay done. */
DERGAMOYNE_MUST_USE struct dergamoyne_answer dergamoyne_work(
    struct dergamoyne_regs *regs, uint32_t *words, size_t words_length, uint32_t *colours, size_t colours_length,
    uint8_t *bytes, size_t bytes_length, uint32_t n);

/* Export: writes a list to the buffer out, in order, a row of eight words for each block. The list starts at the block start and
   goes on by the reference in word link of each block. The null reference ends it, and start 0 is the empty list. Either the
   answer is complete, with the number of rows. Or it is not complete, with the number of rows that were written before it stopped,
   and the reason. In both cases exactly these rows of out are written. The heap and the record stay as they are. out_length counts
   words and may be anything; 8M, which is M rows, is always enough. The cost grows with the number of rows. */
DERGAMOYNE_MUST_USE struct dergamoyne_export_answer dergamoyne_export(
    struct dergamoyne_regs regs, const uint32_t *words, size_t words_length, const uint32_t *colours,
    size_t colours_length, const uint8_t *bytes, size_t bytes_length, uint32_t *out, size_t out_length, uint32_t start,
    uint32_t link);

/* Export objects: the same for a list whose rows are objects. A row is `fields` words, 1 to 1,792: the fields 0 to fields - 1 of its
   object, in order, without the words 7 that chain its blocks. The list starts at the object start and goes on by the reference in
   field link, which is below fields. An object may have more fields than are written; one that has fewer is refused by 3. If fields
   or link is out of range, the answer is not complete, with no row, reason 3 and refusal 3, even if start is 0. In every other case
   it is as Export's: complete, with the number of rows; or not, with the rows that were written before it stopped, and the reason.
   Before each row come these tests, in this order: M rows are written already; the row doesn't fit the buffer; the first refusal
   that reading its fields in order gives; its link field holds a number. A row that can't be read to its end leaves nothing in out.
   out_length counts words and may be anything; n rows need n times fields, and M rows are always enough. The cost grows with the
   number of blocks that the rows have. */
DERGAMOYNE_MUST_USE struct dergamoyne_export_answer dergamoyne_export_objects(
    struct dergamoyne_regs regs, const uint32_t *words, size_t words_length, const uint32_t *colours,
    size_t colours_length, const uint8_t *bytes, size_t bytes_length, uint32_t *out, size_t out_length, uint32_t start,
    uint32_t fields, uint32_t link);


/* CALLS THAT YOU USE ONCE, OR SELDOM. Their cost grows with M. */

/* Format: makes a heap of m blocks with the pace u, whatever the record and the buffers contained. All blocks are free, there is
   no root, the collector is idle, the cycle number is 0, and the mark is 1. The lengths must fit m. Refusal: 1, and then the old
   heap is as it was. */
DERGAMOYNE_MUST_USE struct dergamoyne_answer dergamoyne_format(
    struct dergamoyne_regs *regs, uint32_t *words, size_t words_length, uint32_t *colours, size_t colours_length,
    uint8_t *bytes, size_t bytes_length, uint32_t m, uint32_t u);

/* Audit: the value is 1 if the heap is well-formed, else 0. It never refuses and changes nothing. Every heap that Format made and
   only calls have changed is well-formed. If the value is 0, something else has written to the heap, or a length doesn't fit;
   dergamoyne_check in dergamoyne_heap.h tells which. */
DERGAMOYNE_MUST_USE struct dergamoyne_answer dergamoyne_audit(
    struct dergamoyne_regs regs, const uint32_t *words, size_t words_length, const uint32_t *colours,
    size_t colours_length, const uint8_t *bytes, size_t bytes_length);

/* Save: writes the image of the heap to out, DERGAMOYNE_IMAGE_BYTES(M) bytes, so that Load can read it back, also in another
   process or on another machine. A heap can be saved at any time, also in the middle of a cycle. The bytes of out past the image
   stay as they are. The heap and the record stay as they are. The value is 0. Refusals: 1; 10 for a heap that Audit turns down,
   illegal registers too; 13 if out is too short. A refusal writes nothing. docs/IMAGE.md has the format. */
DERGAMOYNE_MUST_USE struct dergamoyne_answer dergamoyne_save(
    struct dergamoyne_regs regs, const uint32_t *words, size_t words_length, const uint32_t *colours,
    size_t colours_length, const uint8_t *bytes, size_t bytes_length, uint8_t *out, size_t out_length);

/* Load: the record and the buffers become the heap of the image, exactly as it was when it was saved: M, the pace and the state of
   the collector too. What they held before is gone, and it isn't looked at. image_length is the whole image and nothing more. The
   buffers must have its heap's lengths, 8M, M and M; M is (image_length - 52) / 37, rounded down. An image that a version before
   0.7.0 wrote has no mark, and is four bytes shorter; it is read with the mark at M + 1. The image is tested as Audit tests a heap,
   before anything is written. It has no checksum: if its bytes were changed so that they are the image of another well-formed
   heap, Load reads that one. The value is 0. Refusals: 10 for a bad image, 13 for buffers of other lengths. A refusal writes
   nothing. */
DERGAMOYNE_MUST_USE struct dergamoyne_answer dergamoyne_load(
    struct dergamoyne_regs *regs, uint32_t *words, size_t words_length, uint32_t *colours, size_t colours_length,
    uint8_t *bytes, size_t bytes_length, const uint8_t *image, size_t image_length);

/* Why: why the block b is still here, with the path that leads to it if it can be reached (see enum dergamoyne_why_reason). The path
   is written to path, two numbers a pair. It needs DERGAMOYNE_PATH_NUMBERS(M) numbers, which is 2M, and the two buffers in which
   Why works need M each; all three may be longer. What they contain before does not matter. Afterwards path holds the pairs and
   then zeroes to its end, and queue and came hold zeroes. The heap and the record stay as they are. The cost grows with M and with
   the number of references. Refusals: 1; 10 for a heap that Audit turns down, illegal registers too; 3 for the block; 13 if one of
   the three buffers is too short. A refusal writes nothing. */
DERGAMOYNE_MUST_USE struct dergamoyne_why_answer dergamoyne_why(
    struct dergamoyne_regs regs, const uint32_t *words, size_t words_length, const uint32_t *colours,
    size_t colours_length, const uint8_t *bytes, size_t bytes_length, uint32_t *path, size_t path_length,
    uint32_t *queue, size_t queue_length, uint32_t *came, size_t came_length, uint32_t b);

#ifdef __cplusplus
}
#endif

#endif
