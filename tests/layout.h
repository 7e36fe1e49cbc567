/* Document 01's layout of lent memory, as the tests and benchmarks have it: written apart from include/, since they judge the library.
   tests/header/layouts.c sees that the headers have the same. */
#ifndef LAYOUT_H
#define LAYOUT_H

/* A file's words: a page name and a file row begin with them. */
enum { FILE_TABLESPACE, FILE_DATABASE, FILE_RELATION, FILE_FORK, FILE_WORDS };

/* A page name goes on with the block, a file row with two counts of blocks. */
enum { NAME_BLOCK = FILE_WORDS, NAME_WORDS };
enum { ROW_BLOCKS = FILE_WORDS, ROW_CAPACITY, ROW_WORDS };

/* In bytes. */
enum { WORD_BYTES = 4, NAME_BYTES = WORD_BYTES * NAME_WORDS, ROW_BYTES = WORD_BYTES * ROW_WORDS };

/* The control record, and the slice in which a call answers: words of 64 bits. */
enum { CONTROL_SIZE, CONTROL_HAND, CONTROL_TOP, CONTROL_INSERTED, CONTROL_FLUSHED, CONTROL_CAP, CONTROL_WORDS };
enum { ANSWER_WORDS = 4 };

/* The cap, which is the greatest usage count: from the first to the second, on the bench the third. */
enum { LEAST_CAP = 1, MOST_CAP = 15, DEFAULT_CAP = 5 };

/* A buffer's private counts, one for each holder, and the greatest that one may be. */
enum { HOLDERS = 64, MOST_COUNT = 65535 };

/* A file, and a page, as arguments of a call, from the words of a name or, for a file, of a row. */
#define FILE_OF(words) (words)[FILE_TABLESPACE], (words)[FILE_DATABASE], (words)[FILE_RELATION], (words)[FILE_FORK]
#define NAME_OF(words) FILE_OF(words), (words)[NAME_BLOCK]

#endif
