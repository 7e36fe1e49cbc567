/* The shop's card, and the memory that the till program lends to the pool.

   The card is one file, mapped whole: a block of the shop's own notes, then the store. A change in the mapping is a change of the
   file. The file rows stand among the notes and are lent from there, so that the block count that an extend raises is in the file
   with no further step, and the next start finds it. A till that has to outlast a power cut saves them apart, after the store
   (docs/CARD.md). Everything else that is lent is ordinary memory, lost at the end. */
#ifndef SHOP_H
#define SHOP_H

#include <stdio.h>

#include "bufpool.h"

enum { FILES = 2, TILLS = 4 };

/* Who has pins: a till as the holder of its own number; the class's, which is no till of the morning; and the shop where it reads. */
enum { CLASS_TILL = TILLS + 1, READER = 0 };

/* The shop's notes: the card's first block. */
struct card {
    char mark[8];
    uint32_t page_size;
    uint32_t day_block; /* the receipts of the day begin here; older days stand before */
    uint64_t position;  /* the log is on the card up to here; the next start sets the pool up with it */
    uint32_t rows[BUFPOOL_ROW_WORDS * FILES];
};

struct shop {
    struct bufpool pool; /* all the lent memory */
    void *memory;        /* what of it is not on the card, in one piece */
    struct card *card;
    size_t card_len;
    FILE *trail;         /* or null: see trail.h */
    uint32_t page_lines; /* lines that a page has room for */
    uint32_t last_lines; /* lines on the last page of the receipts; a new page comes when it is full */
    uint32_t receipts;   /* receipts begun today */
};

struct sizes {
    uint32_t buffers, cap, page, blocks, used; /* cap: of the usage counts; used: blocks that older days have filled */
};

extern const struct bufpool_file receipts_file, practice_file;

/* A new card, at a path where nothing is, or a temporary one without a path. Answers its file descriptor. */
int card_new(const char *path, const struct sizes *sizes);

/* A card made before. */
int card_open(const char *path);

/* No further start is made with it. */
void card_close(int fd);

/* Maps the card, takes fresh memory and sets the pool up with so many buffers and this cap: the card has neither. Stops at a card whose
   notes do not fit its length or each other. */
void shop_start(struct shop *shop, int fd, const struct sizes *sizes);

/* Puts the log on the card up to its end, and says so to the pool. It goes before each call that may write a page back: flush,
   checkpoint, and a pin when no buffer is free. */
void shop_force_log(struct shop *shop);

/* The log first, if a page may have to make room. Results in 0 or the number of the refusal. */
uint32_t shop_pin(struct shop *shop, struct bufpool_holder holder, const char *who, struct bufpool_name name,
                  struct bufpool_pinned *pinned);

/* The log first, then every dirty page. */
void shop_checkpoint(struct shop *shop);

/* The card is unmapped and the memory given back: only what is on the card is left. */
void shop_end(struct shop *shop);

/* The card has everything that was written back. */
void card_settle(const struct shop *shop);

/* Parts of the mapping that were touched count as this program's memory until they are let go. Their bytes stay in the file. */
void card_let_go(const struct shop *shop);

uint32_t receipts_blocks(const struct shop *shop);

/* A message on standard error, then the end with status 1. */
_Noreturn void stop(const char *format, ...);

/* Stops unless a call was accepted, and says its number, name and meaning; at damaged memory, which rule it breaks, and where. */
void must(const struct shop *shop, const char *call, uint32_t refusal);

#endif
