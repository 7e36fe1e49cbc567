/* Each call and helper with its result left unused, a line for each: the compiler warns as often. */
#include "bufbooks.h"
#include "bufpool.h"
#include "bufpool_show.h"
#include "bufpool_why.h"
#include "buftag.h"

#define ANSWER answer, BUFPOOL_ANSWER_WORDS

void unused_helpers(struct bufpool *m, struct bufpool_file f, struct bufpool_name n, struct bufpool_holder h, struct bufpool_buffer b);
void unused_helpers(struct bufpool *m, struct bufpool_file f, struct bufpool_name n, struct bufpool_holder h, struct bufpool_buffer b)
{
    struct bufpool_pinned p;
    struct bufpool_part part;
    uint64_t written, answer[BUFPOOL_ANSWER_WORDS] = {0, 0, 0, 0};
    uint32_t block;
    uint8_t bytes[8] = {0};
    bufpool_set_up_pool(m, 1024, 100, 5);          /* unused */
    bufpool_pin_page(m, h, n, &p);                 /* unused */
    bufpool_unpin_buffer(m, h, b);                 /* unused */
    bufpool_read_buffer(m, h, b, 0, bytes, 1);     /* unused */
    bufpool_write_buffer(m, h, b, 8, bytes, 1, 0); /* unused */
    bufpool_flush_buffer(m, h, b, &written);       /* unused */
    bufpool_give_back_pins(m, h);                  /* unused */
    bufpool_checkpoint_pool(m, &written);          /* unused */
    bufpool_peek_page(m, n, &part);                /* unused */
    bufpool_part_at(m, answer);                    /* unused */
    bufpool_extend_file(m, f, &block);             /* unused */
    bufpool_drop_file(m, f);                       /* unused */
    bufpool_log_inserted_to(m, 100);               /* unused */
    bufpool_log_flushed_to(m, 100);                /* unused */
}

void unused_words(struct bufpool *m, struct bufpool_file f, struct bufpool_holder h, struct bufpool_buffer b, uint8_t *bytes);
void unused_words(struct bufpool *m, struct bufpool_file f, struct bufpool_holder h, struct bufpool_buffer b, uint8_t *bytes)
{
    bufpool_holder_of(0);                          /* unused */
    bufpool_count_of(m, h, b);                     /* unused */
    bufpool_name_of(f, 0);                         /* unused */
    bufpool_row_of(m, f);                          /* unused */
    bufpool_bytes(1, 1, 1024);                     /* unused */
    bufpool_lend(m, bytes, 0, 1, 1, 1024, 0, 0);   /* unused */
    bufpool_page_size(m);                          /* unused */
    bufpool_inserted(m);                           /* unused */
    bufpool_flushed(m);                            /* unused */
    bufpool_cap(m);                                /* unused */
    bufpool_has_free(m);                           /* unused */
    bufpool_state_pins(0);                         /* unused */
    bufpool_state_usage(0);                        /* unused */
    bufpool_state_dirty(0);                        /* unused */
    bufpool_state_empty(0);                        /* unused */
    bufpool_page_position(bytes);                  /* unused */
    bufpool_refusal_of(0);                         /* unused */
    bufpool_refusal_name(0);                       /* unused */
    bufpool_refusal_words(0);                      /* unused */
    bufpool_refusal_kind(0);                       /* unused */
    bufpool_refusal_advice(0);                     /* unused */
}

void unused_looks(const struct bufpool *m, struct bufpool_name n, const struct bufpool_pinned *p, char *words);
void unused_looks(const struct bufpool *m, struct bufpool_name n, const struct bufpool_pinned *p, char *words)
{
    bufpool_why(m, words, 0);                    /* unused */
    bufpool_why_set_up(m, 1024, 5, words, 0);    /* unused */
    bufpool_dump(stdout, m, NULL);               /* unused */
    bufpool_event_of(BUFPOOL_EVENT_END, NULL);   /* unused */
    bufpool_event_of_call("unpins", 0);          /* unused */
    bufpool_event_of_pin("till 1", n, 0, p);     /* unused */
}

void unused_calls(struct bufpool *m, struct bufpool_file f, uint8_t *bytes);
void unused_calls(struct bufpool *m, struct bufpool_file f, uint8_t *bytes)
{
    uint64_t answer[BUFPOOL_ANSWER_WORDS];
    uint32_t words[BUFTAG_NAME_WORDS];
    bufpool_set_up(BUFPOOL_LENT(m), 1024, 100, 5, ANSWER);                                         /* unused */
    bufpool_pin(BUFPOOL_LENT(m), 0, f.tablespace, f.database, f.relation, f.fork, 0, ANSWER);      /* unused */
    bufpool_unpin(BUFPOOL_LENT(m), 0, 0, ANSWER);                                                  /* unused */
    bufpool_read(BUFPOOL_LENT(m), 0, 0, 0, bytes, 1, ANSWER);                                      /* unused */
    bufpool_write(BUFPOOL_LENT(m), 0, 0, 8, bytes, 1, 100, ANSWER);                                /* unused */
    bufpool_flush(BUFPOOL_LENT(m), 0, 0, ANSWER);                                                  /* unused */
    bufpool_give_back(BUFPOOL_LENT(m), 0, ANSWER);                                                 /* unused */
    bufpool_checkpoint(BUFPOOL_LENT(m), ANSWER);                                                   /* unused */
    bufpool_peek(BUFPOOL_LENT(m), f.tablespace, f.database, f.relation, f.fork, 0, ANSWER);        /* unused */
    bufpool_extend(BUFPOOL_LENT(m), f.tablespace, f.database, f.relation, f.fork, ANSWER);         /* unused */
    bufpool_drop(BUFPOOL_LENT(m), f.tablespace, f.database, f.relation, f.fork, ANSWER);           /* unused */
    bufpool_log_inserted(BUFPOOL_LENT(m), 100, ANSWER);                                            /* unused */
    bufpool_log_flushed(BUFPOOL_LENT(m), 100, ANSWER);                                             /* unused */
    bufpool_checksum(bytes, 1024, 0, ANSWER);                                                      /* unused */
    BUFPOOL_INTERFACE_SYMBOL();                                                                    /* unused */
    bufbooks_check(BUFPOOL_LENT(m), ANSWER);                                                       /* unused */
    buftag_hash(f.tablespace, f.database, f.relation, f.fork, 0);                                  /* unused */
    buftag_bytes(f.tablespace, f.database, f.relation, f.fork, 0, bytes, BUFTAG_NAME_BYTES);       /* unused */
    buftag_name(bytes, BUFTAG_NAME_BYTES, words, BUFTAG_NAME_WORDS);                               /* unused */
}
