/* The unit's card as a file: read as a whole, and stored block by block, each synced before the next. Needs POSIX. */
#ifndef CARD_FILE_H
#define CARD_FILE_H

#include <fcntl.h>
#include <stdint.h>
#include <stdio.h>
#include <stdlib.h>
#include <unistd.h>
#include "journal.h"

/* The status of a program that ends by a power cut. */
enum { CARD_FILE_CUT = 9 };

struct card_file {
    int file;
    unsigned long stores; /* so many block stores until the power goes */
};

static void card_file_must(const char *what, int done) {
    if (!done) {
        perror(what);
        exit(1);
    }
}

/* The file, made where there is none, and as long as the card. */
static struct card_file card_file_open(const char *path, size_t len, unsigned long stores) {
    struct card_file card = { open(path, O_RDWR | O_CREAT, 0666), stores };
    card_file_must(path, card.file >= 0 && ftruncate(card.file, (off_t)len) == 0);
    return card;
}

static void card_file_read(const struct card_file *card, uint8_t *to, size_t len) {
    card_file_must("read", pread(card->file, to, len, 0) == (ssize_t)len);
}

/* Brings the block at a place to the medium. Where the power goes before, nothing is flushed or closed. */
static void card_file_store(struct card_file *card, const uint8_t *from, uint64_t at) {
    if (card->stores-- == 0) {
        _exit(CARD_FILE_CUT);
    }
    ssize_t stored = pwrite(card->file, from + at, JOURNAL_BLOCK, (off_t)at);
    card_file_must("store", stored == JOURNAL_BLOCK && fsync(card->file) == 0);
}

#endif
