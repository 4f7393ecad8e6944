/* shut_heap.h: a heap that counts its blocks, and that is shut but where a board is made, judged or ended. */
#ifndef SHUT_HEAP_H
#define SHUT_HEAP_H

#include "kalyubos.h"

/* Ends the program with these words where it doesn't hold. */
void need(bool holds, const char *what, uint64_t number);

/* A config of these slots over a copy of an image. */
struct kalyubos_config over_image(const struct kalyubos_slot *slots, size_t count, const uint8_t *image,
                                  size_t image_len);

/* Makes a board, and answers as kalyubos_create does. */
uint32_t create(struct kalyubos *board, struct kalyubos_config *config);

/* Makes a board, or ends the program. */
void make(struct kalyubos *board, struct kalyubos_config config);

/* Judges a config as kalyubos_judge does, over a heap with room or one that refuses all. */
enum heap { AMPLE, FULL };
struct place {
    size_t slot, region;
};
uint32_t judge(enum heap heap, const struct kalyubos_config *config, struct place *place);

/* Ends the only board, or all that there are; a block that is left ends the program. */
void end(struct kalyubos *board);
void end_all(struct kalyubos *boards, size_t count);

#endif
