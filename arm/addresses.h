/* The addresses at which a scene is judged: in, around and outside every window. */
#ifndef ADDRESSES_H
#define ADDRESSES_H

#include <stddef.h>
#include <stdint.h>

#include "scene.h"

#define MOST_ADDRESSES 512

struct addresses {
    size_t count;
    uint64_t at[MOST_ADDRESSES];
};

void add_address(struct addresses *list, uint64_t address);
void add_scene(struct addresses *list, const struct scene *scene);

#endif
