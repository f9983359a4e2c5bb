/* The annex page, with the machine as its judge. */
#ifndef ANNEX_H
#define ANNEX_H

#include <stdint.h>

#include "addresses.h"
#include "scene.h"

/* The lines of the pages that were judged, and the addresses that were asked for them. */
extern uint64_t annex_lines, annex_addresses;

/* Whether the machine gives what the scene's page says: at both ends of every line, next to them, and at the addresses of the list. */
void judge_annex(const struct scene *scene, const struct addresses *list);

#endif
