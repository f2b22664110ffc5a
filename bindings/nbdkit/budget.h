// The budget: once a block has retired, hosts program a page only as long as one trimmed page will be enough for the next one.
//
// Without a trim, what can still be programmed are the erased pages and, of blocks that can be erased again, the dead ones. Drains and erases leave their
// number as it is. A broom copies to blocks of its own, and keeps the first block that it wins back if it has none behind the one that it fills. If these
// pages are more than two blocks', and hosts have no room, then one of them is dead in a closed block: so the broom has something to drain, and each
// drain leaves it with more room, until it wins back a block for hosts. Therefore hosts program only what is above two blocks'. A page that is trimmed in
// a block that can be erased again is one more. Each broom beside the first one may keep two blocks too, so these leave when pages become scarce.
//
// A broom counts the pages when hosts have programmed all that the last count has found for them, and a write waits. A count looks at each block and
// each sector. It is rare until few pages are left: a life of many thousand writes has some fifteen.
#ifndef NBDKIT_BUDGET_H
#define NBDKIT_BUDGET_H

#include <stdint.h>

#include "brooms.h"

// Counts these pages, while no broom drains or erases a block: whether there are some for hosts.
int budget_count(struct broom *broom);

#endif
