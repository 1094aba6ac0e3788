/* Steps over the data items of a record that was read: those from text + answer[CAPELLANOTE_READ_ITEMS] to before
   text + answer[CAPELLANOTE_READ_ITEMS_END] of capellanote_read or capellanote_next. capellanote_item does it; this has names for its answer.

       struct capellanote_item item = { 0 };
       while (capellanote_step(items, length, &item))
           ... items + item.name, item.name_end - item.name ... */
#ifndef CAPELLANOTE_ITEMS_H
#define CAPELLANOTE_ITEMS_H

#include "capellanote.h"

/* Places in the items: of the name; of the values, from the first value line's start to the last one's end, with the line ends between,
   both 0 where there are none; and the start of what comes next. */
struct capellanote_item {
    capellanote_size name, name_end, values, values_end, next;
};

/* The item that starts at item->next, 0 at first; answers 1, or 0 where none starts there. */
static inline int capellanote_step(const capellanote_byte *items, capellanote_size length, struct capellanote_item *item)
{
    capellanote_size answer[8];
    capellanote_item(items, length, item->next, answer);
    if (answer[CAPELLANOTE_REFUSED] != 0 || !answer[CAPELLANOTE_STEP_ITEM])
        return 0;
    item->name = answer[CAPELLANOTE_STEP_NAME];
    item->name_end = answer[CAPELLANOTE_STEP_NAME_END];
    item->values = answer[CAPELLANOTE_STEP_VALUES];
    item->values_end = answer[CAPELLANOTE_STEP_VALUES_END];
    item->next = answer[CAPELLANOTE_STEP_NEXT];
    return 1;
}

#endif
