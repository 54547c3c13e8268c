/* What acon.py takes from the header: the sentences and the limits, which are
 * written there once. `make python` links this and the archive into libacon.so. */
#include "acon.h"

const char *acon_module_text(unsigned number);

const char *acon_module_text(unsigned number)
{
    return acon_text(number);
}

/* In the order in which acon.py reads them. */
const size_t acon_module_limits[] = {ACON_TEXT_MAX, ACON_IMAGES_MAX, ACON_REPORT_MAX,
                                     ACON_OUTPUT_MAX};
