/* Ignores an answer, which must not compile with -Werror. With LOOKED_AT defined it looks at it, and compiles. */
#include "fieldmap.h"

int main(void)
{
#ifdef LOOKED_AT
    return fieldmap_check(FIELDMAP_COMMON_LAYOUT, FIELDMAP_SERVER_LIMITS, NULL, 0) == -FIELDMAP_INVALID_SUBTREE_POINTER ? 0 : 1;
#else
    fieldmap_check(FIELDMAP_COMMON_LAYOUT, FIELDMAP_SERVER_LIMITS, NULL, 0);
    return 0;
#endif
}
