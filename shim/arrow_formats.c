/* Tests of formats. C99 and C++11. */
#include "internal.h"

int vortex_arrow_has_views(const vortex_arrow_node *node)
{
    return node->format == VORTEX_ARROW_VIEWS;
}

int vortex_arrow_is_union(const vortex_arrow_node *node)
{
    return node->format == VORTEX_ARROW_SPARSE_UNION || node->format == VORTEX_ARROW_DENSE_UNION;
}

/* Whether the answer shares its child with the source. */
int vortex_arrow_is_list_view(const vortex_arrow_node *node)
{
    return node->format == VORTEX_ARROW_LIST_VIEW || node->format == VORTEX_ARROW_LARGE_LIST_VIEW;
}
