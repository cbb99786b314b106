/* Which views M and N give, and which pairs of layouts do not nest. */
#include "calls.h"
#include "check.h"
#include "tests.h"

static void test_made_views(void)
{
    struct ondristela_view view;

    CHECK(ondristela_view_plain(&layout_m, &view) == ONDRISTELA_ACCEPTED && same_view(&view, &plain_m));
    CHECK(ondristela_view_protected(&layout_m, &layout_n, &view) == ONDRISTELA_ACCEPTED);
    CHECK(same_view(&view, &protected_m));
}

static void test_pairs(void)
{
    struct ondristela_layout outer = layout_m, hidden = layout_n;

    CHECK(refuses_pair(&layout_m, &layout_m, ONDRISTELA_REFUSED_NOT_NESTED));
    CHECK(refuses_pair(&layout_n, &layout_n, ONDRISTELA_REFUSED_NOT_NESTED));
    CHECK(refuses_pair(&layout_n, &layout_m, ONDRISTELA_REFUSED_NOT_NESTED));
    hidden.host_size = 2 * HOST_SIZE;
    CHECK(refuses_pair(&layout_m, &hidden, ONDRISTELA_REFUSED_NOT_NESTED));
    outer.data_size = 786432 - 512;
    CHECK(refuses_pair(&outer, &layout_n, ONDRISTELA_REFUSED_NOT_NESTED));
}

/* The two data areas may be the same. */
static void test_same_data_area(void)
{
    struct ondristela_view view;
    struct ondristela_layout hidden = layout_m;

    hidden.kind = ONDRISTELA_KIND_HIDDEN;
    CHECK(ondristela_view_protected(&layout_m, &hidden, &view) == ONDRISTELA_ACCEPTED);
    CHECK(view.protected_first == 131072 && view.protected_end == 917504);
}

void test_views(void)
{
    test_made_views();
    test_pairs();
    test_same_data_area();
}
