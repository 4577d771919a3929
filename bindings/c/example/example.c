/* Takes rows of a column of numbers, then asks for a row that doesn't exist. Prints
 *
 *     40 10
 *     step 0: OutOfBounds: index 9, but 4 rows
 */
#include <stdio.h>
#include <string.h>

#include <vortex_arrow.h>
#include <vortex_select.h>

static void release_schema(struct ArrowSchema *schema) { schema->release = NULL; }
static void release_array(struct ArrowArray *array) { array->release = NULL; }

/* Returns a take of rows. */
static vortex_arrow_step take_of(const uint64_t *indices, size_t count)
{
    vortex_arrow_step step;
    memset(&step, 0, sizeof step);
    step.kind = VORTEX_ARROW_TAKE;
    step.ptype = VORTEX_ARROW_U64;
    step.len = count;
    step.values.data = (const uint8_t *)indices;
    step.values.len = count * sizeof *indices;
    return step;
}

/* Takes rows, and prints them or the error. */
static void print_rows(const struct ArrowSchema *schema, struct ArrowArray *array,
    const uint64_t *indices, size_t count)
{
    vortex_arrow_step step = take_of(indices, count);
    struct ArrowArray taken;
    vortex_arrow_error error;
    int64_t k;
    if (vortex_select_arrow(schema, array, &step, 1, NULL, &taken, &error)) {
        printf("%s\n", error.text);
        return;
    }
    for (k = 0; k < taken.length; k++) {
        int32_t row = ((const int32_t *)taken.buffers[1])[taken.offset + k];
        printf("%s%d", k ? " " : "", (int)row);
    }
    printf("\n");
    taken.release(&taken);
}

static int is_of_one_version(void)
{
    return vortex_version() == VORTEX_VERSION && vortex_arrow_version() == VORTEX_ARROW_VERSION &&
        vortex_arrow_library_version() == VORTEX_ARROW_VERSION;
}

int main(void)
{
    static const int32_t values[] = {10, 20, 30, 40};
    static const uint64_t indices[] = {3, 0}, past[] = {9};
    const void *buffers[] = {NULL, values};
    struct ArrowSchema schema;
    struct ArrowArray array;
    if (!is_of_one_version()) {
        printf("the headers and the libraries have different versions\n");
        return 1;
    }
    memset(&schema, 0, sizeof schema);
    memset(&array, 0, sizeof array);
    schema.format = "i";
    schema.release = release_schema;
    array.length = 4;
    array.n_buffers = 2;
    array.buffers = buffers;
    array.release = release_array;
    print_rows(&schema, &array, indices, 2);
    print_rows(&schema, &array, past, 1);
    array.release(&array);
    schema.release(&schema);
    return 0;
}
