/* Checks model images from files in one call and prints for each its number, its answer and each
 * diagnostic's fields. Usage: batch FILE..
 */
#include <oce.h>

#include <stdio.h>
#include <stdlib.h>

/* A batch that grows by a field for each file. */
static uint8_t *batch;
static size_t batch_size;

static int stop(const char *what, const char *name)
{
    fprintf(stderr, "batch: %s %s\n", what, name);
    return 2;
}

/* Appends a field with the image of a file; 0, or the status to end with. */
static int append(const char *name)
{
    /* Room for the longest image, and a byte to notice a file that is too long for a field. */
    uint8_t *larger = realloc(batch, batch_size + OCE_BATCH_IMAGE_AT + OCE_IMAGE_MOST + 1);
    if (!larger)
        return stop("no memory for", name);
    batch = larger;
    FILE *file = fopen(name, "rb");
    if (!file)
        return stop("cannot open", name);
    uint8_t *field = batch + batch_size;
    size_t n = fread(field + OCE_BATCH_IMAGE_AT, 1, OCE_IMAGE_MOST + 1, file);
    int failed = ferror(file);
    fclose(file);
    if (failed)
        return stop("cannot read", name);
    if (n > OCE_IMAGE_MOST)
        return stop("longer than any image:", name);
    field[OCE_BATCH_TAG_AT] = OCE_BATCH_TAG;
    field[OCE_BATCH_LENGTH_AT] = (uint8_t)(n & 0xFF);
    field[OCE_BATCH_LENGTH_AT + 1] = (uint8_t)(n >> 8);
    batch_size += OCE_BATCH_IMAGE_AT + n;
    return 0;
}

static uint32_t number_at(const uint8_t *bytes)
{
    return (uint32_t)bytes[0] | (uint32_t)bytes[1] << 8 | (uint32_t)bytes[2] << 16 |
           (uint32_t)bytes[3] << 24;
}

static void print_diagnostic(const uint8_t *d)
{
    printf("%s code %u rule %u.%u subject %u %lu place %lu\n",
           d[OCE_DIAGNOSTIC_SEVERITY_AT] == OCE_SEVERITY_ERROR ? "error" : "warning",
           d[OCE_DIAGNOSTIC_CODE_AT], d[OCE_DIAGNOSTIC_RULE_AT], d[OCE_DIAGNOSTIC_DETAIL_AT],
           d[OCE_DIAGNOSTIC_SUBJECT_KIND_AT],
           (unsigned long)number_at(d + OCE_DIAGNOSTIC_SUBJECT_NUMBER_AT),
           (unsigned long)number_at(d + OCE_DIAGNOSTIC_PLACE_AT));
}

/* Prints the result of an image; where the next one stands, and whether the model may be loaded. */
static const uint8_t *print_result(const uint8_t *result, int *loadable)
{
    unsigned refusal = result[OCE_SUMMARY_REFUSAL_AT];
    size_t errors = number_at(result + OCE_SUMMARY_ERRORS_AT);
    size_t warnings = number_at(result + OCE_SUMMARY_WARNINGS_AT);
    const uint8_t *report = result + OCE_SUMMARY_SIZE;
    *loadable = refusal == OCE_CHECKED && errors == 0;
    if (refusal != OCE_CHECKED)
        printf("refused %u at %lu\n", refusal,
               (unsigned long)number_at(result + OCE_SUMMARY_OFFSET_AT));
    else
        printf("errors %lu warnings %lu\n", (unsigned long)errors, (unsigned long)warnings);
    for (size_t i = 0; i < errors + warnings; i++)
        print_diagnostic(report + i * OCE_DIAGNOSTIC_SIZE);
    return report + (errors + warnings) * OCE_DIAGNOSTIC_SIZE;
}

int main(int argc, char **argv)
{
    for (int i = 1; i < argc; i++) {
        int status = append(argv[i]);
        if (status != 0)
            return status;
    }

    /* The first call has no room for an output: where one is needed, the answer tells its size. */
    uint8_t *output = NULL;
    oce_batch_answer a = oce_check_batch(batch, batch_size, output, 0);
    if (a.refusal == OCE_REFUSED_OUTPUT_SHORT) {
        size_t room = a.at;
        output = malloc(room);
        if (!output)
            return stop("no memory for the output of", "all files");
        a = oce_check_batch(batch, batch_size, output, room);
    }
    free(batch);
    if (a.refusal != OCE_CHECKED) {
        printf("refused %lu at %lu\n", (unsigned long)a.refusal, (unsigned long)a.at);
        free(output);
        return 1;
    }
    int all_loadable = 1;
    const uint8_t *result = output;
    for (int i = 1; i < argc; i++) {
        int loadable;
        printf("image %d\n", i - 1);
        result = print_result(result, &loadable);
        all_loadable &= loadable;
    }
    printf("bytes of the output %lu\n", (unsigned long)a.written);
    free(output);
    return !all_loadable;
}
