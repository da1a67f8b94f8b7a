/* Checks a model image from a file and prints the answer and each diagnostic's fields.
 * Usage: check FILE
 */
#include <oce.h>

#include <stdio.h>
#include <stdlib.h>

/* One byte more than the longest image, to notice a file that is too long. */
static uint8_t image[OCE_IMAGE_MOST + 1];
static uint8_t filled[OCE_IMAGE_MOST];

static uint32_t number_at(const uint8_t *bytes)
{
    return (uint32_t)bytes[0] | (uint32_t)bytes[1] << 8 | (uint32_t)bytes[2] << 16 |
           (uint32_t)bytes[3] << 24;
}

static void print_diagnostic(const uint8_t *d)
{
    printf("%s code %u rule %u.%u subject %u %lu place %lu\n",
           d[OCE_DIAGNOSTIC_SEVERITY_AT] == OCE_SEVERITY_ERROR ? "error" : "warning",
           d[OCE_DIAGNOSTIC_CODE_AT], d[OCE_DIAGNOSTIC_RULE_AT], d[OCE_DIAGNOSTIC_DETAIL_AT],
           d[OCE_DIAGNOSTIC_SUBJECT_KIND_AT],
           (unsigned long)number_at(d + OCE_DIAGNOSTIC_SUBJECT_NUMBER_AT),
           (unsigned long)number_at(d + OCE_DIAGNOSTIC_PLACE_AT));
}

static int stop(const char *what, const char *name)
{
    fprintf(stderr, "check: %s %s\n", what, name);
    return 2;
}

int main(int argc, char **argv)
{
    if (argc != 2)
        return stop("usage:", "check FILE");
    FILE *file = fopen(argv[1], "rb");
    if (!file)
        return stop("cannot open", argv[1]);
    size_t n = fread(image, 1, sizeof image, file);
    int failed = ferror(file);
    fclose(file);
    if (failed)
        return stop("cannot read", argv[1]);

    /* The first call has no room for a report: where one is needed, the answer tells its size. */
    uint8_t *report = NULL;
    size_t room = 0;
    oce_answer a = oce_check(image, n, filled, sizeof filled, report, room);
    if (a.refusal == OCE_REFUSED_REPORT_SHORT) {
        room = a.at;
        report = malloc(room);
        if (!report)
            return stop("no memory for the report of", argv[1]);
        a = oce_check(image, n, filled, sizeof filled, report, room);
    }
    if (a.refusal != OCE_CHECKED) {
        printf("refused %lu at %lu\n", (unsigned long)a.refusal, (unsigned long)a.at);
        free(report);
        return 1;
    }
    printf("errors %lu warnings %lu\n", (unsigned long)a.errors, (unsigned long)a.warnings);
    for (size_t i = 0; i < (size_t)a.errors + a.warnings; i++)
        print_diagnostic(report + i * OCE_DIAGNOSTIC_SIZE);
    size_t filled_in = 0;
    for (size_t i = 0; i < n; i++)
        filled_in += filled[i] != image[i];
    printf("filled bytes that differ from the image %lu\n", (unsigned long)filled_in);
    free(report);
    return a.errors != 0;
}
