/* Calls the library on each image of a file with buffers of the exact lengths that end at a page
 * which can't be touched, then with ones that begin behind such a page. The image can't be written.
 * Then the same with batches of the images. Also tells how much stack the calls took, of both kinds
 * apart. Usage: guarded FILE
 *
 * The file holds for each image its length, 4 bytes, low byte first, then its bytes.
 */
#define _GNU_SOURCE
#include <oce.h>

#include <pthread.h>
#include <signal.h>
#include <stdio.h>
#include <stdlib.h>
#include <string.h>
#include <sys/mman.h>
#include <unistd.h>

/* Room for the longest buffer, a multiple of the page size. */
#define ROOM ((size_t)1 << 20)
#define BATCH_ROOM ((size_t)1 << 23)
#define STACK ((size_t)1 << 22)
#define UNUSED 0x5A

/* Images are put into a batch until it has so many, or so many bytes. */
#define BATCH_IMAGES 64
#define BATCH_SIZE ((size_t)1 << 20)

/* Room between two pages that can't be touched. */
struct guarded {
    uint8_t *room;
    size_t size;
};

/* Where a buffer stands in its room. */
enum side { AT_END, AT_START };

static size_t page;
static struct guarded image_room, filled_room, report_room, batch_room, output_room;
static const uint8_t *images;
static size_t images_size;
static uint8_t *stack_low;

/* Where the program is, for the line that tells of a fault. */
static const char *volatile now_kind = "image";
static volatile unsigned long now_image;
static volatile int now_side;

static void stop(const char *what)
{
    fprintf(stderr, "guarded: %s\n", what);
    exit(1);
}

static void on_fault(int signal)
{
    char line[128];
    int n = snprintf(line, sizeof line, "guarded: signal %d at %s %lu, buffers %s\n", signal,
                     now_kind, now_image, now_side == AT_END ? "at the end" : "at the start");
    if (n > 0 && write(2, line, (size_t)n) < 0)
        _exit(3);
    _exit(1);
}

static uint8_t *pages(size_t size, int protection)
{
    uint8_t *p = mmap(NULL, size, protection, MAP_PRIVATE | MAP_ANONYMOUS, -1, 0);
    if (p == MAP_FAILED)
        stop("no memory");
    return p;
}

static struct guarded make_guarded(size_t size)
{
    struct guarded g = {pages(size + 2 * page, PROT_NONE) + page, size};
    if (mprotect(g.room, size, PROT_READ | PROT_WRITE) != 0)
        stop("cannot open a room");
    memset(g.room, UNUSED, size);
    return g;
}

static uint8_t *buffer(struct guarded g, enum side side, size_t size)
{
    if (size > g.size)
        stop("a buffer is too long");
    return side == AT_END ? g.room + g.size - size : g.room;
}

/* Whether the room outside the buffer still holds what it held, within reach of a page. */
static int rest_unused(struct guarded g, enum side side, size_t size)
{
    size_t rest = g.size - size < page ? g.size - size : page;
    const uint8_t *from = side == AT_END ? g.room + g.size - size - rest : g.room + size;
    for (size_t i = 0; i < rest; i++)
        if (from[i] != UNUSED)
            return 0;
    return 1;
}

static int all_unused(const uint8_t *from, size_t size)
{
    for (size_t i = 0; i < size; i++)
        if (from[i] != UNUSED)
            return 0;
    return 1;
}

static int same(oce_answer a, oce_answer b)
{
    return a.refusal == b.refusal && a.at == b.at && a.errors == b.errors &&
           a.warnings == b.warnings;
}

/* One call with buffers of these sizes; results stay in the rooms. */
static oce_answer call(enum side side, size_t n, size_t filled, size_t report)
{
    now_side = side;
    oce_answer a = oce_check(buffer(image_room, side, n), n, buffer(filled_room, side, filled),
                             filled, buffer(report_room, side, report), report);
    if (!rest_unused(filled_room, side, filled) || !rest_unused(report_room, side, report))
        stop("bytes outside of a buffer changed");
    return a;
}

static void clear(enum side side, size_t filled, size_t report)
{
    memset(buffer(filled_room, side, filled), UNUSED, filled);
    memset(buffer(report_room, side, report), UNUSED, report);
}

struct sums {
    unsigned long images, calls, checked, refused;
};

/* A call that must be refused with this answer and change nothing. */
static void refused(struct sums *sums, enum side side, size_t n, size_t filled, size_t report,
                    uint32_t refusal, size_t at)
{
    oce_answer a = call(side, n, filled, report);
    oce_answer expected = {refusal, (uint32_t)at, 0, 0};
    sums->calls++;
    if (!same(a, expected) || !all_unused(buffer(filled_room, side, filled), filled) ||
        !all_unused(buffer(report_room, side, report), report)) {
        fprintf(stderr, "guarded: image %lu: not refused %u at %lu with both buffers kept\n",
                now_image, refusal, (unsigned long)at);
        exit(1);
    }
}

static void one_image(struct sums *sums, const uint8_t *image, size_t n)
{
    static uint8_t first_filled[ROOM], first_report[ROOM];
    oce_answer first = {0, 0, 0, 0};
    sums->images++;
    for (int side = AT_END; side <= AT_START; side++) {
        uint8_t *here = buffer(image_room, side, n);
        memcpy(here, image, n);
        mprotect(image_room.room, ROOM, PROT_READ);
        /* Without room for a report the answer tells the bytes needed. */
        oce_answer a = call(side, n, n, 0);
        sums->calls++;
        size_t size = a.refusal == OCE_REFUSED_REPORT_SHORT ? a.at : 0;
        if (size > 0) {
            refused(sums, side, n, n, size - 1, OCE_REFUSED_REPORT_SHORT, size);
            a = call(side, n, n, size);
            sums->calls++;
        }
        uint8_t *filled = buffer(filled_room, side, n);
        uint8_t *report = buffer(report_room, side, size);
        if (a.refusal == OCE_CHECKED) {
            if (size != OCE_DIAGNOSTIC_SIZE * ((size_t)a.errors + a.warnings))
                stop("the report isn't as long as was told");
            sums->checked += side == AT_END;
        } else {
            if (size > 0 || !all_unused(filled, n))
                stop("a refused image changed a buffer");
            sums->refused += side == AT_END;
        }
        if (side == AT_END) {
            first = a;
            memcpy(first_filled, filled, n);
            memcpy(first_report, report, size);
        } else if (!same(first, a) || memcmp(first_filled, filled, n) != 0 ||
                   memcmp(first_report, report, size) != 0) {
            fprintf(stderr, "guarded: image %lu: the two sides differ\n", now_image);
            exit(1);
        }
        clear(side, n, size);
        if (a.refusal == OCE_CHECKED)
            refused(sums, side, n, n - 1, size, OCE_REFUSED_FILLED_SHORT, n);
        mprotect(image_room.room, ROOM, PROT_READ | PROT_WRITE);
        memset(here, UNUSED, n);
    }
}

/* The shortest image. */
static const uint8_t head_alone[OCE_IMAGE_LEAST] = {1, 20, 0, 1};

/* A null pointer where the length is 0. */
static void nulls(void)
{
    oce_answer a = oce_check(NULL, 0, NULL, 0, NULL, 0);
    oce_answer size = {OCE_REFUSED_SIZE, 0, 0, 0};
    if (!same(a, size))
        stop("no image isn't refused for its size");
    uint8_t filled[OCE_IMAGE_LEAST];
    a = oce_check(head_alone, sizeof head_alone, filled, sizeof filled, NULL, 0);
    oce_answer fine = {0, 0, 0, 0};
    if (!same(a, fine) || memcmp(head_alone, filled, sizeof head_alone) != 0)
        stop("a head alone isn't checked without a report buffer");
    a = oce_check(head_alone, sizeof head_alone, NULL, 0, NULL, 0);
    oce_answer short_filled = {OCE_REFUSED_FILLED_SHORT, OCE_IMAGE_LEAST, 0, 0};
    if (!same(a, short_filled))
        stop("a head alone isn't refused without a filled buffer");
}

/* The image that stands at `*at` of the file, and its length; `*at` goes on behind it. */
static const uint8_t *next_image(size_t *at, size_t *n)
{
    const uint8_t *from = images + *at;
    *n = (size_t)from[0] | (size_t)from[1] << 8 | (size_t)from[2] << 16 | (size_t)from[3] << 24;
    *at += 4;
    if (*n > images_size - *at)
        stop("the file of images is cut");
    *at += *n;
    return from + 4;
}

static void *run(void *given)
{
    struct sums *sums = given;
    size_t at = 0;
    nulls();
    while (at + 4 <= images_size) {
        size_t n;
        const uint8_t *image = next_image(&at, &n);
        now_image = sums->images;
        one_image(sums, image, n);
    }
    return NULL;
}

/* ---- batches */

struct batch_sums {
    unsigned long batches, images, too_long, calls;
};

/* A row of fields, where the last one starts, and how many they are. */
struct row {
    uint8_t *bytes;
    size_t size, last, fields;
};

static int same_batch(oce_batch_answer a, oce_batch_answer b)
{
    return a.refusal == b.refusal && a.at == b.at && a.written == b.written;
}

/* One call on a batch that can only be read, with an output of this size; it stays in its room. */
static oce_batch_answer call_batch(struct batch_sums *sums, enum side side, const uint8_t *batch,
                                   size_t n, size_t output)
{
    now_side = side;
    uint8_t *here = buffer(batch_room, side, n);
    memcpy(here, batch, n);
    mprotect(batch_room.room, batch_room.size, PROT_READ);
    oce_batch_answer a = oce_check_batch(here, n, buffer(output_room, side, output), output);
    sums->calls++;
    mprotect(batch_room.room, batch_room.size, PROT_READ | PROT_WRITE);
    memset(here, UNUSED, n);
    if (!rest_unused(output_room, side, output))
        stop("bytes outside of the output changed");
    return a;
}

/* A call that must be refused with this answer and change nothing. */
static void refused_batch(struct batch_sums *sums, enum side side, const uint8_t *batch, size_t n,
                          size_t output, uint64_t refusal, size_t at)
{
    oce_batch_answer a = call_batch(sums, side, batch, n, output);
    oce_batch_answer expected = {refusal, at, 0};
    if (!same_batch(a, expected) || !all_unused(buffer(output_room, side, output), output)) {
        fprintf(stderr, "guarded: batch %lu: not refused %lu at %lu with the output kept\n",
                now_image, (unsigned long)refusal, (unsigned long)at);
        exit(1);
    }
}

/* A batch without a fault: no output, one byte short and the exact length; then cut in its last
 * field, in each of the leading bytes and before the last of its contents.
 */
static void one_batch(struct batch_sums *sums, const struct row *row)
{
    static uint8_t first_output[BATCH_ROOM];
    size_t first_size = 0;
    now_image = sums->batches++;
    sums->images += row->fields;
    for (int side = AT_END; side <= AT_START; side++) {
        oce_batch_answer a = call_batch(sums, side, row->bytes, row->size, 0);
        size_t size = a.at;
        oce_batch_answer expected = {OCE_REFUSED_OUTPUT_SHORT, size, 0};
        if (!same_batch(a, expected) || size < OCE_SUMMARY_SIZE * row->fields)
            stop("a call without an output doesn't tell the bytes needed");
        refused_batch(sums, side, row->bytes, row->size, size - 1, OCE_REFUSED_OUTPUT_SHORT, size);
        a = call_batch(sums, side, row->bytes, row->size, size);
        oce_batch_answer written = {0, 0, size};
        uint8_t *output = buffer(output_room, side, size);
        if (!same_batch(a, written))
            stop("the output isn't as long as was told");
        if (side == AT_END) {
            first_size = size;
            memcpy(first_output, output, size);
        } else if (first_size != size || memcmp(first_output, output, size) != 0) {
            fprintf(stderr, "guarded: batch %lu: the two sides differ\n", now_image);
            exit(1);
        }
        memset(output, UNUSED, size);
        for (size_t cut = row->last + 1; cut < row->last + OCE_BATCH_IMAGE_AT; cut++)
            refused_batch(sums, side, row->bytes, cut, size, OCE_REFUSED_BATCH_FIELD, row->last);
        if (row->size > row->last + OCE_BATCH_IMAGE_AT)
            refused_batch(sums, side, row->bytes, row->size - 1, size, OCE_REFUSED_BATCH_FIELD,
                          row->last);
    }
}

static void append(struct row *row, const uint8_t *image, size_t n)
{
    uint8_t *field = row->bytes + row->size;
    if (OCE_BATCH_IMAGE_AT + n > BATCH_ROOM - row->size)
        stop("a batch is too long");
    field[OCE_BATCH_TAG_AT] = OCE_BATCH_TAG;
    field[OCE_BATCH_LENGTH_AT] = (uint8_t)(n & 0xFF);
    field[OCE_BATCH_LENGTH_AT + 1] = (uint8_t)(n >> 8);
    memcpy(field + OCE_BATCH_IMAGE_AT, image, n);
    row->last = row->size;
    row->size += OCE_BATCH_IMAGE_AT + n;
    row->fields++;
}

static void empty(struct row *row)
{
    row->size = row->last = row->fields = 0;
}

/* A null pointer where the length is 0. */
static void batch_nulls(struct row *row)
{
    oce_batch_answer nothing = {0, 0, 0};
    if (!same_batch(oce_check_batch(NULL, 0, NULL, 0), nothing))
        stop("no batch isn't answered with nothing written");
    uint8_t output[OCE_SUMMARY_SIZE];
    memset(output, UNUSED, sizeof output);
    if (!same_batch(oce_check_batch(NULL, 0, output, sizeof output), nothing) ||
        !all_unused(output, sizeof output))
        stop("no batch isn't answered with an output as it was");
    append(row, head_alone, sizeof head_alone);
    oce_batch_answer a = oce_check_batch(row->bytes, row->size, NULL, 0);
    oce_batch_answer no_output = {OCE_REFUSED_OUTPUT_SHORT, OCE_SUMMARY_SIZE, 0};
    if (!same_batch(a, no_output))
        stop("a batch isn't refused without an output buffer");
    empty(row);
}

/* As many images as there may be, then one more. */
static void full_batch(struct batch_sums *sums, struct row *row)
{
    for (size_t i = 0; i < OCE_BATCH_IMAGES_MOST; i++)
        append(row, head_alone, i % 2 == 0 ? sizeof head_alone : 0);
    one_batch(sums, row);
    append(row, head_alone, 0);
    for (int side = AT_END; side <= AT_START; side++)
        refused_batch(sums, side, row->bytes, row->size, row->fields * OCE_SUMMARY_SIZE,
                      OCE_REFUSED_BATCH_FIELD, row->last);
    empty(row);
}

static void *run_batches(void *given)
{
    static uint8_t row_bytes[BATCH_ROOM];
    struct batch_sums *sums = given;
    struct row row = {row_bytes, 0, 0, 0};
    size_t at = 0, fill = 1;
    now_kind = "batch";
    batch_nulls(&row);
    full_batch(sums, &row);
    while (at + 4 <= images_size) {
        size_t n;
        const uint8_t *image = next_image(&at, &n);
        if (n > OCE_IMAGE_MOST)
            sums->too_long++;
        else
            append(&row, image, n);
        /* batches of 1 to BATCH_IMAGES images in turn */
        if (row.fields > 0 &&
            (row.fields >= fill || row.size >= BATCH_SIZE || at + 4 > images_size)) {
            one_batch(sums, &row);
            empty(&row);
            fill = fill % BATCH_IMAGES + 1;
        }
    }
    return NULL;
}

/* ---- the program */

/* The bytes from the top of the thread's stack down to the lowest that was touched. */
static size_t stack_used(void)
{
    size_t low = 0;
    while (low < STACK && stack_low[low] == UNUSED)
        low++;
    return STACK - low;
}

/* Runs a thread on a stack that nothing has touched; the bytes of it that it touched. */
static size_t on_own_stack(void *(*body)(void *), void *given)
{
    pthread_attr_t attributes;
    pthread_t thread;
    memset(stack_low, UNUSED, STACK);
    pthread_attr_init(&attributes);
    if (pthread_attr_setstack(&attributes, stack_low, STACK) != 0 ||
        pthread_create(&thread, &attributes, body, given) != 0 || pthread_join(thread, NULL) != 0)
        stop("cannot run a thread");
    return stack_used();
}

static void read_images(const char *name)
{
    FILE *file = fopen(name, "rb");
    if (!file || fseek(file, 0, SEEK_END) != 0)
        stop("cannot read the file of images");
    long size = ftell(file);
    uint8_t *bytes = size > 0 ? malloc((size_t)size) : NULL;
    rewind(file);
    if (!bytes || fread(bytes, 1, (size_t)size, file) != (size_t)size)
        stop("cannot read the file of images");
    fclose(file);
    images = bytes;
    images_size = (size_t)size;
}

int main(int argc, char **argv)
{
    if (argc != 2)
        stop("usage: guarded FILE");
    page = (size_t)sysconf(_SC_PAGESIZE);
    read_images(argv[1]);
    image_room = make_guarded(ROOM);
    filled_room = make_guarded(ROOM);
    report_room = make_guarded(ROOM);
    batch_room = make_guarded(BATCH_ROOM);
    output_room = make_guarded(BATCH_ROOM);
    signal(SIGSEGV, on_fault);
    signal(SIGBUS, on_fault);

    struct sums sums = {0, 0, 0, 0};
    struct batch_sums batch_sums = {0, 0, 0, 0};
    stack_low = pages(STACK, PROT_READ | PROT_WRITE);
    size_t used = on_own_stack(run, &sums);
    printf("%lu images (%lu checked, %lu refused), %lu calls, nothing outside touched\n",
           sums.images, sums.checked, sums.refused, sums.calls);
    printf("stack of the thread, its own frames included: %lu bytes\n", (unsigned long)used);
    if (used > OCE_STACK_SIZE)
        stop("a call takes more stack than oce.h says");
    used = on_own_stack(run_batches, &batch_sums);
    printf("%lu batches of %lu images (%lu more are too long for a field), %lu calls, nothing "
           "outside touched\n",
           batch_sums.batches, batch_sums.images, batch_sums.too_long, batch_sums.calls);
    printf("stack of the thread, its own frames included: %lu bytes\n", (unsigned long)used);
    if (used > OCE_BATCH_STACK_SIZE)
        stop("a call for a batch takes more stack than oce.h says");
    return 0;
}
