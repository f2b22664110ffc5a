// wear_out URI uniform|zipf|sequential [ERROR]: four connections write pages of sectors of their own, over and over, until each was refused 20
// times. Then each trims a sector before each write, until 20 more were refused. A refusal is ENOSPC, or the given error; in the end every page has
// to be as its last write or trim that was answered left it.
#include <errno.h>
#include <math.h>
#include <pthread.h>
#include <string.h>

#include "client.h"

enum { WRITERS = 4, REFUSALS = 20, TRIMMED_REFUSALS = 40, NUMBERS = PAGE / 8 };
#define SKEW 1.2

static int refusal = ENOSPC; // what a refused write gets
static int refuses_trims;    // and a trim then, since an error was given

struct writer {
    pthread_t thread;
    const char *uri;
    uint32_t me, sectors, *last;
    const double *share; // of each own sector: how likely it or one before it is drawn; or NULL: they are written in turn
    int wrong_errors;
    uint64_t answered, untrimmed; // writes in all, and before the first trim
    double refusals[TRIMMED_REFUSALS]; // how long each took
};

// A page names its sector and the number of its write in each of its 512 words.
static void fill(uint32_t *page, uint32_t sector, uint32_t number) {
    for (int i = 0; i < NUMBERS; i++) {
        page[2 * i] = sector;
        page[2 * i + 1] = number;
    }
}

static uint32_t draw(struct writer *writer, struct drand48_data *random, uint32_t number) {
    if (!writer->share)
        return (number - 1) % (writer->sectors / WRITERS) * WRITERS + writer->me;
    double from_0_to_1;
    drand48_r(random, &from_0_to_1);
    uint32_t low = 0, high = writer->sectors / WRITERS - 1;
    while (low < high) {
        uint32_t middle = (low + high) / 2;
        if (writer->share[middle] < from_0_to_1)
            low = middle + 1;
        else
            high = middle;
    }
    return low * WRITERS + writer->me;
}

// A disk that can't be changed any more refuses trims too.
static void trim(struct writer *writer, struct nbd_handle *nbd, uint32_t sector) {
    if (nbd_trim(nbd, PAGE, (uint64_t) sector * PAGE, 0) == 0)
        writer->last[sector] = 0;
    else if (!refuses_trims || nbd_get_errno() != refusal)
        end("trim");
}

static void *write_until_refused(void *argument) {
    struct writer *writer = argument;
    struct nbd_handle *nbd = connect_to(writer->uri);
    struct drand48_data random;
    srand48_r(writer->me + 1, &random);
    uint32_t page[2 * NUMBERS];
    for (uint32_t number = 1, refusals = 0; refusals < TRIMMED_REFUSALS; number++) {
        if (refusals >= REFUSALS)
            trim(writer, nbd, draw(writer, &random, number));
        uint32_t sector = number <= writer->sectors / WRITERS ? (number - 1) * WRITERS + writer->me : draw(writer, &random, number);
        fill(page, sector, number);
        double began = seconds();
        if (nbd_pwrite(nbd, page, PAGE, (uint64_t) sector * PAGE, 0) == 0) {
            writer->last[sector] = number;
            writer->answered++;
            writer->untrimmed += refusals < REFUSALS;
            continue;
        }
        writer->refusals[refusals++] = seconds() - began;
        writer->wrong_errors += nbd_get_errno() != refusal;
    }
    nbd_close(nbd);
    return NULL;
}

static uint32_t wrong_pages(const char *uri, uint32_t sectors, const uint32_t *last) {
    struct nbd_handle *nbd = connect_to(uri);
    static uint32_t page[2 * NUMBERS], wanted[2 * NUMBERS];
    uint32_t wrong = 0;
    for (uint32_t sector = 0; sector < sectors; sector++) {
        fill(wanted, last[sector] ? sector : 0, last[sector]);
        if (nbd_pread(nbd, page, PAGE, (uint64_t) sector * PAGE, 0) == -1)
            end("read");
        wrong += memcmp(page, wanted, PAGE) != 0;
    }
    return wrong;
}

// How likely the first sectors are drawn: all alike, or each by the SKEWth power of its place.
static double *shares(uint32_t sectors, int is_zipf) {
    double *share = calloc(sectors, sizeof *share), sum = 0;
    for (uint32_t i = 0; i < sectors; i++)
        share[i] = sum += is_zipf ? 1 / pow(i + 1, SKEW) : 1;
    for (uint32_t i = 0; i < sectors; i++)
        share[i] /= sum;
    return share;
}

static int by_size(const void *one, const void *other) {
    double first = *(const double *) one, second = *(const double *) other;
    return (first > second) - (first < second);
}

int main(int count, char **words) {
    if (count < 3 || count > 4)
        return 2;
    refuses_trims = count == 4;
    if (count == 4)
        refusal = strcmp(words[3], "EIO") == 0 ? EIO : strcmp(words[3], "EPERM") == 0 ? EPERM : ENOSPC;
    struct nbd_handle *nbd = connect_to(words[1]);
    uint32_t sectors = (uint32_t) (nbd_get_size(nbd) / PAGE);
    nbd_close(nbd);
    uint32_t *last = calloc(sectors, sizeof *last);
    double *share = strcmp(words[2], "sequential") == 0 ? NULL : shares(sectors / WRITERS, strcmp(words[2], "zipf") == 0);
    struct writer writers[WRITERS];
    for (uint32_t i = 0; i < WRITERS; i++) {
        writers[i] = (struct writer){.uri = words[1], .me = i, .sectors = sectors, .last = last, .share = share};
        if (pthread_create(&writers[i].thread, NULL, write_until_refused, &writers[i]))
            end("thread");
    }
    uint64_t answered = 0, untrimmed = 0;
    int wrong_errors = 0;
    double refusals[WRITERS * TRIMMED_REFUSALS];
    for (int i = 0; i < WRITERS; i++) {
        pthread_join(writers[i].thread, NULL);
        answered += writers[i].answered;
        untrimmed += writers[i].untrimmed;
        wrong_errors += writers[i].wrong_errors;
        memcpy(refusals + i * TRIMMED_REFUSALS, writers[i].refusals, sizeof writers[i].refusals);
    }
    uint32_t wrong = wrong_pages(words[1], sectors, last);
    qsort(refusals, WRITERS * TRIMMED_REFUSALS, sizeof *refusals, by_size);
    printf("answered %lu, %lu of them before the first trim, nine in ten refused within %.1f ms, all within %.1f ms, other errors %d, wrong pages %u\n",
           (unsigned long) answered, (unsigned long) untrimmed, refusals[WRITERS * TRIMMED_REFUSALS * 9 / 10] * 1e3,
           refusals[WRITERS * TRIMMED_REFUSALS - 1] * 1e3, wrong_errors, wrong);
    free(last);
    free(share);
    return wrong_errors || wrong;
}
