/* Makes traces of many keys, and counts them as a plain program: what the tables of bench/parts and tests/cluster are held
   against. It knows nothing of marple but the columns of its generator.

   Usage: plain make PACKETS KEYS FILES FOLDER    writes FOLDER/part-01.csv and so on, of one header
          plain count FILE..                      writes a line for each source: srcip,packets,bytes,last,unexpected
   Build: cc -O2 -o plain plain.c */
#include <inttypes.h>
#include <stdio.h>
#include <stdlib.h>
#include <string.h>

static const char header[] = "switch,qid,uid,srcip,dstip,srcport,dstport,proto,pkt_len,payload_len,tcpseq,tin,tout,qsize\n";

static uint64_t state = 1;

/* A draw of a generator of 64 bits (xorshift64*). */
static uint64_t draw(void) {
    state ^= state >> 12;
    state ^= state << 25;
    state ^= state >> 27;
    return state * 2685821657736338717u;
}

static void fail(const char *what) {
    perror(what);
    exit(1);
}

static void make(uint64_t packets, uint64_t keys, uint64_t files, const char *folder) {
    uint64_t uid = 0, tin = 1000;
    for (uint64_t file = 0; file < files; file++) {
        char name[4096];
        snprintf(name, sizeof name, "%s/part-%02" PRIu64 ".csv", folder, file + 1);
        FILE *out = fopen(name, "w");
        if (!out) fail(name);
        fputs(header, out);
        for (uint64_t end = packets * (file + 1) / files; uid < end; uid++) {
            uint64_t key = draw() % keys, payload = draw() % 1461, queue = draw() % 30;
            tin += draw() % 50;
            fprintf(out, "%" PRIu64 ",0,%" PRIu64 ",%" PRIu64 ",%" PRIu64 ",%" PRIu64 ",80,6,%" PRIu64 ",%" PRIu64 ",%" PRIu64 ",%" PRIu64,
                    1 + key % 4, uid + 1, 167772160 + key, 3232235520 + key % 8, 1024 + key % 60000, payload + 40, payload,
                    draw() % 4 ? uid : 0, tin);
            if (queue > 28) fprintf(out, ",inf,%" PRIu64 "\n", queue);
            else fprintf(out, ",%" PRIu64 ",%" PRIu64 "\n", tin + 20 * queue, queue);
        }
        if (fclose(out)) fail(name);
    }
}

struct count { uint64_t srcip, packets, bytes, last, unexpected; };

static struct count *table;
static uint64_t places = 1 << 16, used;

static struct count *find(struct count *in, uint64_t size, uint64_t srcip) {
    uint64_t at = srcip * 0x9E3779B97F4A7C15u >> 20;
    for (;; at++) {
        struct count *one = &in[at & (size - 1)];
        if (!one->packets || one->srcip == srcip) return one;
    }
}

static void grow(void) {
    struct count *wider = calloc(places * 2, sizeof *wider);
    if (!wider) fail("memory");
    for (uint64_t at = 0; at < places; at++)
        if (table[at].packets) *find(wider, places * 2, table[at].srcip) = table[at];
    free(table);
    table = wider;
    places *= 2;
}

static void add(const char *line) {
    uint64_t field[14] = {0};
    for (int at = 0; at < 14; at++) {
        field[at] = strncmp(line, "inf", 3) ? strtoull(line, NULL, 10) : UINT64_MAX;
        line = strchr(line, ',') ? strchr(line, ',') + 1 : "";
    }
    if (used * 2 > places) grow();
    struct count *one = find(table, places, field[3]);
    used += !one->packets;
    one->srcip = field[3];
    one->packets++;
    one->bytes += field[8];
    one->unexpected += one->last != field[10];
    one->last = field[10] + field[9];
}

static int by_source(const void *a, const void *b) {
    uint64_t x = ((const struct count *)a)->srcip, y = ((const struct count *)b)->srcip;
    return (x > y) - (x < y);
}

static void count(int files, char **names) {
    char line[4096];
    table = calloc(places, sizeof *table);
    if (!table) fail("memory");
    for (int at = 0; at < files; at++) {
        FILE *in = fopen(names[at], "r");
        if (!in || !fgets(line, sizeof line, in)) fail(names[at]);
        while (fgets(line, sizeof line, in)) add(line);
        fclose(in);
    }
    uint64_t rows = 0;
    for (uint64_t at = 0; at < places; at++)
        if (table[at].packets) table[rows++] = table[at];
    qsort(table, rows, sizeof *table, by_source);
    for (uint64_t at = 0; at < rows; at++)
        printf("%" PRIu64 ",%" PRIu64 ",%" PRIu64 ",%" PRIu64 ",%" PRIu64 "\n", table[at].srcip, table[at].packets,
               table[at].bytes, table[at].last, table[at].unexpected);
}

int main(int words, char **word) {
    if (words == 6 && !strcmp(word[1], "make")) make(atoll(word[2]), atoll(word[3]), atoll(word[4]), word[5]);
    else if (words > 2 && !strcmp(word[1], "count")) count(words - 2, word + 2);
    else return fputs("usage: plain make PACKETS KEYS FILES FOLDER | plain count FILE..\n", stderr), 2;
    return 0;
}
