/* The library as the board's own bench answers: ./answers SCRIPT
 *
 * Reads a script of commands, cuts and failures (docs/SCRIPT.md), runs it over the library and the device in memory, and prints what
 * sbibench prints of it, byte for byte. ./answers --draw LINES draws such a script. */
#include "device.h"
#include "sbistore.h"

#include <stdio.h>
#include <stdlib.h>
#include <string.h>

static struct sbistore store;
static int is_on, is_armed;
static enum fill fill_armed;

/* Every call of the device, until the code; below 0 where the armed cut has struck. */
static int run(void)
{
    uint8_t sector[SBISTORE_SECTOR];
    uint32_t failed = 0;
    for (;;)
        switch (sbistore_next(&store, failed, sector)) {
        case SBISTORE_READ: failed = device_read(store.number, sector); break;
        case SBISTORE_WRITE: failed = device_write(store.number, sector); break;
        case SBISTORE_SYNC: failed = device_sync(); break;
        default: return is_armed && device_is_dead() ? -1 : (int)store.number;
        }
}

static int run_command(uint32_t kind, uint32_t one, uint32_t other)
{
    sbistore_command(&store, kind, one, other);
    return run();
}

static void lose(enum fill fill)
{
    device_crash(fill);
    is_on = is_armed = 0;
}

/* What a line prints whose call ended so. */
static void answer(const char *name, int code, const char *after)
{
    if (code < 0) {
        puts("power lost");
        lose(fill_armed);
    } else if (code > 0) {
        printf("%s refused %d\n", name, code);
    } else {
        printf("%s%s\n", name, after);
    }
}

static void print_found(const struct sbistore_state *s)
{
    printf("found slot %u reason %u image none next %llu", (unsigned)s->slot, (unsigned)s->reason, (unsigned long long)s->next);
    if (s->on_trial)
        printf(" trial %u %u", (unsigned)s->fallback, (unsigned)s->left);
    putchar('\n');
}

/* A board that is powered on counts the boot where a trial stands. */
static void power_on(void)
{
    struct sbistore_state found;
    sbistore_open(&store, SECTORS);
    int code = run();
    if (code == 0) {
        sbistore_look(&store, &found);
        if (found.on_trial)
            code = run_command(SBISTORE_ATTEMPT, 0, 0);
        if (code >= 0)
            print_found(&found);
        is_on = code == 0;
    }
    answer("on", code, " keep");
}

static void command(const char *name, uint32_t kind, uint32_t one, uint32_t other)
{
    char after[32];
    int code = run_command(kind, one, other);
    snprintf(after, sizeof after, " ok %llu", (unsigned long long)store.receipts);
    answer(name, code, after);
}

/* A guest's reset, by hart 0: a failure is told as -1. */
static void reset(uint32_t reason)
{
    int code = run_command(SBISTORE_RESET, reason, 0);
    if (code > 0) {
        puts("call 0 error -1 value 0x0000000000000000");
        return;
    }
    is_on = is_on && code != 0;
    answer("call 0", code, " shutdown");
}

static enum fill fill_of(const char *word)
{
    return strcmp(word, "old") == 0 ? OLD : strcmp(word, "new") == 0 ? NEW : strcmp(word, "00") == 0 ? ZEROS : ONES;
}

static void arm(long cut, long fail, enum fill fill)
{
    device_cut_at(cut);
    device_fail_at(fail);
    is_armed = 1;
    fill_armed = fill;
    puts("armed");
}

static void line(const char *text)
{
    char word[8];
    unsigned one, other;
    if (strncmp(text, "board", 5) == 0) {
        device_blank();
        printf("board 2/%d/1 sectors %d\n", PAGES, SECTORS);
    } else if (sscanf(text, "cutat %u %7s", &one, word) == 2) {
        arm((long)one - 1, -1, fill_of(word));
    } else if (sscanf(text, "failat %u", &one) == 1) {
        arm(-1, (long)one - 1, OLD);
    } else if (sscanf(text, "cut %7s", word) == 1) {
        lose(fill_of(word));
        puts("cut");
    } else if (strncmp(text, "format", 6) == 0 || strncmp(text, "on ", 3) == 0) {
        if (is_on) {
            puts("busy");
        } else if (text[0] == 'o') {
            power_on();
        } else {
            sbistore_format(&store, SECTORS, 2, PAGES, 1);
            answer("format", run(), " ok");
        }
    } else if (!is_on) {
        puts("off");
    } else if (sscanf(text, "slot %u", &one) == 1) {
        command("slot", SBISTORE_SLOT, one, 0);
    } else if (sscanf(text, "tries %u %u", &one, &other) == 2) {
        command("tries", SBISTORE_TRIES, one, other);
    } else if (sscanf(text, "call 0 srst 0 0 %u", &one) == 1) {
        reset(one);
    } else if (strncmp(text, "good", 4) == 0) {
        command("good", SBISTORE_GOOD, 0, 0);
    } else {
        command("discard", SBISTORE_DISCARD, 0, 0);
    }
}

/* A script of so many lines after its first two. */
static void draw_script(unsigned long lines)
{
    static const char *const fills[] = {"old", "new", "00", "ff"};
    printf("board 2 %d 1\nformat\n", PAGES);
    while (lines--) {
        uint32_t one = draw(6), nine = draw(9);
        const char *fill = fills[draw(4)];
        switch (draw(16)) {
        case 0: printf("cutat %u %s\n", 1 + nine, fill); break;
        case 1: printf("failat %u\n", 1 + nine); break;
        case 2: printf("cut %s\n", fill); break;
        case 3: case 4: case 12: case 13: puts("on keep"); break;
        case 5: printf("call 0 srst 0 0 %u\n", one % 2); break;
        case 6: case 7: case 14: printf("slot %u\n", one); break;
        case 8: case 9: case 15: printf("tries %u %u\n", one, nine); break;
        case 10: puts("good"); break;
        default: puts(one ? "discard" : "format");
        }
    }
}

int main(int count, char **words)
{
    char text[128];
    if (count == 3 && strcmp(words[1], "--draw") == 0) {
        draw_script(strtoul(words[2], NULL, 10));
        return 0;
    }
    FILE *script = count == 2 ? fopen(words[1], "r") : NULL;
    if (!script)
        return 2;
    while (fgets(text, sizeof text, script))
        line(text);
    fclose(script);
    return 0;
}
