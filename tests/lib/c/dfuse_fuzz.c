/* Plays whole runs of dfu-flash with changed DfuSe files, on the stand-in's DfuSe device with random settings and faults: `dfuse_fuzz RUNS
 * SEED`, in a folder with the old memory `old`, 16 pages of 1,024 bytes from address 08000000h. It is linked with dfu-flash, whose main is
 * flash_main, and with the stand-in, and each run is a separate process. Each must end with an exit status of dfu-flash, and without a
 * report of a sanitizer, whose status is 99. A refused file causes no request. After a success the memory must hold the bytes that a second
 * reader finds in the file. If the device's map is true, no page without a byte of the file may change. This last rule is not checked for a
 * device that stalls GETSTATE while a command of an earlier session is not started: the host then sends GETSTATUS, which starts the
 * command, and the law of dfuse_link excludes such a device too. */
#define _GNU_SOURCE
#include "dfuse_varied.h"

#include <fcntl.h>
#include <stdio.h>
#include <stdlib.h>
#include <sys/wait.h>
#include <unistd.h>

enum { PAGE = 1024 };

int flash_main(int count, char **words);

static uint8_t old[SIZE], saved[SIZE];
static long counts[16];
static int alternate;

static int wanted_alternate(void)
{
    return one_in(4) ? (int)below(2) : -1;
}

/* Runs dfu-flash and ends this process with its status. */
static void be_flash(int count, char **words)
{
    static char *environment[MOST_SETTINGS + 1];
    for (int at = 0; at < setting_count; at++)
        environment[at] = settings[at];
    environment[setting_count] = NULL;
    environ = environment;
    dup2(open("out", O_WRONLY | O_CREAT | O_TRUNC, 0666), 1);
    dup2(open("err", O_WRONLY | O_CREAT | O_TRUNC, 0666), 2);
    alarm(100);
    exit(flash_main(count, words));
}

/* Plays a run in a separate process. Returns its status, or more than 255 if a signal ended it. */
static int run(int limits)
{
    static char texts[][12] = {"dfu-flash", "--quiet", "--alt", "--limits", "60", "1", "f.dfu"};
    char number[4];
    char *words[12] = {texts[0], texts[1]};
    int count = 2, status = 0;
    pid_t child;
    snprintf(number, sizeof number, "%d", alternate);
    if (alternate >= 0) {
        words[count++] = texts[2];
        words[count++] = number;
    }
    for (int at = 3; limits && at < 6; at++)
        words[count++] = texts[at];
    words[count++] = texts[6];
    fflush(NULL);
    child = fork();
    if (child == 0)
        be_flash(count, words);
    if (child < 0 || waitpid(child, &status, 0) != child)
        exit(2);
    return WIFEXITED(status) ? WEXITSTATUS(status) : 256 + status;
}

static size_t read_file(const char *name, uint8_t *bytes, size_t room)
{
    FILE *from = fopen(name, "rb");
    size_t count = from == NULL ? 0 : fread(bytes, 1, room, from);
    if (from != NULL)
        fclose(from);
    return count;
}

/* Returns 1 if the log has a request of the class. */
static int has_sent(void)
{
    char line[256];
    FILE *log = fopen("log", "r");
    int is_found = 0;
    while (log != NULL && fgets(line, sizeof line, log) != NULL)
        is_found |= line[0] >= '0' && line[0] <= '9';
    if (log != NULL)
        fclose(log);
    return is_found;
}

/* Returns 1 if the device stalled GETSTATE before the first DNLOAD, because it had not started a command of an earlier session. */
static int has_hidden_command(void)
{
    char line[256];
    FILE *log = fopen("log", "r");
    int is_found = 0;
    while (log != NULL && !is_found && fgets(line, sizeof line, log) != NULL && strstr(line, " DNLOAD ") == NULL)
        is_found = strstr(line, " GETSTATE 0 1 stall -> stall, dfuDNLOAD-SYNC") != NULL;
    if (log != NULL)
        fclose(log);
    return is_found;
}

/* has_image returns 1 if the memory holds the elements; others_stand returns 1 if each page without an element is unchanged. */
static int has_image(const struct second *second)
{
    for (uint64_t at = 0; at < second->count; at++) {
        const struct dfuse_element *element = &second->elements[at];
        if (element->address < BASE || element->length > SIZE || element->address - BASE > SIZE - element->length
            || memcmp(saved + (element->address - BASE), element->bytes, element->length) != 0)
            return 0;
    }
    return second->count > 0;
}

static int others_stand(const struct second *second)
{
    for (uint32_t page = 0; page < SIZE; page += PAGE) {
        int is_touched = 0;
        for (uint64_t at = 0; at < second->count; at++)
            is_touched |= second->elements[at].address < BASE + page + PAGE
                && second->elements[at].address + (uint64_t)second->elements[at].length > BASE + page;
        if (!is_touched && memcmp(saved + page, old + page, PAGE) != 0)
            return 0;
    }
    return 1;
}

/* Returns a description of the run's fault, or NULL. */
static const char *fault_of(int status)
{
    static struct second second;
    size_t kept = read_file("saved", saved, SIZE);
    memset(&second, 0, sizeof second);
    second.answer = read_again(file, length, (uint8_t)(alternate < 0 ? 0 : alternate), &second);
    if (second.answer == 0 && alternate < 0 && second.fields.setting < 256) {
        uint8_t setting = (uint8_t)second.fields.setting;
        memset(&second, 0, sizeof second);
        second.answer = read_again(file, length, setting, &second);
    }
    if (status > 15)
        return "another status";
    if (status == 1 && has_sent())
        return "refused, and something was sent";
    if (!is_dfuse)
        return second.answer == 0 && (status == 0 || has_sent()) ? "a DfuSe file for another device, and something was sent" : NULL;
    if (status == 0 && (second.answer != 0 || kept != SIZE))
        return "a success with a file that is none";
    if (status == 0 && !has_image(&second))
        return "a success without the image";
    if (kept == SIZE && is_true && second.answer == 0 && !others_stand(&second) && !has_hidden_command())
        return "another page has changed";
    return kept == SIZE && second.answer != 0 && memcmp(saved, old, SIZE) != 0 ? "no file, and the memory has changed" : NULL;
}

static void write_file(void)
{
    FILE *to = fopen("f.dfu", "wb");
    if (to == NULL || fwrite(file, 1, length, to) != length || fclose(to) != 0)
        exit(2);
}

int main(int count, char **words)
{
    static const char *const fixed[FIXED][2] = {{"USB_DEVICE", "dfuse"}, {"USB_IMAGE", "old"}, {"USB_SAVE", "saved"},
        {"USB_LOG", "log"}, {"USB_PAGES", "@F/0x08000000/16*001Kg"}};
    long runs = count > 2 ? atol(words[1]) : 0, failed = 0;
    unsigned seed = count > 2 ? (unsigned)atol(words[2]) : 0;
    for (int at = 0; at < FIXED; at++)
        set(fixed[at][0], fixed[at][1]);
    if (runs == 0 || read_file("old", old, SIZE) != SIZE)
        return 2;
    for (long number = 0; number < runs; number++) {
        const char *fault;
        int status;
        if (number > 0 && number % 5000 == 0)
            printf("%ld runs, %ld wrong\n", number, failed);
        srand(seed + (unsigned)number);
        make_file();
        make_settings();
        alternate = wanted_alternate();
        write_file();
        remove("saved");
        remove("log");
        status = run(one_in(30));
        counts[status & 15] += status <= 15;
        fault = fault_of(status);
        if (fault == NULL)
            continue;
        failed++;
        printf("run %ld of seed %u: %s, status %d\n", number, seed, fault, status);
    }
    printf("%ld runs:", runs);
    for (int status = 0; status < 16; status++)
        if (counts[status] > 0)
            printf(" %ld of status %d", counts[status], status);
    printf("; %ld wrong\n", failed);
    return failed != 0;
}
