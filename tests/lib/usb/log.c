/* Writes lines such as these to the file that USB_LOG names:
 *
 *     0 GETSTATUS 0 6 -> 000000000200, dfuIDLE
 *     1 DNLOAD 0 8 lost-back -> timeout, dfuDNLOAD-SYNC
 *     reset -> appIDLE
 *     setting 1
 *     started 08000000
 *     end 2 appIDLE OK
 *
 * The line of a transfer has the number, the request, its wValue and wLength, the fate if there is one, the result for the program, and the
 * state of the device afterwards. The last line has the number of transfers, the state and the status code. */
#include "log.h"
#include "abi.h"

#include <stdio.h>
#include <string.h>

static const char *const states[] = {"appIDLE",        "appDETACH",        "dfuIDLE",     "dfuDNLOAD-SYNC",         "dfuDNBUSY",
                                     "dfuDNLOAD-IDLE", "dfuMANIFEST-SYNC", "dfuMANIFEST", "dfuMANIFEST-WAIT-RESET", "dfuUPLOAD-IDLE",
                                     "dfuERROR"};
static const char *const codes[] = {"OK",      "errTARGET", "errFILE",    "errWRITE",     "errERASE",    "errCHECK_ERASED",
                                    "errPROG", "errVERIFY", "errADDRESS", "errNOTDONE",   "errFIRMWARE", "errVENDOR",
                                    "errUSBR", "errPOR",    "errUNKNOWN", "errSTALLEDPKT"};
static const char *const requests[] = {"DETACH", "DNLOAD", "UPLOAD", "GETSTATUS", "CLRSTATUS", "GETSTATE", "ABORT"};
static const char *const fates[] = {"",      " lost-out", " lost-back", " twice", " short", " leave", " swap",
                                    " kill", " deaf",     " mute",      " stuck", " cut",   " stall"};

#define NAME(table, number) ((unsigned)(number) < sizeof(table) / sizeof *(table) ? (table)[number] : "?")

/* Returns the file to write to, which is opened for the first line; NULL if no log was requested. */
static FILE *sink(void)
{
    static FILE *file;
    if (file == NULL && settings.log != NULL) {
        file = fopen(settings.log, "wb");
        if (file == NULL)
            fail_loudly("%s can't be written", settings.log);
        setvbuf(file, NULL, _IOLBF, BUFSIZ);
    }
    return file;
}

static const char *heard(int answer)
{
    switch (answer) {
    case USB_ERROR_PIPE: return "stall";
    case USB_ERROR_TIMEOUT: return "timeout";
    case USB_ERROR_NO_DEVICE: return "no device";
    default: return answer < 0 ? "error" : "";
    }
}

void log_transfer(unsigned number, const uint8_t setup[8], const uint8_t *data, int answer, enum fate_kind fate, int state)
{
    FILE *file = sink();
    if (file == NULL)
        return;
    fprintf(file, "%u %s %u %u%s -> %s", number, NAME(requests, setup[1]), (unsigned)(setup[2] | setup[3] << 8),
            (unsigned)(setup[6] | setup[7] << 8), fates[fate], heard(answer));
    for (int i = 0; (setup[0] & 0x80) != 0 && i < answer; i++)
        fprintf(file, "%02x", data[i]);
    fprintf(file, "%s, %s\n", (setup[0] & 0x80) == 0 && answer >= 0 ? "ok" : "", NAME(states, state));
}

void log_reset(int state)
{
    FILE *file = sink();
    if (file != NULL)
        fprintf(file, "reset -> %s\n", NAME(states, state));
}

void log_pull(int state)
{
    FILE *file = sink();
    if (file != NULL)
        fprintf(file, "pulled -> %s\n", NAME(states, state));
}

void log_setting(int setting)
{
    FILE *file = sink();
    if (file != NULL)
        fprintf(file, "setting %d\n", setting);
}

void log_started(uint32_t address)
{
    FILE *file = sink();
    if (file != NULL)
        fprintf(file, "started %08lx\n", (unsigned long)address);
}

void log_end(unsigned transfers, int state, int code)
{
    FILE *file = sink();
    if (file != NULL)
        fprintf(file, "end %u %s %s\n", transfers, NAME(states, state), NAME(codes, code));
}
