/* SPDX-License-Identifier: MIT OR Apache-2.0 */
/* Prints the output of --list and of --dry-run. */
#include "list.h"
#include "json.h"
#include "next.h"
#include "record.h"
#include "messages.h"
#include "stamp.h"
#include "standard.h"
#include "station.h"
#include "status.h"

#include <stdio.h>

static const char *access_name(int access)
{
    switch (access) {
    case 0: return "yes";
    case LIBUSB_ERROR_BUSY: return "in use";
    case LIBUSB_ERROR_NO_DEVICE: return "gone";
    default: return "no";
    }
}

static void print_descriptor(const struct found *found)
{
    const uint8_t *bytes = found->descriptor;
    char digits[2 * sizeof found->descriptor + 1];
    if (found->descriptor_size < FUNCTIONAL_BYTES_1_0)
        return;
    for (size_t at = 0; at < found->descriptor_size; at++)
        snprintf(digits + 2 * at, 3, "%02x", bytes[at]);
    json_text("descriptor", digits);
    json_number("transfer", two_bytes(bytes + AT_TRANSFER));
    json_truth("download", (bytes[AT_ATTRIBUTES] & CAN_DOWNLOAD) != 0);
    json_truth("upload", (bytes[AT_ATTRIBUTES] & CAN_UPLOAD) != 0);
    json_truth("tolerant", (bytes[AT_ATTRIBUTES] & IS_TOLERANT) != 0);
    json_truth("will_detach", (bytes[AT_ATTRIBUTES] & WILL_DETACH) != 0);
}

static void print_record(const struct found *found)
{
    printf("{%s\"vendor\":\"%04x\",\"product\":\"%04x\",\"release\":\"%04x\"", *say_mark != '\0' ? "\"simulated\":true," : "",
           found->vendor, found->product, found->release);
    json_text("path", found->path);
    json_text("port", station_port(found->path));
    if (found->serial[0] != '\0')
        json_text("serial", found->serial);
    json_setting(found);
    json_text("mode", found->is_upgrade ? "DFU" : "run-time");
    print_descriptor(found);
    if (is_dfuse(found) && found->is_upgrade)
        dfuse_print_json(found);
    json_text("access", access_name(found->access));
    puts("}");
}

int list_devices(libusb_context *usb, const struct wanted *wanted, bool is_json)
{
    struct found list[FOUND_ROOM];
    int count = find_all(usb, wanted, list, FOUND_ROOM);
    if (count < 0) {
        fprintf(stderr, "dfu-flash: the list of devices can't be had: %s\n", libusb_error_name(count));
        return record_none(STATUS_NO_DEVICE, is_json);
    }
    for (int at = 0; at < count; at++)
        if (is_json)
            print_record(&list[at]);
        else {
            if (station_port(list[at].path) != NULL)
                say_text(stdout, "", station_port(list[at].path), ": ");
            say_found(stdout, &list[at]);
            if (is_dfuse(&list[at]) && list[at].is_upgrade)
                dfuse_print_map(&list[at]);
        }
    found_drop(list, count);
    if (count == 0) {
        say_missing(usb, wanted);
        next_say(next_of_end("none"));
    }
    if (count == FOUND_ROOM)
        fputs("dfu-flash: more than these may be there; choose by --device, --path or --serial\n", stderr);
    return record_out() ? STATUS_DONE : STATUS_FILE;
}

/* Prints the record of a dry run: the fields of a session that are known before it starts. */
static void print_plan_record(const struct session *session)
{
    record_begin(session, STATUS_DONE, "dry-run",
                 session->runtime_refusal != 0 ? "bring it to DFU mode, and look there how large blocks are" : "nothing was sent");
    if (session->dfuse.is_active)
        json_address(session->dfuse.address);
    if (session->goal != GOAL_UPLOAD || session->dfuse.is_active)
        json_number("bytes", session->payload_length);
    if (session->dfuse.is_active && session->dfuse.file != NULL)
        dfuse_elements_json(session);
    json_text("stamp", stamp_next());
    if (session->runtime_refusal == 0) {
        json_number("transfer", session->host.transfer);
        json_number("most_actions", session->actions);
        json_number("most_restarts", session->restarts);
    }
    puts("}");
}

void list_plan(const struct session *session, bool is_json)
{
    static const char *const goals[] = {"download", "download and compare", "upload"};
    if (is_json) {
        print_plan_record(session);
        return;
    }
    if (session->runtime_refusal != 0)
        fputs("dry-run: bring it to DFU mode, and look there how large blocks are: ", stdout);
    else {
        if (session->dfuse.is_active && session->dfuse.file != NULL)
            dfuse_print_elements(&session->dfuse);
        printf("dry-run: %s", goals[session->goal]);
        if (session->goal != GOAL_UPLOAD || session->dfuse.is_active)
            printf(" %zu bytes", session->payload_length);
        if (session->dfuse.is_active)
            printf(" at %08lx", (unsigned long)session->dfuse.address);
        printf(" in blocks of %u, within %lu actions and %u restarts: ", session->host.transfer, (unsigned long)session->actions,
               session->restarts);
    }
    say_found(stdout, &session->wire.device->info);
}
