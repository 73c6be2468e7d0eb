/* Debian 12's fwupd finds no USB device with its libusb 1.0.26, because libusb binds the socket of udev events that fwupd needs. With
 * LD_PRELOAD this library makes libusb not bind it. */
#define _GNU_SOURCE
#include <dlfcn.h>

enum { NO_DEVICE_DISCOVERY = 2 }; /* LIBUSB_OPTION_NO_DEVICE_DISCOVERY */

int libusb_set_option(void *context, int option, ...);
int libusb_init(void **context);

int libusb_init(void **context)
{
    int (*real)(void **);
    *(void **)&real = dlsym(RTLD_NEXT, "libusb_init");
    libusb_set_option(0, NO_DEVICE_DISCOVERY);
    return real(context);
}
