/* Calls of the stand-in that Windows doesn't have. */
#ifndef USB_WINDOWS_POSIX_H
#define USB_WINDOWS_POSIX_H

int pause(void);

#endif
