// SPDX-License-Identifier: MIT OR Apache-2.0
// Error messages for a device that can't be opened, with advice.
import { NOT_DFU, SEVERAL } from './board.js'

const RULE = 'On Linux a rule of udev lets you: `make install UDEVDIR=/etc/udev/rules.d` of Fustrelan installs one for every device ' +
  'with DFU. Plug the device in again then.'
const DRIVER = 'On Windows its DFU interface needs the driver WinUSB, which the device itself can ask for, or Zadig sets.'

const WORDS = {
  NotFoundError: 'The device left. Plug it in, and connect again.',
  SecurityError: `The system does not let this page open the device. ${RULE} ${DRIVER}`,
  NetworkError: `Another program or a driver has the device. Close it, and connect again. ${DRIVER}`,
  TimeoutError: 'The device does not answer. Plug it in again.',
  [NOT_DFU]: 'The device has no DFU interface in the configuration that it is in.',
  [SEVERAL]: 'The device has several memories, and none was chosen.',
}

export const noAccess = error => WORDS[error.name] ?? `The device can't be had: ${error.message}`
