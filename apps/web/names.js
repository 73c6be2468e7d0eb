// SPDX-License-Identifier: MIT OR Apache-2.0
// Numbers and names of USB DFU 1.1, as in apps/flash/standard.h: requests (section 3), states and codes (section 6.1.2), the functional
// descriptor (section 4.1.3) and interfaces (sections 4.1.2 and 4.2.3).
export const KIND = { OUT: 0x21, IN: 0xa1, IS_IN: 0x80 }
export const REQUEST = { DETACH: 0, DNLOAD: 1, UPLOAD: 2, GETSTATUS: 3, GETSTATE: 5 }
export const REQUESTS = ['DETACH', 'DNLOAD', 'UPLOAD', 'GETSTATUS', 'CLRSTATUS', 'GETSTATE', 'ABORT']

export const STATES = ['appIDLE', 'appDETACH', 'dfuIDLE', 'dfuDNLOAD-SYNC', 'dfuDNBUSY', 'dfuDNLOAD-IDLE', 'dfuMANIFEST-SYNC',
  'dfuMANIFEST', 'dfuMANIFEST-WAIT-RESET', 'dfuUPLOAD-IDLE', 'dfuERROR']

export const CODES = ['OK', 'errTARGET', 'errFILE', 'errWRITE', 'errERASE', 'errCHECK_ERASED', 'errPROG', 'errVERIFY',
  'errADDRESS', 'errNOTDONE', 'errFIRMWARE', 'errVENDOR', 'errUSBR', 'errPOR', 'errUNKNOWN', 'errSTALLEDPKT']

// Splits a setup packet into bmRequestType, bRequest, wValue and wLength.
export function partsOf(setup) {
  return { kind: setup[0], request: setup[1], value: setup[2] | (setup[3] << 8), length: setup[6] | (setup[7] << 8) }
}

const isRequest = (setup, kind, request) => setup[0] === kind && setup[1] === request
export const isDownload = setup => isRequest(setup, KIND.OUT, REQUEST.DNLOAD)
export const isUpload = setup => isRequest(setup, KIND.IN, REQUEST.UPLOAD)
export const isStatus = setup => isRequest(setup, KIND.IN, REQUEST.GETSTATUS)
export const isDetach = setup => isRequest(setup, KIND.OUT, REQUEST.DETACH)

// Returns the state in an answer to GETSTATUS or GETSTATE, or undefined.
export function stateOf(request, bytes) {
  if (request === REQUEST.GETSTATUS && bytes.length === 6) return bytes[4]
  return request === REQUEST.GETSTATE && bytes.length === 1 ? bytes[0] : undefined
}

// Returns the poll time of a status, in ms.
export const pollOf = bytes => bytes[1] | (bytes[2] << 8) | (bytes[3] << 16)

export const STATE = { MANIFEST_SYNC: 6, MANIFEST: 7 }

// The functional descriptor: its type, its lengths in DFU 1.1 and 1.0, versions, and the bits of bmAttributes.
export const FUNCTIONAL = { TYPE: 0x21, BYTES: 9, BYTES_1_0: 7, VERSION_1_1: 0x0110, VERSION_DFUSE: 0x011a }
export const ATTRIBUTE = { CAN_DOWNLOAD: 1, CAN_UPLOAD: 2, IS_TOLERANT: 4, WILL_DETACH: 8 }
export const hasAttribute = (descriptor, bit) => descriptor.length >= FUNCTIONAL.BYTES_1_0 && (descriptor[2] & bit) !== 0
export const detachTimeOf = descriptor => descriptor[3] | (descriptor[4] << 8)
export const transferOf = descriptor => descriptor[5] | (descriptor[6] << 8)
export const versionOf = descriptor => descriptor[7] | (descriptor[8] << 8)
export const speaksDfuse = descriptor => descriptor.length === FUNCTIONAL.BYTES && versionOf(descriptor) === FUNCTIONAL.VERSION_DFUSE

// Interfaces with DFU: class, subclass, and the protocol in each mode.
export const INTERFACE = { CLASS: 0xfe, SUBCLASS: 1, RUNTIME: 1, DFU_MODE: 2 }

export const hexOf = bytes => Array.from(bytes, byte => byte.toString(16).padStart(2, '0')).join('')
export const digits = (number, count) => number.toString(16).padStart(count, '0')
