// SPDX-License-Identifier: MIT OR Apache-2.0
// Refusals and advice: names from docs/REFUSALS.md, words from apps/flash/refusals.c.
import { DFUSE_REFUSALS } from './dfuse_refusals.js'

const OTHER_FILE = 'Take another file, or ask who made it.'
const OTHER_DEVICE = 'Nothing was sent. Another board, or another version of its bootloader, may do.'

const REFUSALS = {
  [-1]: ['TooShort', 'the file has under 16 bytes, too few for a suffix', OTHER_FILE],
  [-2]: ['NoSignature', 'the file has no DFU suffix; `dfu add` gives it one',
    'If it is a raw image, this page can do so too.'],
  [-3]: ['BadLength', "the suffix's length is under 16 or over the file's", OTHER_FILE],
  [-4]: ['DfuSe', 'the file is a DfuSe file, which is another format', 'Choose a device in DFU mode that speaks DfuSe, as one of STM32.'],
  [-5]: ['BadCrc', "the file's check sum is wrong: it was changed or cut", 'Download the file again.'],
  [-7]: ['TooLarge', 'the file has over 16777216 bytes', OTHER_FILE],
  [-21]: ['EmptyPayload', 'the file has no image in it', OTHER_FILE],
  [-22]: ['WrongTarget', 'the file is for another device; in DFU mode it may have another product: see --device RUN,DFU',
    'Nothing was sent. Look whether it is the right file, and the right board.'],
  [-23]: ['CannotDownload', 'the device takes no downloads', OTHER_DEVICE],
  [-24]: ['CannotUpload', 'the device gives no uploads', OTHER_DEVICE],
  [-25]: ['BadDescriptor', "the device's transfer size is 0", OTHER_DEVICE],
  [-31]: ['Short', "the device's functional descriptor is cut off, or it has none", OTHER_DEVICE],
  [-32]: ['Long', "the device's functional descriptor is too long", OTHER_DEVICE],
  [-33]: ['WrongLength', "the device's functional descriptor has neither 9 nor 7 bytes", OTHER_DEVICE],
  [-34]: ['WrongType', "the device's functional descriptor is of another type", OTHER_DEVICE],
  DfuSeDevice: ['DfuSeDevice', 'the device speaks DfuSe, which is another protocol', 'Connect it again, now that it is in DFU mode.'],
}

// shown: the words without options of dfu-flash, which the page lacks.
export function refusalOf(number) {
  const [name, words, advice] = REFUSALS[number] ?? DFUSE_REFUSALS[number] ?? ['Unknown', 'the host refuses it', '']
  return { name, words, shown: words.replace(/[:,][^:,]* --.*/, ''), advice, status: 1, code: '' }
}
