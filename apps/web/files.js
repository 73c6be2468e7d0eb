// SPDX-License-Identifier: MIT OR Apache-2.0
// Recognizes a DFU 1.1 file, a DfuSe file or a raw image, like apps/flash/image.c.
import { DfuseHost } from './dfuse_host.js'
import { Host, LOOKS, REFUSAL } from './host.js'

const NO_SUFFIX = [REFUSAL.FILE_TOO_SHORT, REFUSAL.FILE_NO_SIGNATURE]

// Returns { isDfuse, said, look }: said has the file's fields or { refusal }, and look its apparent format. A file with a DfuSe prefix
// counts as DfuSe even if it is damaged, unless it is a valid DFU 1.1 file.
export function readFile(module, bytes, name = '') {
  const host = new Host(module, bytes)
  const [said, look] = [host.readFile(), host.look(name)]
  const isDfuse = said.refusal === REFUSAL.FILE_DFUSE || (said.refusal !== undefined && look.looks === LOOKS.DFUSE)
  return { isDfuse, said: isDfuse ? new DfuseHost(module, bytes).readFile() : said, look }
}

// Returns true if the file has bytes and no suffix.
export const lacksSuffix = ({ isDfuse, said }, bytes) => !isDfuse && NO_SUFFIX.includes(said.refusal) && bytes.length > 0

// Returns true if the file may be a raw image, because it looks like no other format.
export const mayBeRaw = (file, bytes) => lacksSuffix(file, bytes) && file.look.looks === LOOKS.RAW
