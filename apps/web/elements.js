// SPDX-License-Identifier: MIT OR Apache-2.0
// Helpers for the elements of the page.
export const by = id => document.getElementById(id)

// Makes an element with these properties and children.
export function make(tag, properties = {}, ...children) {
  const element = Object.assign(document.createElement(tag), properties)
  element.append(...children)
  return element
}

// Shows a text, or hides its element if the text is empty.
export function say(id, text) {
  by(id).textContent = text
  by(id).hidden = text === ''
}

// Shows a list of names and values.
export function showFields(id, fields) {
  by(id).replaceChildren(...fields.flatMap(([name, value]) => [make('dt', {}, name), make('dd', {}, value)]))
  by(id).hidden = false
}

// Replaces by dots the control characters of untrusted text, and those that change its direction.
export const plain = text => text.replace(/[\u0000-\u001f\u007f-\u009f\u200e\u200f\u2028-\u202e\u2066-\u2069]/g, '·')

// Returns a FileList with one file, for a file input.
export function listOf(file) {
  const data = new DataTransfer()
  data.items.add(file)
  return data.files
}

// Downloads data as a file.
export function download(name, data, type) {
  const address = URL.createObjectURL(new Blob([data], { type }))
  make('a', { href: address, download: name }).click()
  setTimeout(() => URL.revokeObjectURL(address), 1000)
}
