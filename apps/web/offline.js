// SPDX-License-Identifier: MIT OR Apache-2.0
// Registers sw.js, which makes the page work offline. Without https or localhost, or if the browser stores nothing, the page works only
// online.
export function keepOffline() {
  navigator.serviceWorker?.register(new URL('sw.js', import.meta.url)).catch(() => {})
}
