// SPDX-License-Identifier: MIT OR Apache-2.0
// The service worker stores the files of one build of the page, and returns them if the server can't be reached. apps/web/build writes
// kept.js with FILES and a NAME for each build.
importScripts('kept.js')

async function keep() {
  const kept = await caches.open(NAME)
  await kept.addAll(FILES.map(file => new Request(file, { cache: 'reload' })))
}

// Deletes the caches of other builds.
async function begin() {
  const names = await caches.keys()
  await Promise.all(names.filter(name => name !== NAME).map(name => caches.delete(name)))
  await self.clients.claim()
}

const fileOf = address => address.slice(self.registration.scope.length).replace(/[?#].*$/, '') || 'index.html'

async function answer(request, file) {
  try {
    return await fetch(request)
  } catch (error) {
    const kept = await caches.open(NAME)
    return await kept.match(file) ?? Response.error()
  }
}

self.addEventListener('install', event => {
  self.skipWaiting()
  event.waitUntil(keep())
})
self.addEventListener('activate', event => event.waitUntil(begin()))
self.addEventListener('fetch', event => {
  const { request } = event
  if (request.method !== 'GET' || !request.url.startsWith(self.registration.scope)) return
  const file = fileOf(request.url)
  if (FILES.includes(file)) event.respondWith(answer(request, file))
})
