// SPDX-License-Identifier: MIT OR Apache-2.0
// Sets up the page: reports what this browser lacks, loads the three libraries, and opens the views.
import { by, say } from './elements.js'
import { FlashView } from './flash.js'
import { load, runsWasm64 } from './library.js'
import { keepOffline } from './offline.js'
import { PlayView } from './play.js'

const VIEWS = ['flash', 'play']
const NO_WASM = 'This browser does not run WebAssembly with addresses of 64 bits, which the proved host is built for. Chromium, Chrome ' +
  'and Edge do from version 133 on.'

function showView() {
  const view = VIEWS.find(name => location.hash === `#${name}`) ?? 'flash'
  for (const name of VIEWS) by(name).hidden = name !== view
  for (const link of document.querySelectorAll('nav a'))
    if (link.hash === `#${view}`) link.setAttribute('aria-current', 'page')
    else link.removeAttribute('aria-current')
  by('no-usb').hidden = view !== 'flash' || !by('flash').classList.contains('no-usb')
}

async function begin() {
  if (!runsWasm64()) return say('lacks', NO_WASM)
  by('flash').classList.toggle('no-usb', navigator.usb === undefined)
  const [host, device, image] = await Promise.all([load('dfu_host_c'), load('dfu_device_c'), load('dfu_image_c')])
  const examples = await (await fetch(new URL('examples.json', import.meta.url))).json()
  new FlashView({ host, device, image }, navigator.usb)
  new PlayView({ host, device }, examples)
  window.addEventListener('hashchange', showView)
  showView()
  document.body.dataset.ready = 'yes'
  keepOffline()
  return undefined
}

begin().catch(error => say('lacks', `The page can't begin: ${error.message}`))
