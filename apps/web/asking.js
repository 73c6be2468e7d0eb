// SPDX-License-Identifier: MIT OR Apache-2.0
// Questions to a person during a session: choose the device that returned, or pull the plug.
import { FILTERS } from './board.js'
import { by } from './elements.js'

export class Asking {
  constructor(usb, clock) {
    Object.assign(this, { usb, clock, finish: null })
    clock.stopped.then(() => this.end())
  }

  show(text, yes, no) {
    by('ask-text').textContent = text
    for (const [id, label] of [['ask-yes', yes], ['ask-no', no]]) {
      by(id).textContent = label
      by(id).hidden = label === ''
    }
    by('ask').hidden = false
    by(yes === '' ? 'ask-no' : 'ask-yes').focus()
  }

  end() {
    by('ask').hidden = true
    this.finish?.(null)
    this.finish = null
  }

  // Returns the device that a person chooses, or null. Refuses bystanders, which never left.
  choose(bystanders) {
    const pick = async () => {
      const device = await this.usb.requestDevice({ filters: FILTERS }).catch(() => null)
      if (device === null) return
      if (bystanders.has(device)) by('ask-text').textContent = 'That is another device: it was there before. Choose the one that came back.'
      else this.finish?.(device)
    }
    return this.asked('The device left to come back as another one, which this page may not see yet. Choose it once more.',
      'Choose the device', 'It does not come back', pick)
  }

  // Asks a person to unplug the device. Returns true if it left; a click alone doesn't count.
  async replug(isGone) {
    this.show('This system could not reset the device. Pull its plug now, and put it in again.', '', 'It can\'t be unplugged')
    let isGivenUp = false
    by('ask-no').onclick = () => { isGivenUp = true }
    while (!isGone() && !isGivenUp && await this.clock.wait(50));
    by('ask').hidden = true
    return isGone()
  }

  asked(text, yes, no, onYes) {
    return new Promise(done => {
      this.finish = answer => {
        by('ask').hidden = true
        this.finish = null
        done(answer)
      }
      by('ask-yes').onclick = onYes
      by('ask-no').onclick = () => this.finish?.(null)
      this.show(text, yes, no)
    })
  }
}
