// SPDX-License-Identifier: MIT OR Apache-2.0
// Differences between operating systems.

const name = () => navigator.userAgentData?.platform ?? navigator.platform ?? ''

// On Windows WebUSB's reset() isn't implemented, and always fails.
export const canReset = () => !/^Win/i.test(name())

// Returns true if a device in alternate setting 0 doesn't notice being closed and reopened. Linux sends no request then. Other systems are
// unknown.
export const closesUnheard = () => /^(Linux|Android|Chrome OS|Chromium OS)/i.test(name())
