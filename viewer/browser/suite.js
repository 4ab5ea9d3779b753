/* The tests of a page in one browser, which opens before the first of them and closes behind the last one. */

import assert from "node:assert/strict";
import { after, before, beforeEach, describe } from "node:test";
import { skip } from "./otbench.js";
import { User } from "./user.js";

/**
 * Tests that a user makes; the page has thrown nothing at their end. Each begins in a window of 1440 x 900, whatever size the one before left.
 * @param {string} name
 * @param {() => Promise<object>} openBrowser
 * @param {(user: User) => void} tests the user has a page when they run
 */
export function suite(name, openBrowser, tests) {
  describe(name, { skip }, () => {
    const user = new User(null);
    before(async () => (user.page = await openBrowser()));
    beforeEach(() => user.page.size(1440, 900));
    after(async () => {
      if (!user.page) return; // no browser was opened
      const { exceptions } = user.page;
      await user.page.close();
      assert.deepEqual(exceptions, []);
    });
    tests(user);
  });
}
