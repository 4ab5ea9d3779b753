/* Tests of how the page looks, for any browser: contrast, what is cut, and keys alone, in windows of all sizes and both themes. */

import assert from "node:assert/strict";
import { test } from "node:test";
import { difference, showFaultyPort } from "./faulty_port.js";
import { longSchedule } from "./long_session.js";
import { suite } from "./suite.js";

/* In the page: the texts in sight whose contrast to what is behind them is below 4.5. What is disabled may be paler. */
const PALE = `(() => {
  const pixel = Object.assign(document.createElement("canvas"), { width: 1, height: 1 }).getContext("2d", { willReadFrequently: true });
  const parts = (colour) => {
    pixel.clearRect(0, 0, 1, 1);
    pixel.fillStyle = colour;
    pixel.fillRect(0, 0, 1, 1);
    const [red, green, blue, alpha] = pixel.getImageData(0, 0, 1, 1).data;
    return { rgb: [red, green, blue], alpha: alpha / 255 };
  };
  const over = ({ rgb, alpha }, below) => rgb.map((value, i) => alpha * value + (1 - alpha) * below[i]);
  const chain = (node) => (node ? [...chain(node.parentElement), node] : []);
  const behind = (node) => chain(node).reduce((below, part) => over(parts(getComputedStyle(part).backgroundColor), below), [255, 255, 255]);
  const light = (rgb) => rgb.map((value) => value / 255).map((value) => (value <= 0.04045 ? value / 12.92 : ((value + 0.055) / 1.055) ** 2.4)).reduce((sum, value, i) => sum + [0.2126, 0.7152, 0.0722][i] * value, 0);
  const ratio = (a, b) => (Math.max(light(a), light(b)) + 0.05) / (Math.min(light(a), light(b)) + 0.05);
  const walker = document.createTreeWalker(document.querySelector("dialog[open]") ?? document.body, NodeFilter.SHOW_TEXT);
  const found = [];
  while (walker.nextNode()) {
    const node = walker.currentNode.parentElement;
    if (walker.currentNode.data.trim() === "" || !node.checkVisibility() || node.closest("script, style, option, textarea, .heard, #marks, :disabled")) continue;
    const { color, fill } = getComputedStyle(node);
    const below = behind(node);
    const own = over(parts(node.closest("svg") ? fill : color), below);
    if (ratio(own, below) < 4.5) found.push(walker.currentNode.data.slice(0, 40) + ": " + ratio(own, below).toFixed(2));
  }
  return [...new Set(found)];
})()`;

/* In the page: the controls that are wider than the window or that something stands over, and whether the page or two lanes are wider than their room. */
const CUT = `(() => {
  const root = document.querySelector("dialog[open]") ?? document.querySelector("header");
  const controls = [...root.querySelectorAll("button, select, input")].filter((control) => control.checkVisibility());
  const isCut = (control) => {
    control.scrollIntoView({ block: "nearest" });
    const { left, right, top, bottom } = control.getBoundingClientRect();
    const hit = document.elementFromPoint((left + right) / 2, (top + bottom) / 2);
    return left < 0 || right > innerWidth || control.scrollWidth > control.clientWidth + 2 || !(control.contains(hit) || hit?.closest("label")?.contains(control));
  };
  const cut = controls.filter(isCut).map((control) => control.id || control.textContent || control.value);
  const time = document.getElementById("time");
  const wide = [["the page", document.documentElement.scrollWidth > innerWidth], ["the diagram", time.scrollWidth > time.clientWidth]];
  return [...cut, ...wide.filter(([, isWide]) => isWide).map(([part]) => part)];
})()`;

/* In the page: from now on where the diagram, the first card and `Why?` stand, at each frame; how far the cards are scrolled does not count. */
const watch = () => {
  const box = (id) => document.getElementById(id).getBoundingClientRect();
  const look = () => {
    window.stood.add([box("time").top, box("cards").top + document.getElementById("state").scrollTop, box("why").left].map(Math.round).join());
    requestAnimationFrame(look);
  };
  const isWatching = window.stood !== undefined;
  window.stood = new Set();
  if (!isWatching) look();
};

/* In the page: how many lines of a box its button stands over. */
const countCovered = (id) => {
  const room = document.getElementById(id);
  const mark = document.querySelector(`[data-room="${id}"]`);
  if (!mark.checkVisibility()) return 0;
  const { left, right, top, bottom } = mark.getBoundingClientRect();
  const end = Math.min(bottom, room.getBoundingClientRect().bottom);
  const range = document.createRange();
  const texts = document.createTreeWalker(room, NodeFilter.SHOW_TEXT);
  let count = 0;
  while (texts.nextNode()) {
    range.selectNodeContents(texts.currentNode);
    count += [...range.getClientRects()].filter((line) => line.right > left && line.left < right && line.bottom > top && line.top < end).length;
  }
  return count;
};

/* In the page: its style is that of paper. */
const toPaper = () => {
  for (const { media } of document.styleSheets[0].cssRules) if (media) media.mediaText = media.mediaText.replace(/^print/, "all").replace(/^screen.*/, "not all");
};

export function testLooks(name, openBrowser) {
  suite(`${name}, looks`, openBrowser, (user) => {
    /* A port with a fault at its difference, and why. */
    async function openPort(theme) {
      await user.open(`#theme=${theme}`);
      await showFaultyPort(user);
    }

    /* Two users at one position, at the end. */
    async function openTie() {
      const text = 'clients 2\nedit 0 ["a"]\nedit 1 ["b"]\ntake 0\ntake 1\ndeliver 1\nack 1\nack 0\ndeliver 0\n';
      await user.open();
      await user.paste("body", text);
      await user.until(`document.getElementById("text").value === ${JSON.stringify(text)} && document.getElementById("length").textContent === "of 8"`, "the session");
      await user.press("End");
      await user.settled(8);
    }

    for (const theme of ["light", "dark"])
      test(`${theme}: each text is seen, and no control is cut, in windows of 1440, 1280 and 390, and at 200 %`, async () => {
        for (const [width, height] of [[1440, 900], [1280, 720], [390, 844], [720, 450]]) {
          await user.page.size(width, height);
          await openPort(theme);
          const looks = async (what) => assert.deepEqual([await user.run(PALE), await user.run(CUT)], [[], []], `${what}, ${width} x ${height}`);
          await looks("a port with a fault");
          await user.run('document.getElementById("menu").click()');
          await looks("with the menu");
          await user.run('document.getElementById("menu").click()');
          await user.press(":");
          await user.page.type("show");
          await user.press("Enter");
          await user.until('/^client 0 /.test(document.querySelector("#answers pre").textContent)', "the answer");
          await looks("the debugger");
          await user.press("Escape");
          for (const [key, id] of [["l", "choosing"], ["v", "hiding"], ["s", "saving"], ["?", "keys"]]) {
            await user.press(key);
            await user.until(`document.getElementById("${id}").open`, id);
            await looks(id);
            await user.press("Escape");
          }
        }
      });

    /* The sizes of windows: 720 x 450 is one of 1440 x 900 at 200 %. */
    for (const [width, height] of [[1440, 900], [1280, 720], [390, 844], [720, 450]])
      test(`what is told later leaves the diagram, the cards and the buttons where they are, at ${width} x ${height}`, async () => {
        const told = (id) => user.until(`document.getElementById("${id}").textContent !== ""`, `what ${id} says`, 1000);
        const stay = async (what, act) => {
          await user.run(`(${watch})()`);
          await act();
          await user.page.drawn();
          const stood = await user.run("[...window.stood]");
          assert.equal(stood.length, 1, `${what}: ${stood.join("; ")}`);
        };
        const step = async (key, place, ...ids) => {
          await user.press(key);
          await user.settled(place);
          for (const id of ids) await told(id);
        };
        await user.page.size(width, height);
        await user.open();
        await stay("steps", async () => {
          for (let place = 3; place <= 8; place++) await step("ArrowRight", place, "outlook");
        });
        await user.press("w");
        await told("reason");
        await stay("why", async () => {
          for (let place = 7; place >= 2; place--) await step("ArrowLeft", place, "outlook", "reason");
        });
        await openPort("light");
        await user.press("w", "End");
        await user.settled(16);
        await stay("another text", async () => {
          await user.press("Delete");
          await user.until('document.getElementById("length").textContent === "of 15"', "the answer");
          await told("list-verdict");
          await user.answered(difference);
        });
        await user.drop("long.ots", longSchedule({ clients: 64, instructions: 300 }));
        await user.until('document.getElementById("length").textContent === "of 300"', "the session");
        await user.press("End");
        await stay("a session of many clients", async () => {
          await told("list-verdict");
          await told("outlook");
          assert.ok(await user.run('document.getElementById("outlook").scrollHeight > 200'), "a verdict of many lines");
          await user.click(".card button.head");
          await user.until('document.getElementById("length").textContent === "of 301"', "the answer");
          await told("list-verdict");
          await told("outlook");
        });
      });

    for (const [width, height] of [[1440, 900], [1280, 720], [640, 360]])
      test(`a notice, a reason, a name and a note move no button that is used next, at ${width} x ${height}`, async () => {
        await user.page.size(width, height);
        await openTie();
        await user.until('document.getElementById("outlook").textContent !== ""', "the verdict");
        const stood = () =>
          user.run(`(() => {
            const card = document.querySelector('[data-card="1"]').getBoundingClientRect();
            const above = ["time", "why", "next", "cards"].map((id) => document.getElementById(id).getBoundingClientRect());
            const own = ["note", "name", "play"].map((act) => document.querySelector('[data-card="1"] [data-' + act + "]").getBoundingClientRect());
            const of = (box, { left = 0, top = 0 }) => [Math.round(box.left - left), Math.round(box.top - top)].join();
            return [...above.slice(0, 3).map((box) => of(box, { top: -scrollY })), Math.round(above[3].left), Math.round(above[3].width), ...own.map((box) => of(box, card))].join("; ");
          })()`);
        const before = await stood();
        const stays = async (what, condition) => {
          await user.until(condition, what, 1000);
          await user.page.drawn();
          assert.equal(await stood(), before, what);
        };
        await user.press("u");
        await stays("a notice", 'document.getElementById("notice").textContent !== ""');
        await user.press("w");
        await stays("a reason", '/transforms/.test(document.getElementById("reason").textContent)');
        await user.click('[data-name="1"]');
        await user.page.type("Ben");
        await user.press("Enter");
        await stays("a name", '/Ben/.test(document.querySelector(\'[data-card="1"] h2\').textContent)');
        await user.click('[data-note="1"]');
        await user.page.type("ab");
        await user.until('document.getElementById("noted-answer").textContent !== ""', "the answer");
        await user.click('#noting [value="note"]');
        await stays("a note", 'document.getElementById("conformance").dataset.verdict === "differs"');
      });

    for (const [width, height] of [[1440, 900], [1280, 720], [390, 844]])
      test(`the whole answer and each verdict can be read, and steps move neither, at ${width} x ${height}`, async () => {
        await user.page.size(width, height);
        await openTie();
        await user.click('[data-note="1"]');
        await user.page.type("ab");
        await user.until('document.getElementById("noted-answer").textContent !== ""', "the answer");
        await user.click('#noting [value="note"]');
        await user.answered({ verdict: "differs", at: 5, client: 1, key: "document" });
        /* Whether a box shows all of its text, or its button says that there is more. */
        const isMarked = (id) => user.until(`((room) => (room.scrollHeight - room.clientHeight <= 2) === document.querySelector('[data-room="${id}"]').hidden)(document.getElementById("${id}"))`, `the mark of ${id}`);
        const covered = (id) => user.run(`(${countCovered})("${id}")`);
        await isMarked("answered");
        assert.equal(await covered("answered"), 0, "the answer");
        const [first, whole] = await user.run(`((room) => {
          const { bottom } = document.querySelector("#answer b").getBoundingClientRect();
          return [bottom <= room.getBoundingClientRect().bottom, room.scrollHeight - room.clientHeight <= 2];
        })(document.getElementById("answered"))`);
        assert.ok(first, "the first sentence is seen");
        if (width === 1440) assert.ok(whole, "so is the whole answer");
        /* Reads a box on to its end, by its button. */
        const readOn = async (id) => {
          const room = `document.getElementById("${id}")`;
          const more = `document.querySelector('[data-room="${id}"]')`;
          const isEnd = `((room) => room.scrollHeight - room.scrollTop - room.clientHeight <= 2)(${room})`;
          for (let k = 0; k < 8 && !(await user.run(`${more}.hidden`)); k++) {
            const before = await user.run(`${room}.scrollTop`);
            await user.click(`[data-room="${id}"]`);
            await user.until(`${room}.scrollTop > ${before}`, `more of ${id}`);
            await user.until(`${isEnd} === ${more}.hidden`, `the mark of ${id}`);
          }
          assert.ok(await user.run(isEnd), `the end of ${id} is reached`);
        };
        await readOn("answered");
        await user.until('document.getElementById("list-verdict").textContent !== ""', "the verdicts");
        await isMarked("told");
        assert.equal(await covered("told"), 0, "the verdicts");
        await readOn("told");
        const stood = () => user.run('["time", "answered", "aside"].map((id) => document.getElementById(id).getBoundingClientRect()).map(({ top, height }) => [Math.round(top), Math.round(height)].join()).join("; ")');
        const before = await stood();
        for (let place = 7; place >= 0; place--) {
          await user.press("ArrowLeft");
          await user.settled(place);
          await user.until('document.getElementById("outlook").textContent !== ""', "the verdict");
          await isMarked("outlook");
          await isMarked("sentence");
          assert.equal(await covered("sentence"), 0, `the sentence of place ${place}`);
          if (width >= 1280) assert.ok(await user.run('document.querySelector(\'[data-room="outlook"]\').hidden'), `the verdict of place ${place} is seen whole`);
          assert.equal(await stood(), before, `place ${place}`);
        }
      });

    test("the server's card stays in sight beside those of clients, and never over one in low windows", async () => {
      const position = () => user.run('getComputedStyle(document.querySelector(".card.server")).position');
      await user.page.size(1440, 900);
      await openPort("light");
      assert.equal(await position(), "sticky");
      for (const [width, height] of [[1280, 720], [720, 450]]) {
        await user.page.size(width, height);
        await user.press(":");
        assert.equal(await position(), "static", `${width} x ${height}`);
        await user.press("Escape");
      }
    });

    test("in a low window the lanes fit their room as soon as the menu opens or closes", async () => {
      await user.page.size(720, 450);
      await openPort("dark");
      await user.page.drawn();
      const fits = '((time) => time.scrollWidth <= time.clientWidth)(document.getElementById("time"))';
      const turned = await user.run(`[0, 1, 2].map(() => (document.getElementById("menu").click(), [document.body.classList.contains("with-menu"), ${fits}]))`);
      assert.deepEqual(turned, [[true, true], [false, true], [true, true]]);
    });

    test("at 640 x 360 the page is scrolled as a whole, and each control can be reached", async () => {
      await user.page.size(640, 360);
      await openPort("light");
      assert.deepEqual(await user.run(CUT), []);
      assert.ok(await user.run("document.documentElement.scrollHeight > innerHeight + 100"), "more than the window");
      const faulty = await user.run(`(() => {
        const controls = [...document.querySelectorAll(".card button, .card .document, #answer")];
        const isCut = (control) => {
          control.scrollIntoView({ block: "start" });
          const { left, right, top, bottom } = control.getBoundingClientRect();
          const hit = document.elementFromPoint((left + right) / 2, (top + Math.min(bottom, top + 24)) / 2);
          return left < 0 || right > innerWidth || !control.contains(hit);
        };
        const low = ["time", "state"].filter((id) => document.getElementById(id).clientHeight < 200);
        return [...low, ...controls.filter(isCut).map((control) => control.dataset.play ?? control.textContent)];
      })()`);
      assert.deepEqual(faulty, []);
    });

    for (const [width, height] of [[1280, 720], [390, 844], [720, 450]])
      test(`at ${width} x ${height} the diagram and the place stay in sight with the reason and the debugger open`, async () => {
        await user.page.size(width, height);
        await openPort("light");
        await user.press(":");
        await user.page.type("show");
        await user.press("Enter");
        await user.until('/^client 0 /.test(document.querySelector("#answers pre").textContent)', "the answer");
        await user.press("Escape", "k", ":");
        await user.settled(6);
        await user.page.drawn();
        const [scrolled, room, row] = await user.run(`(() => {
          const box = (part) => part.getBoundingClientRect();
          const time = box(document.getElementById("time"));
          const bottom = Math.min(time.bottom, box(document.getElementById("debugger")).top);
          const row = box(document.querySelector('#rows .texts text[font-weight="700"]'));
          return [scrollY, bottom - time.top, row.top > time.top + 30 && row.bottom < bottom];
        })()`);
        if (width > 1100) assert.equal(await user.text("#numbers .now"), "11");
        assert.deepEqual([scrolled, room >= 120, row], [0, true, true], `${room} pixels of the diagram`);
      });

    for (const [width, height] of [[1440, 900], [390, 844]])
      test(`plain words say their term at the pointer, at the focus and at a click, at ${width} x ${height}`, async () => {
        await user.page.size(width, height);
        await user.open();
        await user.until('document.getElementById("list-verdict").textContent !== ""', "the verdict");
        const said = () => user.run(`((box) => {
          if (box.hidden) return "";
          const { left, top, right, bottom } = box.getBoundingClientRect();
          return left >= 0 && top >= 0 && right <= innerWidth && bottom <= innerHeight ? box.textContent : "out of the window";
        })(document.getElementById("explained"))`);
        const send = (id, type) => user.run(`document.getElementById("${id}").dispatchEvent(new PointerEvent("${type}", { bubbles: true }))`);
        assert.equal(await said(), "");
        await send("verdict", "pointerover");
        assert.match(await said(), /^In ot\.js’ words the session is quiet: .*\.$/);
        await send("time", "pointerover");
        assert.equal(await said(), "");
        await user.run('document.getElementById("name").scrollIntoView()');
        for (let k = 0; k < 3 && (await user.run("document.activeElement.id")) !== "verdict"; k++) await user.press("Tab");
        assert.equal(await user.run("document.activeElement.id"), "verdict", "by keyboard");
        assert.match(await said(), /quiet/);
        await user.press("Escape");
        assert.equal(await said(), "");
        await user.run('document.activeElement.blur()');
        await user.click("#verdict");
        assert.match(await said(), /quiet/);
        await user.run('document.activeElement.blur()');
        assert.equal(await said(), "");
        if (width > 800) {
          await user.click("#list-verdict");
          assert.match(await said(), /^This is the weak list property: .*\.$/);
        }
      });

    test("on paper of any width all that is told is there", async () => {
      await user.page.size(700, 900);
      await openPort("light");
      await user.until('document.getElementById("list-verdict").textContent !== ""', "the verdict");
      await user.run(`(${toPaper})()`);
      const faulty = await user.run(`(() => {
        const parts = [...document.querySelectorAll("#verdict, #list-verdict, #conformance, #sentence, #sentence .waits, #outlook, #reason, #answer, #cards")];
        const isCut = (part) => getComputedStyle(part).overflowY === "auto" || (part.clientHeight > 0 && part.scrollHeight > part.clientHeight + 2);
        const cut = [...parts, ...document.querySelectorAll(".told, #answered, #state")].filter(isCut);
        return [parts.length, ...parts.filter((part) => !part.checkVisibility()), ...cut].map((part) => part.id || part.className || part);
      })()`);
      assert.deepEqual(faulty, [9]);
      assert.equal(await user.text("#list-verdict"), "all documents order letters alike");
    });

    test("what is open has the focus within, and leaves by Escape to where it was", async () => {
      await openPort("light");
      for (const id of ["examples", "paste", "save", "help", "lanes"]) {
        await user.run(`document.getElementById("${id}").focus()`);
        await user.press("Enter");
        await user.until('document.querySelector("dialog[open]")?.contains(document.activeElement)', `the focus within what ${id} opens`);
        await user.press("Escape");
        assert.equal(await user.run("document.activeElement.id"), id);
      }
    });
  });
}
