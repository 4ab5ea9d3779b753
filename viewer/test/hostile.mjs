// Values that an input may have where a number, a word or a text is wanted, to do harm.

export const MARKUP = '<img src=x onerror="window.hurt = 1"><meta http-equiv="refresh" content="0;url=about:blank"><script>window.hurt = 1</script>';

/* An object that looks like an element of the page's own. */
export const TREE = { name: "img", attributes: { onerror: "window.hurt = 1", src: "x" }, children: [MARKUP] };

export const HOSTILE = [MARKUP, `"'>${MARKUP}`, "constructor", "__proto__", "hasOwnProperty", "\u202e\u2066a\u0007\ufffe\ud800", "x".repeat(100000), -1, 1e308, 0.5, true, [], {}, [MARKUP], TREE, { toString: 1, valueOf: 2 }, null];
