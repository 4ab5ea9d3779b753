/* The recorder for `import`: recorder.js is a script for pages, which defines `recorder`. */

import "./recorder.js";

const { recorder } = globalThis;

export const { recordClient, recordServer } = recorder;
export default recorder;
