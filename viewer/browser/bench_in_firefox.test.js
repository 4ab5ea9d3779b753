/* The page with the engine in Firefox. */

import { testIn } from "./bench_tests.js";
import { testCommands } from "./command_tests.js";
import { openFirefox } from "./firefox.js";
import { testByHand } from "./hand_tests.js";
import { testInputs } from "./input_tests.js";
import { testLong } from "./long_tests.js";
import { testLooks } from "./looks_tests.js";
import { testSharing } from "./sharing_tests.js";
import { testWriting } from "./writing_tests.js";

testIn("Firefox", openFirefox);
testInputs("Firefox", openFirefox);
testByHand("Firefox", openFirefox);
testCommands("Firefox", openFirefox);
testSharing("Firefox", openFirefox);
testWriting("Firefox", openFirefox);
testLooks("Firefox", openFirefox);
testLong("Firefox", openFirefox);
