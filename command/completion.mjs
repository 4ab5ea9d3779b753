/* `otbench completion SHELL`: a script that completes the command's words, made of what the program's help lists. */

import { PORT_OPTIONS } from "../ports/porthelp.mjs";
import { complain, print } from "./streams.mjs";
import { optionsOf, OWN, subcommandsOf } from "./usage.mjs";

export const USAGE = `usage: otbench completion bash|zsh
Prints a script that completes the words of otbench in that shell. In bash, for this session or in ~/.bashrc:

    source <(otbench completion bash)

In zsh the same, with zsh; or in a file _otbench of a folder of $fpath.
`;

/* The options that this command has beside the program's. */
const MORE = { debug: ["--port", "--sparse"], view: ["--sparse", "--help"], merge: ["--schedule", "--help"], edit: ["--help"], port: PORT_OPTIONS, completion: ["bash", "zsh", "--help"] };

/* Each subcommand with the words that may stand behind it. */
function rowsOf(ask) {
  const subcommands = subcommandsOf(ask);
  const words = [...subcommands, ...OWN, "help"];
  const options = (word) => [...(subcommands.includes(word) ? optionsOf(word, ask) : []), ...(Object.hasOwn(MORE, word) ? MORE[word] : [])];
  return words.map((word) => [word, word === "help" ? words : options(word)]).filter(([, more]) => more.length > 0);
}

const BASH = (words, cases) => `_otbench() {
    local words
    if [ "$COMP_CWORD" -eq 1 ]; then
        words="${words}"
    else
        case \${COMP_WORDS[1]} in
${cases}
        *) words="" ;;
        esac
    fi
    COMPREPLY=($(compgen -W "$words" -- "\${COMP_WORDS[COMP_CWORD]}"))
}
complete -o bashdefault -o default -F _otbench otbench
`;

const ZSH = (words, cases) => `#compdef otbench
_otbench() {
    local -a words_here
    if ((CURRENT == 2)); then
        words_here=(${words})
    else
        case \${words[2]} in
${cases}
        esac
        _files
    fi
    compadd -a words_here
}
if [ "\${funcstack[1]-}" = _otbench ]; then _otbench "$@"; else compdef _otbench otbench; fi
`;

function scriptFor(shell, ask) {
  const rows = rowsOf(ask);
  const words = [...subcommandsOf(ask), ...OWN, "help"].join(" ");
  if (shell === "bash") return BASH(words, rows.map(([word, more]) => `        ${word}) words="${more.join(" ")}" ;;`).join("\n"));
  return ZSH(words, rows.map(([word, more]) => `        ${word}) words_here=(${more.join(" ")}) ;;`).join("\n"));
}

/**
 * The whole subcommand. Answers its status: 0; 1 where the output cannot be written; 2 where words are not understood.
 * @param {string[]} words
 * @param {import("./usage.mjs").Ask} ask
 */
export function completion(words, ask) {
  const [shell, extra] = words;
  if (extra === undefined && (shell === "bash" || shell === "zsh")) return print(scriptFor(shell, ask)) ? 0 : 1;
  const said = shell === undefined ? "the shell is missing" : `unexpected argument '${extra ?? shell}' found`;
  complain(`error: ${said}\n${USAGE}`);
  return 2;
}
