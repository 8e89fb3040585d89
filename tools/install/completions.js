'use strict';
// Writes the completions of bash from the commands' own table.

const { programOf } = require('../bolgwyr/main.js');

const quoted = (words) => `'${words.join(' ')}'`;

const wordsOf = (help, command) => help.visibleOptions(command).flatMap((it) => [it.long, it.short]).filter(Boolean);

// The choices of an option's value, by each of its names.
function choicesOf(help, command) {
  return help.visibleOptions(command)
    .filter((it) => it.argChoices)
    .map((it) => `      ${command.name()},${[it.long, it.short].filter(Boolean).join(`|${command.name()},`)}) values=${quoted(it.argChoices)} ;;`);
}

// What a command takes that is no word of an option: one of some names, else files.
function namesOf(command) {
  const choices = command._args.flatMap((it) => it.argChoices ?? []);
  return choices.length > 0 ? [`      ${command.name()}) names=${quoted(choices)} ;;`] : [];
}

function script() {
  const program = programOf();
  const help = program.createHelp();
  const { commands } = program;
  return `# Completions of bash for bolgwyr.
_bolgwyr() {
    local current="\${COMP_WORDS[COMP_CWORD]}" previous="\${COMP_WORDS[COMP_CWORD-1]}" command= options= names= values= at
    for ((at = 1; at < COMP_CWORD; at++)); do
        case "\${COMP_WORDS[at]}" in -*) ;; *) command="\${COMP_WORDS[at]}"; break ;; esac
    done
    if [ -z "$command" ]; then
        mapfile -t COMPREPLY < <(compgen -W ${quoted([...commands.map((it) => it.name()), 'help', ...wordsOf(help, program)])} -- "$current")
        return
    fi
    case "$command,$previous" in
${commands.flatMap((it) => choicesOf(help, it)).join('\n')}
    esac
    if [ -n "$values" ]; then
        mapfile -t COMPREPLY < <(compgen -W "$values" -- "$current")
        return
    fi
    case "$command" in
${commands.map((it) => `      ${it.name()}) options=${quoted(wordsOf(help, it))} ;;`).join('\n')}
      help) names=${quoted(commands.map((it) => it.name()))} ;;
    esac
    case "$command" in
${commands.flatMap(namesOf).join('\n')}
    esac
    case "$current" in
      -*) mapfile -t COMPREPLY < <(compgen -W "$options" -- "$current") ;;
      *) [ -z "$names" ] || mapfile -t COMPREPLY < <(compgen -W "$names" -- "$current") ;;
    esac
}
complete -o default -F _bolgwyr bolgwyr
`;
}

process.stdout.write(script());
