"""Completions of mlock's command line for bash, zsh and fish, from what --help says."""
import re
import sys

MADE = '# Made by tools/manual.py from what --help says.\n'
# how files end as the guide names them; where none does, a shell offers any
ENDINGS = {'RULES': 'toml', 'CERT': 'cert', 'EVENTS': 'events', 'ROUTINE': 'm', 'FILE': None}
ALWAYS = ('help', 'Shows the help of a command')


def choices(words, said):
    """The values of an option, where its help names them all, as `text, json, or sarif` after a colon."""
    text, _, default = re.fullmatch(r'(.*?)( ?\[default: (\w+)\])?', said).groups()
    found = re.findall(r'(?::|,| or) (\w+)(?=,| or |$)', text)
    if found and default not in found:
        sys.exit(f'{words}: the default is none of {found}, as its help is read')
    return found


def takes_value(words):
    return '<' in words


def value_name(words):
    """The name of an option's value, or of an argument."""
    return re.search(r'<(.*)>', words)[1]


def takes_file(words):
    return takes_value(words) and value_name(words) in ENDINGS


def name_of(words):
    """An option as it is given, without the name of its value."""
    return words.split()[0]


def long_names(options):
    """The long names of options whose words are as `-h, --help`."""
    return [re.search(r'--\w+', words)[0] for words, _ in options]


def command_options(it, whole):
    """The names of all options of a command."""
    return [name_of(words) for words, _ in it.options] + ['--help']


def bash(whole):
    """For bash."""
    values = [f'        {command}:{name_of(words)}) words="{" ".join(choices(words, said))}" ;;\n'
              for command, it in whole.commands.items() for words, said in it.options
              if takes_value(words) and not takes_file(words)]
    options = [f'            {command}) words="{" ".join(command_options(it, whole))}" ;;\n' for command, it in whole.commands.items()]
    names = ' '.join([*whole.commands, ALWAYS[0]])
    return f'''{MADE}
_mlock() {{
    local word=${{COMP_WORDS[COMP_CWORD]}} before=${{COMP_WORDS[COMP_CWORD - 1]}} words=
    # (what is around a `=` are words of their own)
    if [ "$word" = "=" ]; then word=; fi
    if [ "$before" = "=" ]; then before=${{COMP_WORDS[COMP_CWORD - 2]}}; fi
    COMPREPLY=()
    if [ "$COMP_CWORD" -eq 1 ]; then
        mapfile -t COMPREPLY < <(compgen -W "{names} {' '.join(long_names(whole.options))}" -- "$word")
        return
    fi
    case ${{COMP_WORDS[1]}}:$before in
        help:*) words="{' '.join(whole.commands)}" ;;
{"".join(values)}        *)
            if [[ $word != -* ]]; then
                compopt -o filenames
                mapfile -t COMPREPLY < <(compgen -f -- "$word")
                return
            fi ;;
    esac
    if [[ $word == -* ]]; then
        case ${{COMP_WORDS[1]}} in
{"".join(options)}        esac
    fi
    mapfile -t COMPREPLY < <(compgen -W "$words" -- "$word")
}}
complete -F _mlock mlock
'''


def zsh_text(text):
    """What is said of something, in single quotes of zsh, where a colon or a bracket would end it."""
    return re.sub(r'([\[\]:\\])', r'\\\1', text).replace("'", "'\\''")


def zsh_files(name):
    """The files that a value with this name may have."""
    return f'_files -g "*.{ENDINGS[name]}(-.)"' if ENDINGS[name] else '_files'


def zsh_option(words, said):
    values = choices(words, said)
    value = ''
    if takes_file(words):
        value = f':{value_name(words)}:{zsh_files(value_name(words))}'
    elif takes_value(words):
        value = f':{value_name(words)}:{"(" + " ".join(values) + ")" if values else ""}'
    return f"'{name_of(words)}[{zsh_text(said)}]{value}'"


def zsh_argument(number, words, said):
    place = '*' if words.endswith('...') else number
    files = zsh_files(value_name(words)) if takes_file(words) else ''
    return f"'{place}:{zsh_text(said)}:{files}'"


def zsh(whole):
    """For zsh."""
    everywhere = "'(- *)'{-h,--help}'[Print help]'"
    cases = []
    for command, it in whole.commands.items():
        words = [zsh_option(*option) for option in it.options]
        words += [zsh_argument(number, *argument) for number, argument in enumerate(it.arguments, 1)]
        cases.append(f'        {command})\n            _arguments \\\n                ' +
                     ' \\\n                '.join([everywhere, *words]) + ' ;;\n')
    names = [f"        '{name}:{zsh_text(it.title)}'\n" for name, it in whole.commands.items()]
    names.append(f"        '{ALWAYS[0]}:{ALWAYS[1]}'\n")
    return f'''#compdef mlock
{MADE}
_mlock_commands() {{
    local commands=(
{"".join(names)}    )
    _describe command commands
}}

_mlock() {{
    local state
    _arguments -C {everywhere} '(- *)'{{-V,--version}}'[Print version]' '1: :_mlock_commands' '*:: :->words'
    case $state:$words[1] in
        words:help) _arguments '1: :_mlock_commands' ;;
    esac
    if [[ $state != words ]]; then return; fi
    case $words[1] in
{"".join(cases)}    esac
}}

_mlock "$@"
'''


def fish_text(text):
    return "'" + text.replace('\\', '\\\\').replace("'", "\\'") + "'"


def fish(whole):
    """For fish."""
    lines = [f'complete -c mlock -n __fish_use_subcommand -f -a {name} -d {fish_text(title)}\n'
             for name, title in [*((name, it.title) for name, it in whole.commands.items()), ALWAYS]]
    for words, said in whole.options:
        short, long = re.fullmatch(r'-(\w), --(\w+)', words).groups()
        lines.append(f'complete -c mlock -n __fish_use_subcommand -f -s {short} -l {long} -d {fish_text(said)}\n')
    lines.append(f"complete -c mlock -n '__fish_seen_subcommand_from help' -f -a '{' '.join(whole.commands)}'\n")
    for command, it in whole.commands.items():
        seen = f"complete -c mlock -n '__fish_seen_subcommand_from {command}'"
        for words, said in it.options:
            values = choices(words, said)
            value = f" -x{' -a ' + fish_text(' '.join(values)) if values else ''}" if takes_value(words) else ''
            value = ' -r' if takes_file(words) else value
            lines.append(f'{seen} -l {name_of(words)[2:]}{value} -d {fish_text(said)}\n')
        lines.append(f'{seen} -s h -l help -d {fish_text("Print help")}\n')
    return MADE + '\n' + ''.join(lines)
