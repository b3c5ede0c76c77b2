#!/usr/bin/env python3
"""The man pages and shell completions of both programs, made from bench/words.txt.

usage: bench/words.py man|bash|zsh|fish PROGRAM   prints one file
       bench/words.py install PREFIX              writes all below PREFIX/share
       bench/words.py check PLAYER AUTHOR         compares the table with what the built programs, README.md, the man
                                                  pages and the completions say; the status is 0 where all agree"""
import os
import re
import shutil
import subprocess
import sys
import tempfile

ROOT = os.path.dirname(os.path.dirname(os.path.abspath(__file__)))
NUMBERS = ("N", "ID")
PLACES = {
    "man": "man/man1/{}.1",
    "bash": "bash-completion/completions/{}",
    "zsh": "zsh/site-functions/_{}",
    "fish": "fish/vendor_completions.d/{}.fish",
}


class Program:
    def __init__(self, name, text):
        self.name, self.text, self.jobs, self.also, self.statuses = name, text, [], [], []

    def usage(self):
        return f"usage: {self.name} " + " | ".join(words for words, _ in self.jobs)

    def names(self):
        return [words.split()[0] for words, _ in self.jobs]

    def parts(self, job):
        """The words after the name of a job that have to be there, and its options with their values."""
        words = [words for words, _ in self.jobs if words.split()[0] == job][0]
        options = re.findall(r"\[(--\w+) (\w+)\]", words)
        return re.sub(r"\[[^]]*\]", "", words).split()[1:], options


def table():
    programs = {}
    with open(f"{ROOT}/bench/words.txt", encoding="utf-8") as lines:
        for line in map(str.strip, lines):
            kind, _, rest = line.partition(" ")
            if kind == "program":
                name, _, text = rest.partition(" ")
                here = programs[name] = Program(name, text)
            elif kind == "also":
                here.also.append(tuple(rest.split()))
            elif kind in ("job", "status"):
                words, text = map(str.strip, rest.split("|"))
                (here.jobs if kind == "job" else here.statuses).append((words, text))
    return programs


def roff(text):
    return text.replace("\\", "\\e").replace("-", "\\-").replace("'", "\\(aq")


def sentence(text):
    return f"{text[0].upper()}{text[1:]}."


def words_in_roff(program, words):
    """A form of the words as a man page shows it: what is typed bold, what stands for something else in italics."""
    shown = [f"\\fB{program.name}\\fR"]
    for word in words.split():
        inner = word.strip("[]")
        face = "I" if inner.isupper() else "B"
        shown.append(word.replace(inner, f"\\f{face}{roff(inner)}\\fR"))
    return " ".join(shown)


def man(program):
    out = [f'.TH {program.name.upper()} 1 "" "meerkatalloy" "User Commands"', ".SH NAME", f"{program.name} \\- {roff(program.text)}", ".SH SYNOPSIS"]
    out += [".nf"] + [words_in_roff(program, words) for words, _ in program.jobs] + [".fi", ".SH DESCRIPTION"]
    for words, text in program.jobs:
        job = words.split()[0]
        also = [word for word, of in program.also if of == job]
        spelled = f" The same: {', '.join(also)}." if also else ""
        out += [".TP", words_in_roff(program, words), f"{roff(sentence(text))}{roff(spelled)}"]
    out += [".PP", "The rules and every printed line are explained in the documents that come with the programs.", ".SH EXIT STATUS"]
    for number, text in program.statuses:
        out += [".TP", f"\\fB{number}\\fR", roff(sentence(text))]
    others = [it for it in table() if it != program.name]
    return "\n".join([*out, ".SH SEE ALSO", ", ".join(f"\\fB{it}\\fR(1)" for it in others)]) + "\n"


def bash(program):
    out = [f"# bash completion of {program.name}; made by bench/words.py", f"_{program.name}() {{", '    local word=${COMP_WORDS[COMP_CWORD]} before=${COMP_WORDS[COMP_CWORD - 1]}', "    COMPREPLY=()", "    if [ \"$COMP_CWORD\" -eq 1 ]; then"]
    spelled = " ".join([*program.names(), *(it for it, _ in program.also)])
    out += [f'        mapfile -t COMPREPLY < <(compgen -W "{spelled}" -- "$word")', "        return", "    fi", "    case ${COMP_WORDS[1]}:$COMP_CWORD in"]
    for job in program.names():
        words, options = program.parts(job)
        files = [at + 2 for at, word in enumerate(words) if word not in NUMBERS]
        if files:
            out.append("    " + " | ".join(f"{job}:{at}" for at in files) + ') mapfile -t COMPREPLY < <(compgen -f -- "$word") ;;')
        names = [it for it, _ in options]
        if names:
            out += [f"    {job}:*)", "        case $before in"]
            out += ["        " + " | ".join(names) + ') mapfile -t COMPREPLY < <(compgen -f -- "$word") ;;']
            out += [f'        *) mapfile -t COMPREPLY < <(compgen -W "$(_{program.name}_options {job})" -- "$word") ;;', "        esac", "        ;;"]
    # (options come in the order of the usage line: what is offered stands after those that were given)
    out += ["    esac", "}", f"_{program.name}_options() {{", "    local options given"]
    for job in program.names():
        names = [it for it, _ in program.parts(job)[1]]
        if names:
            out += [f'    [ "$1" = {job} ] && options="{" ".join(names)}"']
    out += ["    for given in \"${COMP_WORDS[@]}\"; do", "        case \" $options \" in *\" $given \"*) options=${options#*\"$given\"} ;; esac", "    done", "    echo \"$options\"", "}"]
    return "\n".join([*out, f"complete -o filenames -F _{program.name} {program.name}"]) + "\n"


def quoted(text):
    return text.replace("'", "'\\''")


def zsh(program):
    out = [f"#compdef {program.name}", f"# zsh completion of {program.name}; made by bench/words.py", "local -a jobs", "jobs=("]
    out += [f"    '{words.split()[0]}:{quoted(text)}'" for words, text in program.jobs]
    out += [f"    '{word}:as {job}'" for word, job in program.also]
    out += [")", "if (( CURRENT == 2 )); then", "    _describe job jobs", "    return", "fi", "case ${words[2]}:$CURRENT in"]
    for job in program.names():
        words, options = program.parts(job)
        files = [at + 3 for at, word in enumerate(words) if word not in NUMBERS]
        if files:
            out.append(" | ".join(f"{job}:{at}" for at in files) + ") _files ;;")
        if options:
            shown = " ".join(f"'{it}[file]'" for it, _ in options)
            out += [f"{job}:*)", "    case ${words[CURRENT - 1]} in", "    " + " | ".join(it for it, _ in options) + ") _files ;;", f"    *) _values option {shown} ;;", "    esac", "    ;;"]
    return "\n".join([*out, "esac"]) + "\n"


def fish(program):
    at = f"complete -c {program.name}"
    out = [f"# fish completion of {program.name}; made by bench/words.py", f"{at} -f"]
    for words, text in program.jobs:
        out.append(f"{at} -n __fish_use_subcommand -a {words.split()[0]} -d '{quoted(text)}'")
    out += [f"{at} -n __fish_use_subcommand -a '{word}' -d 'as {job}'" for word, job in program.also]
    for job in program.names():
        words, options = program.parts(job)
        if any(word not in NUMBERS for word in words):
            out.append(f"{at} -n '__fish_seen_subcommand_from {job}' -F")
        out += [f"{at} -n '__fish_seen_subcommand_from {job}' -l {option[2:]} -r -F" for option, _ in options]
    return "\n".join(out) + "\n"


MAKERS = {"man": man, "bash": bash, "zsh": zsh, "fish": fish}


def install(prefix):
    for program in table().values():
        for kind, place in PLACES.items():
            path = f"{prefix}/share/{place.format(program.name)}"
            os.makedirs(os.path.dirname(path), exist_ok=True)
            with open(path, "w", encoding="utf-8") as out:
                out.write(MAKERS[kind](program))


def ran(*words, **more):
    return subprocess.run(words, capture_output=True, text=True, stdin=subprocess.DEVNULL, check=False, **more).stdout


def of_readme(program):
    """The names of the jobs in the table of README.md whose rows are those of the program."""
    with open(f"{ROOT}/README.md", encoding="utf-8") as it:
        rows = [re.findall(r"`(\w+)[^`]*`", line.split("|")[1]) for line in it if line.startswith("| `")]
    found = [name for row in rows for name in row]
    return {name for name in found if name in program.names()}, found


def completed(program, folder):
    """The jobs that each shell that is there offers for an empty first word."""
    found = {}
    path = {kind: f"{folder}/share/{place.format(program.name)}" for kind, place in PLACES.items()}
    if shutil.which("bash"):
        script = f'. {path["bash"]}; COMP_WORDS=({program.name} ""); COMP_CWORD=1; _{program.name}; printf "%s\\n" "${{COMPREPLY[@]}}"'
        found["bash"] = ran("bash", "-c", script).split()
    if shutil.which("zsh"):
        script = f'_describe() {{ print -l ${{jobs%%:*}} }}; CURRENT=2; words=({program.name} ""); . {path["zsh"]}'
        found["zsh"] = ran("zsh", "-f", "-c", script).split()
    if shutil.which("fish"):
        script = f'source {path["fish"]}; complete -C "{program.name} "'
        found["fish"] = [line.split("\t")[0] for line in ran("fish", "--no-config", "-c", script).splitlines()]
    return found


def check(player, author):
    wrong = []
    for tool in ("bash", "zsh", "fish", "groff"):
        if not shutil.which(tool):
            print(f"skipped words-{tool}: {tool} is missing")
    for name, built in (("ra_player", player), ("ra_author", author)):
        program = table()[name]
        said = ran(built, "no-such-job").strip()
        if said != program.usage():
            wrong.append(f"{name}: the usage line is\n  {said}\nand by the table\n  {program.usage()}")
        if "help" in program.names():
            helped = re.findall(rf"^  {name} (\w+)", ran(built, "help"), re.M)
            if helped != program.names():
                wrong.append(f"{name}: the help text has {helped}")
        for word, job in program.also:
            if ran(built, word) != ran(built, job):
                wrong.append(f"{name}: {word} is not {job}")
        in_readme, found = of_readme(program)
        if in_readme != set(program.names()):
            wrong.append(f"README.md lacks {set(program.names()) - in_readme} of {name}")
        synopsis = man(program).split(".SH SYNOPSIS")[1].split(".SH")[0]
        named = re.findall(rf"^\\fB{name}\\fR \\fB(\w+)\\fR", synopsis, re.M)
        if named != program.names():
            wrong.append(f"{name}: the man page has {named}")
        with tempfile.TemporaryDirectory() as folder:
            install(folder)
            every = sorted([*program.names(), *(it for it, _ in program.also)])
            for shell, jobs in completed(program, folder).items():
                if sorted(jobs) != every:
                    wrong.append(f"{name}: {shell} offers {jobs}")
            page = f"{folder}/share/{PLACES['man'].format(name)}"
            if shutil.which("groff"):
                warned = subprocess.run(["groff", "-man", "-ww", "-z", page], capture_output=True, text=True, check=False).stderr
                if warned:
                    wrong.append(f"{name}: groff says {warned}")
    print("\n".join(wrong) if wrong else "words, help, README, man pages and completions name the same jobs")
    return 1 if wrong else 0


def main(words):
    match words:
        case [kind, program] if kind in MAKERS and program in table():
            sys.stdout.write(MAKERS[kind](table()[program]))
        case ["install", prefix]:
            install(prefix)
        case ["check", player, author]:
            return check(player, author)
        case _:
            print(__doc__, file=sys.stderr)
            return 2
    return 0


if __name__ == "__main__":
    sys.exit(main(sys.argv[1:]))
