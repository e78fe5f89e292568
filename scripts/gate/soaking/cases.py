"""Many scripts for one build of the program, without proof: `rt try --cases FOLDER` runs it on each file of a folder."""
import os
import re
import subprocess
import tempfile


def write_cases(folder, scripts):
    """Writes each script into a file of the folder, which anyone may read, under its name, a word."""
    for name, script in scripts.items():
        with open(f"{folder}/{name}", "wb") as file:
            file.write(script)
    os.chmod(folder, 0o755)


def answers(output, said):
    """What came of each script that was answered: its name, what the program wrote, and its status, or a word for how
    it ended otherwise. `output` and `said` are what the run wrote on standard output and on standard error."""
    outputs = dict(re.findall(rb"^== (\w+)\n(.*?)(?=^== |\Z)", output, re.M | re.S))
    for name, ended, status in re.findall(rb"^case=(\w+) run=(\S+)(?: status=(\d+))?", said, re.M):
        if ended != b"no-answer":
            yield name.decode(), outputs.get(name, b""), int(status) if ended == b"ended" else ended.decode()


def try_scripts(crate, scripts):
    """Builds the program of a crate without proof, and runs it on these scripts. Returns what came of each that was
    answered, and what the run wrote on standard error."""
    with tempfile.TemporaryDirectory(prefix="wallthyme-") as room:
        write_cases(room, scripts)
        how = {"cwd": crate, "stdin": subprocess.DEVNULL, "capture_output": True}
        ran = subprocess.run(["rt", "try", "--cases", room], **how)
    return list(answers(ran.stdout, ran.stderr)), ran.stderr
