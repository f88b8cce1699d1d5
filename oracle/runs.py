"""Running a program on scripts, and looking for the smallest script that shows a fault."""

import shlex
import subprocess

import script


def answered(command, scripts):
    """What a command prints, by script."""
    done = subprocess.run(shlex.split(command), input=script.join_scripts(scripts).encode(), stdout=subprocess.PIPE)
    return script.split_scripts(done.stdout.decode())


def smallest(lines, fails):
    """Fewer and fewer lines, as long as what is left fails."""
    step = len(lines) // 2
    while step:
        start = 0
        while start < len(lines):
            fewer = lines[:start] + lines[start + step :]
            if fails(fewer):
                lines = fewer
            else:
                start += step
        step //= 2
    return lines
