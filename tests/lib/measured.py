"""What a process costs: the time of a processor, and instructions by valgrind, neither of which counts its waits for a processor."""
import os, re, shutil, subprocess, sys

HAS_VALGRIND = shutil.which("valgrind") is not None


def run(program, name, count):
    """The last result of so many applications by fk_speed, and the seconds of a processor that the process took."""
    process = subprocess.Popen([program, name, str(count)], stdout=subprocess.PIPE)
    result = process.stdout.read().decode().strip()
    process.stdout.close()
    _, status, usage = os.wait4(process.pid, 0)
    process.returncode = os.waitstatus_to_exitcode(status)
    if process.returncode != 0:
        sys.exit(f"fk_speed {name} {count} ended with status {process.returncode}")
    return result, usage.ru_utime + usage.ru_stime


def instructions(words, given=b"", environment=None):
    """How many instructions the command takes on this input, the start of its process among them."""
    command = ["valgrind", "--tool=callgrind", "--callgrind-out-file=/dev/null", *words]
    process = subprocess.run(command, input=given, stdout=subprocess.PIPE, stderr=subprocess.PIPE, env=environment, check=True)
    return int(re.search(r"Collected : (\d+)", process.stderr.decode(errors="replace")).group(1))


def instructions_each(program, name, count):
    """The instructions of one of so many applications by fk_speed, without those of the start of its process."""
    return (instructions([program, name, str(count)]) - instructions([program, name, "0"])) / count
