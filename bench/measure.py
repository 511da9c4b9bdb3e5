"""The time and memory of a program, for the other scripts of this folder."""
import resource
import subprocess
import tempfile


def processor_seconds():
    """The processor time of all ended child processes, user and system."""
    used = resource.getrusage(resource.RUSAGE_CHILDREN)
    return used.ru_utime + used.ru_stime


def run(words, environment):
    """The processor time in seconds, and the peak memory in KiB by GNU time, of one run. The output is dropped.

    Processes that the program starts and waits for count with it.
    """
    with tempfile.NamedTemporaryFile("r") as memory:
        measured = ["time", "-o", memory.name, "-f", "%M", *words]
        start = processor_seconds()
        subprocess.run(measured, env=environment, check=True, stdout=subprocess.DEVNULL, stderr=subprocess.DEVNULL)
        return processor_seconds() - start, int(memory.read())
