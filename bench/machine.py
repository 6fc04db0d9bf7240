"""The machine that times are measured on."""

import datetime
import os
import subprocess

import contenders


def print_machine():
    """Prints what times hang on: date, commit, processors and load."""
    with open("/proc/cpuinfo") as lines:
        models = [line.split(":")[1].strip() for line in lines if line.startswith("model name")]
    commit = subprocess.run(["git", "-C", contenders.TOP, "describe", "--always", "--dirty"],
                            capture_output=True, text=True).stdout.strip()
    load = os.getloadavg()[0]
    print(f"{datetime.datetime.now(datetime.timezone.utc):%Y-%m-%d %H:%M} UTC, commit {commit}, "
          f"{os.cpu_count()} processors ({models[0] if models else 'model not told'}), load {load:.1f}")
    if load > 1:
        print("The machine is busy: the times below say little.")
