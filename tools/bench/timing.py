"""What the benches share: the peer, built; large inputs; and programs timed in turns, whose bytes are compared."""

import os
import random
import subprocess
from pathlib import Path
from statistics import median

TOP = Path(__file__).resolve().parents[2]
REGISTRY = "/usr/share/cargo/registry"
MEMBERS = "id,category,name,parents\n"
FACTS = "member,value\n"
LOCATION = """schema 1
category Store
category City
category State
category Province
category Region
category Country
edge Store City
edge City State
edge City Province
edge City Country
edge State Region
edge State Country
edge Province Region
edge Region Country
edge Country All
"""


def build(folder):
    """The peer, built."""
    config = folder / "config.toml"
    config.write_text(f'[source.crates-io]\nreplace-with = "debian"\n[source.debian]\ndirectory = "{REGISTRY}"\n')
    source = folder / "source"
    if not source.exists():
        subprocess.run(["cp", "-r", TOP / "tools" / "bench" / "peer", source], check=True)
    words = ["cargo", "build", "--quiet", "--release", "--offline", "--config", config]
    environment = os.environ | {"CARGO_TARGET_DIR": str(folder / "target")}
    subprocess.run([*words, "--manifest-path", source / "Cargo.toml"], check=True, env=environment)
    return folder / "target" / "release" / "peer"


def stores(count, cities, chance):
    """Stores in cities, cities in states, provinces or countries."""
    lines = [f"s{i},Store,Store {i},c{chance.randrange(cities)}" for i in range(count)]
    above = [f"st{i}" for i in range(100)] + [f"p{i}" for i in range(20)] + [f"k{i}" for i in range(6)]
    lines += [f"c{i},City,City {i},{chance.choice(above)}" for i in range(cities)]
    lines += [f"st{i},State,State {i},r{i % 10}" for i in range(100)]
    lines += [f"p{i},Province,Province {i},r{i % 10}" for i in range(20)]
    lines += [f"r{i},Region,Region {i},k{i % 6}" for i in range(10)]
    lines += [f"k{i},Country,Country {i},all" for i in range(6)]
    return MEMBERS + "\n".join(lines) + "\n"


def facts(ids, count, most, chance):
    return FACTS + "".join([f"{id},{chance.randrange(most)}\n" for id in chance.choices(ids, k=count)])


def chains(chance):
    """A chain of 62 categories and 262,143 members, in random order, and facts at the lowest."""
    schema = "schema 1\n" + "".join(f"category C{i}\n" for i in range(62))
    schema += "".join(f"edge C{i} C{i + 1}\n" for i in range(61)) + "edge C61 All\n"
    lines = []
    for k in range(262143 // 62 + 1):
        for i in range(62):
            lines.append(f"m{i}x{k},C{i},n,{f'm{i + 1}x{k}' if i < 61 else 'all'}")
    lines = lines[-262143:]
    chance.shuffle(lines)
    lowest = [line.split(",")[0] for line in lines if line.split(",")[1] == "C0"]
    return schema, MEMBERS + "\n".join(lines) + "\n", facts(lowest, 1 << 20, 1000, chance)


def run(program, words, folder):
    """What the program prints, its processor seconds and megabytes."""
    with open(folder / "output", "wb") as out:
        process = subprocess.Popen([program, *words], cwd=folder, stdout=out)
        _, status, usage = os.wait4(process.pid, 0)
    process.returncode = os.waitstatus_to_exitcode(status)
    outcome = process.returncode, (folder / "output").read_bytes()
    return outcome, usage.ru_utime + usage.ru_stime, usage.ru_maxrss / 1024


def compare(name, words, programs, turns, folder):
    """Times the programs in turns, and prints a line for each. Whether all print the same."""
    outputs, seconds, megabytes = set(), [[] for _ in programs], [0.0 for _ in programs]
    for _ in range(turns):
        for i, program in enumerate(programs):
            output, time, memory = run(program, words, folder)
            outputs.add(output)
            seconds[i].append(time)
            megabytes[i] = max(megabytes[i], memory)
    base = median(seconds[0])
    for i, program in enumerate(programs):
        time = median(seconds[i])
        shown = "peer" if i == 0 else f"program {i}" if len(programs) > 2 else "program"
        ratios = f"{time / base:5.2f} times {megabytes[i] / megabytes[0]:5.2f} times" if i else ""
        print(f"{name:50} {shown:10} {time:7.3f} s {megabytes[i]:7.1f} MB {ratios}", flush=True)
    if len(outputs) > 1 or next(iter(outputs))[0] != 0:
        print(f"{name}: the outputs differ, or a run failed")
        return False
    return True
