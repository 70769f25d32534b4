#!/usr/bin/env python3
"""Prints how many bytes the entries, the node table and a graph take, as the toolchain lays them out.

A program that prints the size of each is proved, made and run in a copy of the crates below it. What is proved of these already rt takes over
from here, so `rt check` in crates/multiportgraph first saves time.
"""
import os
import re
import shutil
import subprocess
import sys
import tempfile

CRATES = ("port_tables", "multi_tables", "portgraph", "multiportgraph")
TYPES = [
    ("a free entry", "port_tables::node_entry", "FreeNodeEntry"),
    ("a live entry", "port_tables::node_entry", "NodeMeta"),
    ("a node slot", "port_tables::node_entry", "NodeSlot"),
    ("the node table", None, "NodeTable"),
    ("the single-link graph", "portgraph::portgraph", "PortGraph"),
    ("the graph", "multiportgraph::multiportgraph", "MultiPortGraph"),
]
USES = "".join("use %s::%s;\n" % (m, t) for _, m, t in TYPES if m)
TABLE = "use port_tables::index::NODE_SLOTS;\nuse std::io;\nuse std::mem::size_of;\n\npub struct NodeTable {\n    pub slots: [NodeSlot; NODE_SLOTS],\n}\n"
SIZE = "\nconst SIZE_%d: usize = size_of::<%s>();\n"
PRINT = '    let size = SIZE_%d;\n    println!(rt; "%s {size}")?;\n'

root = os.path.dirname(os.path.dirname(os.path.abspath(__file__)))
work = tempfile.mkdtemp()
try:
    for crate in CRATES:
        source = os.path.join(root, "crates", crate)
        shutil.copytree(source, os.path.join(work, "crates", crate), ignore=lambda at, names: ["out"] if at == source else [])
    os.makedirs(os.path.join(work, "crates", "sizes", "src"))
    rests = [line for line in open(os.path.join(root, "crates.txt")) if line.split(":")[0] in CRATES]
    open(os.path.join(work, "crates.txt"), "w").write("".join(rests) + "sizes: %s\n" % " ".join(reversed(CRATES)))
    open(os.path.join(work, "crates", "sizes", "src", "main.rt"), "w").write(
        "#![tactic(auto)]\n\n" + USES + TABLE + "".join(SIZE % (i, t) for i, (_, _, t) in enumerate(TYPES))
        + "\nfn main(rt: HostRuntime) -> io::Result<()> {\n" + "".join(PRINT % (i, t) for i, (_, _, t) in enumerate(TYPES)) + "    Ok(())\n}\n")
    run = subprocess.run(["rt", "run"], cwd=os.path.join(work, "crates", "sizes"), stdout=subprocess.PIPE, stderr=subprocess.STDOUT, text=True)
    sizes = dict(re.findall(r"^(\w+) (\d+)$", run.stdout, re.M))
    if run.returncode or any(t not in sizes for _, _, t in TYPES):
        sys.exit(run.stdout[-2000:])
    for what, _, t in TYPES:
        print("%-22s %-15s %6s" % (what, t, sizes[t]))
finally:
    shutil.rmtree(work)
