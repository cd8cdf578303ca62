"""The order beside tsort and networkx, as ratios of times of one run: compare.py PROGRAM FOLDER."""
import pathlib
import shutil
import subprocess
import sys
import time

try:
    import networkx
except ImportError:
    networkx = None

PROCESSES, CALLS, ROUNDS = 60, 20, 100


def whole(command):
    """The quickest of many runs of a process."""
    best = float("inf")
    for _ in range(PROCESSES):
        start = time.perf_counter()
        subprocess.run(command, stdout=subprocess.DEVNULL, check=True)
        best = min(best, time.perf_counter() - start)
    return best


def in_process(pairs):
    """networkx's lexicographical sort of the same graph, and the time of one call."""
    graph = networkx.DiGraph()
    graph.add_edges_from(pairs)
    graph.remove_edges_from(list(networkx.selfloop_edges(graph)))
    best = float("inf")
    for _ in range(ROUNDS):
        start = time.perf_counter()
        order = list(networkx.lexicographical_topological_sort(graph))
        best = min(best, time.perf_counter() - start)
    return order, best


def main():
    program, folder = sys.argv[1], pathlib.Path(sys.argv[2])
    print("| table | tsort / order, whole processes | networkx / order, in process |")
    print("|---|---:|---:|")
    for table in sorted(folder.glob("*.table")):
        edges = table.with_suffix(".edges")
        ours = [int(line) for line in subprocess.check_output([program, str(table)]).split()]
        tsort = networked = "not installed"
        if shutil.which("tsort"):
            tsort = f"{whole(['tsort', str(edges)]) / whole([program, str(table)]):.2f}"
        if networkx:
            pairs = [tuple(map(int, line.split())) for line in edges.read_text().splitlines()]
            order, spent = in_process(pairs)
            if order != ours:
                sys.exit(f"networkx orders {table.name} otherwise")
            told = subprocess.check_output([program, str(table), str(CALLS)])
            networked = f"{spent * 1e9 / float(told.split()[0]):.0f}"
        print(f"| {table.stem} | {tsort} | {networked} |")


main()
