"""Times scipy's maximum flow of the net on standard input, in the format of flow_net.txt.

Prints scipy's version, and then for each method and round a line `METHOD VALUE NANOSECONDS`: the
time of `maximum_flow` alone, with its matrix already made.
"""

import sys
import time

import numpy
import scipy
from scipy.sparse import csr_matrix
from scipy.sparse.csgraph import maximum_flow

INT32_MAX = 2**31 - 1


def main():
    nodes, source, sink, rounds = map(int, sys.stdin.readline().split())
    edges = [tuple(map(int, line.split())) for line in sys.stdin]

    # scipy's capacities are 32-bit. No edge need carry more than all that leaves the source, so
    # that much stands for a greater capacity, and the value stays the same.
    most = sum(cap for tail, _, cap in edges if tail == source)
    assert most <= INT32_MAX, "more leaves the source than 32 bits hold"
    # A matrix adds up parallel edges, which could wrap.
    assert len({edge[:2] for edge in edges}) == len(edges), "parallel edges"
    tails = numpy.array([tail for tail, _, _ in edges], dtype=numpy.int32)
    heads = numpy.array([head for _, head, _ in edges], dtype=numpy.int32)
    caps = numpy.array([min(cap, most) for _, _, cap in edges], dtype=numpy.int32)
    matrix = csr_matrix((caps, (tails, heads)), shape=(nodes, nodes))

    print(scipy.__version__)
    for method in ("dinic", "edmonds_karp"):
        for _ in range(rounds):
            start = time.perf_counter_ns()
            flow = maximum_flow(matrix, source, sink, method=method)
            took = time.perf_counter_ns() - start
            print(method, int(flow.flow_value), took)


main()
