"""scikit-learn's k-means beside a run of the proved library, as rows of a table in Markdown.

usage: sklearn_runs.py FOLDER TABLE NAME..

FOLDER has NAME.table (lines of key and weight) and NAME-K.starts (lines of three coordinates), as the benchmark
writes them; TABLE is the benchmark's own table, from which the proved library's times are read. Lloyd's and Elkan's
method are each run once on the table's weighted colours, from the same starting shades, for at most 20 rounds and
with no tolerance, on one thread. What they do is not quite the same job: their shades are binary64 means, and they
stop when no colour changes its group.
"""
import os

for name in ("OMP_NUM_THREADS", "OPENBLAS_NUM_THREADS"):
    os.environ[name] = "1"

import sys
import time
import warnings

import numpy
from sklearn.cluster import KMeans

ROUNDS = 20


def colours_of(path):
    """The points and weights of a table."""
    entries = numpy.loadtxt(path, dtype=numpy.int64)
    keys, weights = entries[:, 0], entries[:, 1]
    levels = numpy.stack([keys // 65536, keys // 256 % 256, keys % 256], axis=1)
    return 16.0 * levels, weights.astype(float)


def proved_times(path):
    """Nanoseconds a colour and round of the proved library's runs, by job and picture."""
    times = {}
    for line in open(path):
        fields = [field.strip() for field in line.split("|")]
        if len(fields) > 4 and fields[1].startswith("run, limit 20"):
            times[fields[1], fields[2]] = float(fields[4])
    return times


def main(folder, table, *pictures):
    """Prints the rows."""
    warnings.simplefilter("ignore")
    times = proved_times(table)
    for picture in pictures:
        points, weights = colours_of(f"{folder}/{picture}.table")
        for count in (8, 64):
            starts = numpy.loadtxt(f"{folder}/{picture}-{count}.starts")
            proved = times[f"run, limit 20, k = {count}", picture]
            for method in ("lloyd", "elkan"):
                means = KMeans(count, init=starts, n_init=1, max_iter=ROUNDS, tol=0, algorithm=method)
                begun = time.perf_counter()
                means.fit(points, sample_weight=weights)
                each = (time.perf_counter() - begun) * 1e9 / len(points) / means.n_iter_
                print(f"| {method}, k = {count} | {picture} | {each:.1f} | {proved} | {each / proved:.1f} |")


main(*sys.argv[1:])
