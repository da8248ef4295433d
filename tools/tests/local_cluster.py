"""A Dask cluster of two processes on this machine, until standard input ends.

Prints its address, and then the number of each worker's process in a line.
"""

import os
import sys


def main() -> None:
    from distributed import Client, LocalCluster

    with LocalCluster(n_workers=2, threads_per_worker=1, processes=True, dashboard_address=":0") as cluster:
        with Client(cluster) as client:
            workers = client.run(os.getpid)
        print(cluster.scheduler_address, *workers.values(), sep="\n", flush=True)
        sys.stdin.read()


if __name__ == "__main__":
    main()
