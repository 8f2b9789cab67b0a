#!/usr/bin/env python3
"""A study on a cluster of Dask that is interrupted as by a terminal: each process of the group gets the signal. Prints
a line where the study ends with what is done, and the workers live."""

import os
import signal
import threading

import distributed

from made_missions import made_mission
from rudlayog.study import each_pass_lost, study


def main():
    mission = made_mission(3, apart=True)

    def endless():
        while True:
            yield from each_pass_lost(mission)

    with distributed.LocalCluster(
        n_workers=2, threads_per_worker=1, processes=True, dashboard_address=None
    ) as cluster, distributed.Client(cluster) as client:
        workers = client.run(os.getpid)
        threading.Timer(3, lambda: os.killpg(os.getpgid(0), signal.SIGINT)).start()
        found = study(mission, endless(), executor=client, progress=False)
        assert not found.is_whole and len(found) > 10 and not any(answer.refused for answer in found)
        assert client.run(os.getpid) == workers and client.submit(abs, -4).result(timeout=60) == 4
        print("interrupted: some rows, and the workers live")


if __name__ == "__main__":
    main()
