"""Chunks of work in threads, in an executor of concurrent.futures, or on a cluster of Dask; and a progress bar."""

from __future__ import annotations

import os
import pickle
import signal
import sys
import threading
import time
from collections import deque
from collections.abc import Callable, Iterator, Sized
from concurrent.futures import FIRST_COMPLETED, BrokenExecutor, ProcessPoolExecutor, ThreadPoolExecutor, wait
from contextlib import suppress
from functools import lru_cache
from importlib import import_module
from itertools import islice
from multiprocessing import get_context
from typing import Any

Function = Callable[[Any, list[Any]], list[Any]]
# How many chunks each worker has waiting or at work.
AHEAD = 3


class _Threads:
    """The threads of this machine."""

    def __init__(self) -> None:
        self.workers = os.cpu_count() or 1
        self._pool = ThreadPoolExecutor(self.workers)

    def submit(self, function: Function, shared: Any, chunk: list[Any]) -> Any:
        """Begins with a chunk."""
        return self._pool.submit(function, shared, chunk)

    def first(self, tasks: list[Any]) -> set[Any]:
        """The tasks that are done, once there is one."""
        return set(wait(tasks, return_when=FIRST_COMPLETED).done)

    def again(self) -> None:
        """Makes a second try possible; threads do not die."""

    def close(self) -> None:
        """Ends, without the tasks that have not begun."""
        self._pool.shutdown(wait=False, cancel_futures=True)


class _Executor:
    """Any executor of concurrent.futures."""

    def __init__(self, executor: Any) -> None:
        self._pool = executor
        self._own: list[Any] = []
        self.workers = getattr(executor, "_max_workers", None) or os.cpu_count() or 1
        # what goes to another process is pickled once
        self._octets: tuple[int, bytes] | None = None

    def submit(self, function: Function, shared: Any, chunk: list[Any]) -> Any:
        """Begins with a chunk."""
        if isinstance(self._pool, ThreadPoolExecutor):
            return self._pool.submit(function, shared, chunk)
        if self._octets is None:
            self._octets = (id(shared), pickle.dumps(shared))
        return self._pool.submit(_opened_first, function, self._octets[1], chunk)

    def first(self, tasks: list[Any]) -> set[Any]:
        """The tasks that are done, once there is one."""
        return set(wait(tasks, return_when=FIRST_COMPLETED).done)

    def again(self) -> None:
        """Makes a second try possible: an executor of processes in which one has died takes no more tasks."""
        self._pool = ProcessPoolExecutor(self.workers, get_context("spawn"))
        self._own.append(self._pool)

    def close(self) -> None:
        """Ends the executors that were made here."""
        for pool in self._own:
            pool.shutdown(wait=False, cancel_futures=True)


class _Cluster:
    """A cluster of Dask, by its client."""

    def __init__(self, client: Any) -> None:
        self._wait: Callable[..., Any] = import_module("distributed").wait
        self._client = client
        self.workers = sum(client.nthreads().values()) or 1
        self._tasks: set[Any] = set()
        self._shared: Any = None
        # Ctrl-C goes to each process of a terminal, so to workers on this machine too
        self._run(_without_interrupts)

    def _run(self, function: Callable[[], None]) -> None:
        """Calls a function in each worker; one that is dying does not answer."""
        with suppress(Exception):
            self._client.run(function)

    def submit(self, function: Function, shared: Any, chunk: list[Any]) -> Any:
        """Begins with a chunk."""
        if self._shared is None:
            self._shared = self._client.scatter([pickle.dumps(shared)], broadcast=True)[0]
        task = self._client.submit(_opened_first, function, self._shared, chunk, pure=False)
        self._tasks.add(task)
        return task

    def first(self, tasks: list[Any]) -> set[Any]:
        """The tasks that are done, once there is one."""
        done = set(self._wait(tasks, return_when="FIRST_COMPLETED").done)
        self._tasks -= done
        return done

    def again(self) -> None:
        """Makes a second try possible: what is shared is sent again, since it may have been lost with a worker."""
        self._shared = None
        self._run(_without_interrupts)

    def close(self) -> None:
        """Takes back the tasks that are not done."""
        self._client.cancel(list(self._tasks))
        self._run(_with_interrupts)


# What an interrupt did in this process before a study.
_earlier: list[Any] = []


def _without_interrupts() -> None:
    """Lets interrupts pass by this process, if it is one of its own for a worker."""
    if threading.current_thread() is threading.main_thread() and not _earlier:
        _earlier.append(signal.signal(signal.SIGINT, signal.SIG_IGN))


def _with_interrupts() -> None:
    """Lets an interrupt do what it did before."""
    if threading.current_thread() is threading.main_thread() and _earlier:
        signal.signal(signal.SIGINT, _earlier.pop())


@lru_cache(maxsize=2)
def _opened(octets: bytes) -> Any:
    return pickle.loads(octets)


def _opened_first(function: Function, octets: bytes, chunk: list[Any]) -> list[Any]:
    """The call, where what is shared comes as octets; a process opens them once."""
    return function(_opened(octets), chunk)


def _worker(executor: Any) -> _Threads | _Executor | _Cluster:
    if executor is None:
        return _Threads()
    if hasattr(executor, "scatter") and hasattr(executor, "nthreads"):
        return _Cluster(executor)
    if not hasattr(executor, "submit"):
        raise TypeError(f"executor is {executor!r}, and none of concurrent.futures, and no Client of Dask")
    return _Executor(executor)


def _died(error: BaseException) -> bool:
    """Whether this is the end of a worker, and not what the call raises."""
    return isinstance(error, BrokenExecutor) or type(error).__name__ in (
        "KilledWorker",
        "CancelledError",
        "CommClosedError",
        "FutureCancelledError",
    )


def results(
    executor: Any, function: Function, shared: Any, items: Iterator[Any], most: int
) -> Iterator[tuple[list[Any], Any]]:
    """What the function gives for chunks of the items, as they are done, or what it raised. The first chunks are small,
    so that few items are shared out too; none has more than `most`. Chunks whose worker died are tried once more, one
    at a time, and the items of one that cannot be answered whole each alone."""
    worker = _worker(executor)
    tasks: dict[Any, list[Any]] = {}
    failed: deque[list[Any]] = deque()
    # items of chunks that could not be sent or answered whole
    single: deque[list[Any]] = deque()
    count = 0
    try:
        while True:
            while len(tasks) < AHEAD * worker.workers and not failed:
                chunk = single.popleft() if single else list(islice(items, min(most, 1 + count // worker.workers)))
                if not chunk:
                    break
                count += 1
                task = _begun(worker, function, shared, chunk)
                if task is None:
                    failed.append(chunk)
                else:
                    tasks[task] = chunk
            if not tasks and not failed and not single:
                return
            if tasks:
                for task in worker.first(list(tasks)):
                    chunk = tasks.pop(task)
                    done = _result(task)
                    if isinstance(done, BaseException) and _died(done):
                        failed.append(chunk)
                    elif isinstance(done, BaseException) and len(chunk) > 1:
                        # one of them, as a function that cannot be sent to another process, makes the others fail
                        single.extend([item] for item in chunk)
                    else:
                        yield chunk, done
                continue
            worker.again()
            while failed:
                chunk = failed.popleft()
                done = _result(worker.submit(function, shared, chunk))
                if isinstance(done, BaseException) and _died(done):
                    worker.again()
                yield chunk, done
    finally:
        worker.close()


def _begun(worker: Any, function: Function, shared: Any, chunk: list[Any]) -> Any:
    """A task, or none where the executor takes no more, since a worker has died."""
    try:
        return worker.submit(function, shared, chunk)
    except BrokenExecutor:
        return None


def _result(task: Any) -> Any:
    """What a task gives, or what it raised."""
    try:
        return task.result()
    except Exception as error:
        return error
    except BaseException as error:
        # asyncio's CancelledError, which Dask raises for a task that it has lost, is no Exception
        if _died(error):
            return error
        raise


class Progress:
    """A progress bar on standard error: that of tqdm where it is installed. It is shown where standard error is a
    terminal."""

    def __init__(self, items: object, shown: bool | None = None) -> None:
        self._total = len(items) if isinstance(items, Sized) else None
        self._shown = sys.stderr.isatty() if shown is None else shown
        self._count, self._begin, self._told = 0, time.monotonic(), 0.0
        self._bar: Any = None
        if self._shown:
            try:
                from tqdm.auto import tqdm  # type: ignore[import]

                self._bar = tqdm(total=self._total, unit="variant", file=sys.stderr)
            except ImportError:
                pass

    def add(self) -> None:
        """One more is done."""
        self._count += 1
        if self._bar is not None:
            self._bar.update()
        elif self._shown and time.monotonic() - self._told > 0.2:
            self._tell("")

    def _tell(self, end: str) -> None:
        self._told = time.monotonic()
        whole = f" of {self._total}" if self._total is not None else ""
        sys.stderr.write(
            f"\r{self._count}{whole} variants, {self._count / max(self._told - self._begin, 1e-9):.0f} a second{end}"
        )
        sys.stderr.flush()

    def close(self) -> None:
        """The last line."""
        if self._bar is not None:
            self._bar.close()
        elif self._shown:
            self._tell("\n")
