"""Plans the downlink of a spacecraft's mass memory, judges a plan, draws it, answers telecommands of the storage service and says them in
words, and keeps a memory with that service.

    >>> from rudlayog import Forecast, Setup, Store, check, plan
    >>> setup = Setup.of([Store("SCI", size=4)])
    >>> forecast = Forecast.of(windows=[2, 3], arrivals={"SCI": [5, 2]})
    >>> made = plan(setup, forecast)
    >>> made.loss, made.by_store["SCI"]
    (1, (2, 3))
    >>> bool(check(setup, forecast, made))
    True

The calls are those of a library whose answers are proved: no plan that fits loses fewer blocks than one that `plan` makes, and `check`
answers `least` only of such a plan. This package writes the texts that the library reads, and reads those that it writes; that part is
not proved. A call lets go of Python's lock, so calls run in several threads at once. Do not make one in the forked child of a process
with threads: start processes by `spawn`.
"""

from .calls import Chart, PlanTable, Replies, Verdict, Worth, ask, chart, check, plan, read, sensitivity, table, version
from .forecasts import Forecast, ForecastLike
from .memory import Fate, Memory, Retrieval, StoreState, Tally
from .plans import Certificate, Cut, Plan, PlanLike, Stretch
from .refusals import Refusal
from .reports import Report
from .requests import Request
from .setups import Limit, Route, Setup, SetupLike, Store

__all__ = [
    "Certificate",
    "Chart",
    "Cut",
    "Fate",
    "Forecast",
    "ForecastLike",
    "Limit",
    "Memory",
    "Plan",
    "PlanLike",
    "PlanTable",
    "Refusal",
    "Replies",
    "Report",
    "Request",
    "Retrieval",
    "Route",
    "Setup",
    "SetupLike",
    "Store",
    "StoreState",
    "Stretch",
    "Tally",
    "Verdict",
    "Worth",
    "ask",
    "chart",
    "check",
    "plan",
    "read",
    "sensitivity",
    "table",
    "version",
]
__version__ = "0.4.0"
