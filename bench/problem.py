"""A dumping problem as its two texts, the setup and the forecast (docs/FORMATS.md)."""

from dataclasses import dataclass, field
from pathlib import Path


@dataclass
class Store:
    id: str
    size: int
    kind: str = "bounded"
    channel: int = 0
    start: int = 0
    # the routes into it: APID, service type and message subtype
    routes: list = field(default_factory=list)


@dataclass
class Problem:
    stores: list
    # of each step from 1
    windows: list
    # of each step, the arrivals of each store in order
    arrivals: list
    # of each channel that has one
    limits: dict = field(default_factory=dict)
    # the first line of the setup
    title: str = ""

    def setup(self):
        lines = [f"# {self.title}"] if self.title else []
        for store in self.stores:
            lines += ["[[store]]", f'id = "{store.id}"', f"size = {store.size}"]
            lines += [f'type = "{store.kind}"', f"channel = {store.channel}"]
            lines += [f"start = {store.start}", ""] if store.start else [""]
        for store in self.stores:
            for apid, service, subtype in store.routes:
                lines += ["[[route]]", f"apid = {apid}", f"service = {service}"]
                lines += [f"subtype = {subtype}", f'store = "{store.id}"', ""]
        for channel, blocks in sorted(self.limits.items()):
            lines += ["[[limit]]", f"channel = {channel}", f"blocks = {blocks}", ""]
        return "\n".join(lines[:-1]) + "\n"

    def forecast(self):
        lines = [["step", "window"] + [store.id for store in self.stores]]
        for step, (window, arrivals) in enumerate(zip(self.windows, self.arrivals), 1):
            lines.append([step, window] + arrivals)
        return "".join(",".join(map(str, line)) + "\n" for line in lines)

    def write(self, folder):
        """Writes setup.toml and forecast.csv into the folder."""
        folder = Path(folder)
        folder.mkdir(parents=True, exist_ok=True)
        (folder / "setup.toml").write_text(self.setup())
        (folder / "forecast.csv").write_text(self.forecast())
