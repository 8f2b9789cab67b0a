"""Why a call is refused."""

from __future__ import annotations


class Refusal(ValueError):
    """Why a call is refused: the number and the name of the refusal, where in its text the fault is, what was expected, what to do, and in
    `found` what was found: the hint that the program prints, which counts lines in the text that the library was given.

    `row`, `column` and `line` count from 1; row 0 is the top of the setup. `field` is a key of a setup or a column of a forecast. Each, and
    `found`, is `None` where it says nothing. docs/FORMATS.md has every refusal."""

    def __init__(
        self,
        number: int,
        name: str,
        *,
        expected: str,
        advice: str,
        row: int | None = None,
        column: int | None = None,
        line: int | None = None,
        field: str | None = None,
        found: str | None = None,
    ) -> None:
        self.number = number
        self.name = name
        self.row = row
        self.column = column
        self.line = line
        self.field = field
        self.expected = expected
        self.advice = advice
        self.found = found
        super().__init__(self.words() if found is None else f"{self.words()}; found {found}")

    @classmethod
    def read(cls, words: str, found: str | None = None) -> Refusal:
        """The refusal that has these words, as `words` gives them."""
        told, _, rest = words.partition(": expected ")
        expected, _, advice = rest.partition("; ")
        number, name, *fields = told.split(" ")
        values = dict(zip(fields[::2], fields[1::2], strict=True))

        def count(field: str) -> int | None:
            return int(values[field]) if field in values else None

        return cls(
            int(number),
            name,
            row=count("row"),
            column=count("column"),
            line=count("line"),
            field=values.get("name"),
            expected=expected,
            advice=advice,
            found=found,
        )

    @property
    def fields(self) -> dict[str, int | str]:
        """The fields that say where the fault is, in the order in which they are told."""
        fields = {"line": self.line, "row": self.row, "column": self.column, "name": self.field}
        return {name: value for name, value in fields.items() if value is not None}

    def text(self) -> str:
        """The number, the name and the fields, as the program prints them after `refused`."""
        return " ".join([str(self.number), self.name, *(f"{name} {value}" for name, value in self.fields.items())])

    def words(self) -> str:
        """The text, what was expected, and what to do."""
        return f"{self.text()}: expected {self.expected}; {self.advice}"

    def __reduce__(self) -> tuple[object, ...]:
        return (Refusal.read, (self.words(), self.found))
