"""Files: in the form that the ending of a name says."""

from __future__ import annotations

import io
import os
from collections.abc import Callable, Iterable, Mapping
from datetime import datetime
from html import escape
from pathlib import Path
from typing import Any
from xml.sax.saxutils import escape as escape_xml
from zipfile import ZIP_DEFLATED, ZipFile, ZipInfo

from ._tables import html_of
from ._units import fault, written

# What makes a text or the octets of a file, by the ending of its name. A name without one has that of "".
Forms = Mapping[str, Callable[[], str | bytes]]

STYLE = (
    "body { font: 13px/1.4 sans-serif; margin: 24px } table { border-collapse: collapse } "
    "th, td { border-bottom: 1px solid #ccc; padding: 3px 8px; text-align: right } svg { width: 100%; height: auto }"
)
_MAIN = "http://schemas.openxmlformats.org/spreadsheetml/2006/main"
_RELATIONS = "http://schemas.openxmlformats.org/officeDocument/2006/relationships"
_PACKAGE = "http://schemas.openxmlformats.org/package/2006"
_WORKBOOK = "application/vnd.openxmlformats-officedocument.spreadsheetml"
_HEAD = "<?xml version='1.0' encoding='UTF-8' standalone='yes'?>\n"


def made_for(name: str | os.PathLike[str] | None, forms: Forms, place: str = "") -> Callable[[], str | bytes]:
    """What makes the file of this name. Raises `MissionError` where its ending is none of those of the forms."""
    try:
        kind = "" if name is None else Path(name).suffix.lower()
    except TypeError as error:
        raise fault(place, name, "the name of a file") from error
    if kind not in forms:
        endings = [ending for ending in forms if ending]
        meant = f"a name that ends in {', '.join(endings[:-1])} or {endings[-1]}"
        raise fault(place, f"the file {os.fspath(name or '')}", meant)
    return forms[kind]


def save_as(path: str | os.PathLike[str], forms: Forms) -> None:
    """Writes a file in the form that the ending of its name says."""
    made = made_for(path, forms)()
    Path(path).write_bytes(made.encode() if isinstance(made, str) else made)


def table_forms(text: Callable[[], str], columns: Callable[[], Mapping[str, Iterable[Any]]], title: str) -> Forms:
    """A table as comma separated values, as a page, and as a sheet of a workbook."""
    return {
        "": text,
        ".csv": text,
        ".html": lambda: page_of(title, html_of(columns(), most=None)),
        ".xlsx": lambda: workbook_of(columns()),
    }


def page_of(title: str, *parts: str) -> str:
    """A page of these parts."""
    head = f"<meta charset='utf-8'><title>{escape(title)}</title><style>{STYLE}</style>"
    body = "\n".join([f"<h1>{escape(title)}</h1>", *parts])
    return f"<!doctype html>\n<html lang='en'><head>{head}</head>\n<body>\n{body}\n</body></html>\n"


def workbook_of(columns: Mapping[str, Iterable[Any]]) -> bytes:
    """A workbook of one sheet (Office Open XML). Moments are texts in ISO 8601, in UTC."""
    rows = [list(columns), *zip(*columns.values())]
    lines = "".join(f"<row>{''.join(map(_cell, row))}</row>" for row in rows)
    parts = {
        "[Content_Types].xml": f"<Types xmlns='{_PACKAGE}/content-types'>"
        "<Default Extension='rels' ContentType='application/vnd.openxmlformats-package.relationships+xml'/>"
        f"<Override PartName='/xl/workbook.xml' ContentType='{_WORKBOOK}.sheet.main+xml'/>"
        f"<Override PartName='/xl/worksheets/sheet1.xml' ContentType='{_WORKBOOK}.worksheet+xml'/></Types>",
        "_rels/.rels": f"<Relationships xmlns='{_PACKAGE}/relationships'>"
        f"<Relationship Id='rId1' Type='{_RELATIONS}/officeDocument' Target='xl/workbook.xml'/></Relationships>",
        "xl/workbook.xml": f"<workbook xmlns='{_MAIN}' xmlns:r='{_RELATIONS}'>"
        "<sheets><sheet name='rudlayog' sheetId='1' r:id='rId1'/></sheets></workbook>",
        "xl/_rels/workbook.xml.rels": f"<Relationships xmlns='{_PACKAGE}/relationships'>"
        f"<Relationship Id='rId1' Type='{_RELATIONS}/worksheet' Target='worksheets/sheet1.xml'/></Relationships>",
        "xl/worksheets/sheet1.xml": f"<worksheet xmlns='{_MAIN}'><sheetData>{lines}</sheetData></worksheet>",
    }
    octets = io.BytesIO()
    with ZipFile(octets, "w", ZIP_DEFLATED) as file:
        for name, part in parts.items():
            # the same table gives the same octets
            file.writestr(ZipInfo(name, (1980, 1, 1, 0, 0, 0)), _HEAD + part, ZIP_DEFLATED)
    return octets.getvalue()


def _cell(value: Any) -> str:
    """A cell of a sheet."""
    if value is None or value == "":
        return "<c/>"
    if isinstance(value, bool):
        return f"<c t='b'><v>{int(value)}</v></c>"
    if isinstance(value, (int, float)) and abs(value) < float("inf"):
        return f"<c><v>{value!r}</v></c>"
    words = written(value) if isinstance(value, datetime) else str(value)
    kept = "".join(each if each.isprintable() else " " for each in words)
    return f"<c t='inlineStr'><is><t xml:space='preserve'>{escape_xml(kept)}</t></is></c>"
