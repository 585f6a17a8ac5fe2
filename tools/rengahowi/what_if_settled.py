"""What a survey tells of the failures of a plan, as a table and as plain lists and texts, ready for JSON and for the page."""

from __future__ import annotations

from .command import Fault
from .summary_text import counted
from .survey import Survey, text_of_survey
from .what_if_text import some, table

TYPE_CHECKING = False
if TYPE_CHECKING:
    from collections.abc import Collection, Iterable
    from typing import Any

    from .plan import Plan
    from .survey import Relation, Told

# The first word of each kind of failure that a survey has.
KINDS = {"session": "lose", "wire": "wire", "restart": "restart", "priority": "priority"}
# So many relations of a case are told in its row.
MOST_SAID = 2


def survey_of(plan: Plan, text: str, most: int) -> Survey:
    """The survey of a scenario, of cases of at most so many failures."""
    return Survey(plan, text_of_survey(text, most))


def found_of(survey: Survey, most: int, kinds: Collection[str] | None = None) -> dict[str, Any]:
    """All that a survey tells, or that of cases whose failures are all of some kinds."""
    wanted = {KINDS[kind] for kind in kinds if kind in KINDS} if kinds is not None else set(KINDS.values())
    rows = [told for told in survey.cases.values() if all(text.split(" ")[0] in wanted for text in told.failures)]
    return {
        "most": most,
        "failures": survey.counts["faults"],
        "cases": survey.counts["cases"],
        "split": survey.counts["split"],
        "no_label": survey.no_label,
        "off": [name for name in survey.plan.circuits if name in survey.off],
        "before": relations_of(survey.ground),
        "worst": list(survey.worst),
        "told": [row_of(told) for told in rows],
        "left_out": len(survey.cases) - len(rows),
    }


def row_of(told: Told) -> dict[str, Any]:
    """A case that is told."""
    return {"failures": list(told.failures), "lost": told.lost, "found": told.found, "sites": relations_of(told.relations)}


def relations_of(relations: Iterable[Relation]) -> list[dict[str, Any]]:
    """Which sites lost, found or are apart from which."""
    return [{"what": one.word, "service": one.service, "sites": list(one.sites), "others": list(one.others)} for one in relations]


def kinds_of(words: str | None) -> list[str] | None:
    """The kinds of failures that a call wants of a survey, which has some of them alone."""
    if words is None:
        return None
    for kind in words.split(","):
        if kind not in KINDS:
            raise Fault(f"--settled tells nothing of {kind!r}; it has {', '.join(KINDS)}")
    return words.split(",")


def text_of_settled(found: dict[str, Any]) -> str:
    """The whole text."""
    rows = found["told"]
    has_found = any(row["found"] for row in rows)
    heads = ("case", "lost", "who lost whom once settled", *(["found", "who found whom"] if has_found else []))
    lines = table([heads, *(columns(row, has_found) for row in rows)]) if rows else []
    return "\n".join([*before(found), *lines, *([""] if rows else []), *endings(found)]) + "\n"


def columns(row: dict[str, Any], has_found: bool) -> tuple[str, ...]:
    """The columns of a case: how many pairs of sites lose each other, and who; and find each other."""
    name = " + ".join(row["failures"])
    more = (str(row["found"] or "-"), said([one for one in row["sites"] if one["what"] == "found"])) if has_found else ()
    return name, str(row["lost"] or "-"), said([one for one in row["sites"] if one["what"] != "found"]), *more


def said(relations: list[dict[str, Any]]) -> str:
    """The first of some relations, those of sites that lost all in front, and how many more sites there are."""
    rows = sorted(relations, key=lambda one: str(one["what"]) != "cut")[:MOST_SAID]
    told = {name for one in rows for name in one["sites"] + one["others"]}
    names = {name for one in relations for name in one["sites"] + one["others"]} - told
    return "; ".join([*map(said_of, rows), *([counted(len(names), "more site")] if names else [])]) or "-"


def said_of(one: dict[str, Any]) -> str:
    """A relation in words."""
    sites = some(one["sites"])
    if one["what"] == "cut":
        return f"{sites} lost all"
    if one["what"] == "apart":
        return f"{sites} and {some(one['others'])}"
    return f"{sites} {one['what']} {some(one['others'])}"


def before(found: dict[str, Any]) -> list[str]:
    """What is so where nothing fails, if that is not as it should be."""
    lines = []
    for one in found["before"]:
        text = f"{some(one['sites'])} reach{'es' if len(one['sites']) == 1 else ''} nobody" if one["what"] == "cut" else f"{said_of(one)} do not reach each other"
        lines.append(f"Before any failure, {text} (service {one['service']})")
    lines += [f"{edge} has no label left: nothing is told of services that want one there" for edge in found["no_label"]]
    return lines + [""] if lines else []


def endings(found: dict[str, Any]) -> list[str]:
    """How many cases there are, and in how many of them sites are split."""
    size = {1: "one failure", 2: "one or two failures", 3: "one, two or three failures"}[found["most"]]
    told = len(found["told"])
    lines = [
        f"{counted(found['failures'], 'failure')}, {counted(found['cases'], 'case')} of {size}: in {found['split']} sites are split once all has settled, in every order",
        f"{counted(told, 'case')} told" + (": of several failures those alone in which sites lose or find each other that do so in no case of fewer of them" if found["most"] > 1 else ""),
    ]
    if found["worst"]:
        lines.append(f"Most pairs of sites lose each other in {' + '.join(found['worst'])}")
    if found["left_out"]:
        lines.append(f"{counted(found['left_out'], 'case')} of other kinds left out")
    return lines
