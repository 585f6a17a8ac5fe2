"""Colours of services and of states, the same ones on each page. They can be told apart without red and green."""

from __future__ import annotations

TYPE_CHECKING = False
if TYPE_CHECKING:
    from .plan import Plan

# Of services, in the order of their names, and then again from the first on.
SERVICES = ["#1f6fb4", "#c65102", "#2a7f62", "#8a3ea8", "#a0741a", "#b02a4c", "#4a5a8c", "#5f6b1f"]
GOOD, WAITING, BAD = "#2a7f62", "#e0a526", "#c0392b"


def of_service(plan: Plan, service: str) -> str:
    """The colour of a service."""
    return SERVICES[sorted(plan.services).index(service) % len(SERVICES)]
