"""The vendors whose configurations are written."""

from __future__ import annotations

from .frr_text import FrrText
from .ios_text import IosText
from .ios_xr_text import IosXrText
from .junos_text import JunosText
from .sr_os_text import SrOsText
from .vrp_text import VrpText

TYPE_CHECKING = False
if TYPE_CHECKING:
    from .text import Text

WRITERS: dict[str, type[Text]] = {"ios-xr": IosXrText, "ios": IosText, "junos": JunosText, "sr-os": SrOsText, "vrp": VrpText, "frr": FrrText}
