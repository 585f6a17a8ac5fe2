"""The vendors whose configurations are read, and how a text is told to be of one."""

from __future__ import annotations

from ..command import Fault
from .frr import Frr
from .ios import Ios
from .ios_xr import IosXr
from .junos import Junos
from .sr_os import SrOs
from .vrp import Vrp

TYPE_CHECKING = False
if TYPE_CHECKING:
    from .reading import Reader

READERS: dict[str, type[Reader]] = {reader.vendor: reader for reader in (IosXr, Ios, Junos, SrOs, Vrp, Frr)}
# What stands in the configurations of one vendor, and how much it tells. A line begins behind each `\n`.
SIGNS: dict[str, list[tuple[str, int]]] = {
    "ios-xr": [
        ("\n!! IOS XR", 9), ("\nl2vpn\n", 3), ("\n bridge group ", 3), ("\n  bridge-domain ", 2), ("\n xconnect group ", 2),
        (" l2transport\n", 2), ("\n pw-class ", 1), ("\n ipv4 address ", 1), ("/0/0/0", 1), ("\n   vfi ", 2), ("\n   neighbor ", 1),
    ],
    "ios": [
        ("\nversion 1", 3), ("\nl2 vfi ", 3), ("\nl2vpn vfi context ", 3), ("\nl2vpn xconnect context ", 3), (" encapsulation mpls\n", 2),
        ("\n xconnect ", 2), ("\n  xconnect ", 2), ("\n service instance ", 2), ("\npseudowire-class ", 2), ("\n ip address ", 1),
        ("\nmpls ldp router-id ", 2), ("\n switchport ", 2),
    ],
    "junos": [
        ("\nset interfaces ", 5), ("\nset routing-instances ", 5), ("\nset system ", 5), ("\nsystem {\n", 3), ("\ninterfaces {\n", 3),
        ("\nrouting-instances {\n", 5), ("\nset protocols ", 3), (";\n", 3), ("\n        instance-type ", 3), ("\n    host-name ", 2),
        ("\nversion 2", 1),
    ],
    "sr-os": [
        ("\n# TiMOS", 9), ("\nconfigure\n", 5), ("\nconfigure {\n", 5), ("\nexit all", 3), (" mesh-sdp ", 5), (" spoke-sdp ", 5),
        ("\n    service\n", 2), ("\n        sap ", 1), ('\necho "', 3), (" sdp ", 1),
    ],
    "vrp": [
        ("\nsysname ", 9), ("\nvsi ", 5), ("\nmpls lsr-id ", 5), ("\nreturn\n", 2), ("\n#\n", 2), ("\n undo ", 1), ("\n pwsignal ldp", 5),
        ("\n l2 binding vsi ", 3), ("\n mpls l2vc ", 3), ("\n  vsi-id ", 2),
    ],
    "frr": [
        ("\nfrr version ", 9), ("\nfrr defaults ", 9), (" type vpls\n", 3), ("\n member pseudowire mpw", 3), ("\n neighbor lsr-id ", 3),
        ("\nmpls ldp\n router-id ", 1), ("\n  neighbor lsr-id ", 3), ("\ninterface lo\n", 3), ("\n  discovery transport-address ", 3),
    ],
}


def vendor_of(path: str, text: str) -> str:
    """The vendor of a text: the one of whom most signs stand in it."""
    lines = "\n" + text.replace("\r\n", "\n")
    scores = {vendor: sum(weight for sign, weight in signs if sign in lines) for vendor, signs in SIGNS.items()}
    best = max(scores, key=lambda vendor: scores[vendor])
    if scores[best] == 0:
        raise Fault(f"{path}, line 1: whose configuration this is cannot be told: name it by --vendor, one of {', '.join(READERS)}")
    return best


def text_of(path: str) -> str:
    """The text of a configuration. Where it is no UTF-8 it is Latin 1, as descriptions of old devices are."""
    with open(path, "rb") as file:
        octets = file.read()
    try:
        return octets.decode("utf-8-sig")
    except UnicodeDecodeError:
        return octets.decode("latin-1")


def read(path: str, text: str, vendor: str | None = None) -> Reader:
    """The configuration of a file. Whose it is is told by its text, where nobody says."""
    return READERS[vendor or vendor_of(path, text)](path, text)
