"""With which words a run goes, and between which programs: the options --width, --oracle, --altered and --replay."""

import argparse
import os
import pathlib
import sys

from .sizes import WIDTHS

ROOT = pathlib.Path(__file__).resolve().parents[2]
TARGET = ROOT / "target"
MACHINES = {4: "i686", 8: "x86_64"}


def parse_options(parser):
    """The options chosen, once for each width."""
    parser.add_argument("--width", default="both", choices=[*map(str, WIDTHS), "both"], help="bytes of a word (default: both)")
    parser.add_argument("--oracle", help="another Rust oracle, for one width")
    parser.add_argument("--altered", help="another altered one, for one width")
    parser.add_argument("--replay", default=ROOT / "crates/replay/out/replay", help="the program that is compared with them")
    chosen = parser.parse_args()
    if (chosen.oracle or chosen.altered) and chosen.width == "both":
        parser.error("an oracle is for one width: name that with --width")
    widths = WIDTHS if chosen.width == "both" else [int(chosen.width)]
    return [at_width(chosen, width) for width in widths]


def at_width(chosen, width):
    built = TARGET / f"oracle/{MACHINES[width]}-unknown-linux-gnu/release"
    paths = {"oracle": chosen.oracle or built / "oracle", "altered": chosen.altered or built / "oracle-altered", "replay": chosen.replay}
    return argparse.Namespace(**vars(chosen) | {"width": width} | {name: str(path) for name, path in paths.items()})


def is_there(path):
    return os.access(path, os.X_OK)


def need_oracles(chosen):
    for path in (chosen.oracle, chosen.altered):
        need(path, "build it with tests/oracle/setup LOG.RS")


def need_replay(chosen):
    need(chosen.replay, "build it with rt run in crates/replay, or name it with --replay")


def need(path, how):
    if not is_there(path):
        sys.exit(f"{path} is not there: {how}")
