"""What the tests of links by IPv6 share: a network of their own, whose loopback interface has the
addresses."""
import os
import pathlib
import sys
import unittest

from links import ADDRESSES, START, STREAMS, LinkTest
from runs import STILL, TKRUN, call, succeeds

SIX = {name: f"fd00::{name}" for name in "abc"}
OTHER = "fd00::77"  # is of no node
# a network that root makes, or a user in a namespace where it is root
OPTION = next((word for word in ("-n", "-rn") if succeeds("unshare", word, "true")), "-rn")
IN_NETWORK = ["unshare", OPTION, sys.executable, "-B",
              str(pathlib.Path(__file__).with_name("in_network.py")), *SIX.values(), OTHER, "--"]
CAN_ADD = succeeds(*IN_NETWORK, "true")


@unittest.skipUnless(CAN_ADD, "no network can be made with addresses of IPv6")
class BySix:
    """The tests of a LinkTest by IPv6."""
    addresses, family, host = SIX, "socket.AF_INET6", "::1"
    network = IN_NETWORK

    def start(self, *arguments, env=None):
        return call([*self.network, TKRUN, *map(str, arguments)], env={**os.environ, **(env or {})})


FOURS = f"FOUR_A, FOUR_B, FOUR_C = {tuple(ADDRESSES.values())}\n"


def node(name, *addresses, more=""):
    return ["--node", ",".join([name, *(f"address={it}" for it in addresses)]) + more]


class BothFamilies(BySix, LinkTest):
    """Tests of nodes that have an address of each family. Their names are FOUR_A and A, .."""
    prelude = FOURS + STREAMS

    def make_options(self, more=""):
        words = [*STILL, "--start", START]
        for name in "abc":
            words += node(name, ADDRESSES[name], SIX[name], more=more)
        return words
