"""The tests of links between nodes by addresses of IPv6. Each runs in a network of its own, whose
loopback interface has the addresses."""
import unittest

import test_net_chrony
import test_net_connections
import test_net_datagrams
import test_net_sends
import test_net_stamps
import test_net_streams
from by_six import OTHER, BySix


class Datagrams(BySix, test_net_datagrams.Datagrams):
    pass


class Sends(BySix, test_net_sends.Sends):
    most = 65527
    other_name = OTHER

    def names_of_b(self):
        return [self.addresses["b"]]


class Chrony(BySix, test_net_chrony.Chrony):
    pass


class Connections(BySix, test_net_connections.Connections):
    test_sockets_of_ipv6_with_addresses_of_ipv4 = None


class Streams(BySix, test_net_streams.Streams):
    pass


class Stamps(BySix, test_net_stamps.Stamps):
    pass


class StampsOfWhatIsSent(BySix, test_net_stamps.StampsOfWhatIsSent):
    more_calls = []


if __name__ == "__main__":
    unittest.main()
