"""The clients and relays of a live trial: how each is set up, started, and told to give back what it has."""

import signal

SERVER = "2001:db8:ffff::1"
DHCLIENT = "request dhcp6.name-servers, dhcp6.domain-search, dhcp6.sntp-servers, dhcp6.info-refresh-time;\n"
DHCLIENT_FILES = "-v -sf /sbin/dhclient-script -lf OWN/leases -pf OWN/pid eth0"
DHCPCD = """nodev
duid
noipv6rs
ipv6only
option dhcp6_name_servers, dhcp6_domain_search, dhcp6_sntp_servers
interface eth0
"""
DHCP6C = """interface eth0 {
  request domain-name-servers, domain-name, ntp-servers, refreshtime;
  script "/etc/wide-dhcpv6/dhcp6c-script";
"""
DHCP6C_PD = """  send ia-pd 0;
  send ia-na 0;
};
id-assoc na 0 {
};
id-assoc pd 0 {
  prefix-interface lan0 {
    sla-id 1;
    sla-len 8;
  };
};
"""
DIBBLER = """log-level 7
log-mode full
downlink-prefix-ifaces "lan0"
iface eth0 {{
  {}
  option dns-server
  option domain
}}
"""
DIBBLER_RELAY = f"""log-level 7
log-mode full
iface up0 {{
  server unicast {SERVER}
}}
iface down0 {{
  client multicast yes
  interface-id 5020
}}
"""
NETWORKD = "[Match]\nName=eth0\n[Network]\nDHCP=ipv6\nIPv6AcceptRA=no\n[DHCPv6]\nUseDomains=yes\n"
NETWORKD_LAN = "[Match]\nName=lan0\n[Network]\nDHCPPrefixDelegation=yes\nIPv6AcceptRA=no\nIPv6SendRA=no\n"


class Kind:
    """A client: its package, its files under its own /etc, how it is started and told to give back."""

    def __init__(self, name, package, files, line, wants="prefix", relay=None, gives_back=signal.SIGTERM):
        self.name, self.package, self.files, self.line = name, package, files, line
        self.wants, self.relay, self.gives_back = wants, relay, gives_back
        self.space = f"fengtuyas-{name}"
        self.child = self.capture = self.own = None
        self.installed = []


def dhclient(name, words, **rest):
    files = {"dhcp/dhclient.conf": DHCLIENT}
    start, back = f"exec dhclient -6 {words} -d {DHCLIENT_FILES}", f"dhclient -6 -P -r {DHCLIENT_FILES}"
    return Kind(name, "isc-dhcp-client", files, start, gives_back=back, **rest)


def dhcpcd(name, words, wants):
    files = {"dhcpcd.conf": DHCPCD + words}
    return Kind(name, "dhcpcd-base", files, "exec dhcpcd -6 -B -d", wants, gives_back=signal.SIGALRM)


def dhcp6c(name, text, wants):
    files = {"wide-dhcpv6/dhcp6c.conf": DHCP6C + text}
    return Kind(name, "wide-dhcpv6-client", files, "exec dhcp6c -f -D eth0", wants)


def dibbler(name, text, wants):
    line = "rm -f /var/lib/dibbler/client.pid && exec dibbler-client run"
    return Kind(name, "dibbler-client", {"dibbler/client.conf": text}, line, wants)


def networkd(name, rows, wants):
    files = {"systemd/network/eth0.network": NETWORKD + rows, "systemd/network/lan0.network": NETWORKD_LAN}
    line = "mount -o remount,ro /sys && mkdir /run/systemd && exec /lib/systemd/systemd-networkd"
    return Kind(name, "systemd", files, line, wants)


# The package of each relay, its files, and how it is started; LINK stands for its address on its client's link, UP for
# that on the server's.
RELAYS = {
    "dhcrelay": ("isc-dhcp-relay", {}, f"exec dhcrelay -6 -d -I -l down0 -u {SERVER}%up0"),
    "dibbler": ("dibbler-relay", {"dibbler/relay.conf": DIBBLER_RELAY}, "exec dibbler-relay run"),
    "dhcp6relay": ("wide-dhcpv6-relay", {}, f"exec dhcp6relay -f -D -s {SERVER} -r up0 -b UP -p OWN/pid down0"),
    "dnsmasq": ("dnsmasq-base", {}, f"exec dnsmasq -d -p 0 -C /dev/null --interface=down0 --dhcp-relay=LINK,{SERVER}"),
}


def kinds():
    """On the link those that want a prefix, behind each relay a dhclient, and on the link those that want options."""
    yield dhclient("dhclient", "-P -N")
    yield dhcpcd("dhcpcd", "ia_na\nia_pd 1 lan0/0\n", "prefix")
    yield dhcp6c("dhcp6c", DHCP6C_PD, "prefix")
    yield dibbler("dibbler", DIBBLER.format("ia\n  pd"), "prefix")
    yield networkd("networkd", "WithoutRA=solicit\n", "prefix")
    yield networkd("networkd-pd", "WithoutRA=solicit\nUseAddress=no\n", "prefix")
    for relay in RELAYS:
        yield dhclient(f"via-{relay}", "-P", relay=relay)
    yield dhclient("dhclient-S", "-S", wants="options")
    yield dhcpcd("dhcpcd-i", "inform6\n", "options")
    yield dhcp6c("dhcp6c-i", "  information-only;\n};\n", "options")
    yield dibbler("dibbler-i", "stateless\n" + DIBBLER.format(""), "options")
    yield networkd("networkd-i", "WithoutRA=information-request\nUseAddress=no\n", "options")


KINDS = list(kinds())
