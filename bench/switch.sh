#!/usr/bin/env bash
# Holds the tables against a real switch: Open vSwitch, in user space and with no other network. It opens each datapath
# of each example, which has to go without an error and leave just the entries that were sent. Then, for nine states of
# datapaths, it sends frames made by chance, of ARP, IPv4, IPv6 and others, and compares what leaves by each port, and
# what the controller gets, with the description and with the tables, as the program test_plans answers. At last it gives
# the switch each match and each action on IPv6 of the cases of test_packets, and compares what becomes of their frames
# with the answers there; this part is left out where Debian's python3-scapy isn't there. Status 1 where something
# differs. Needs ovs-vswitchd, ovsdb-server and python3; port 6653 on 127.0.0.1 is to be free.
# Usage: bench/switch.sh [FRAMES A STATE]
set -eu
top=$(cd "$(dirname "$0")/.." && pwd)
OVS_RUNDIR=$(mktemp -d)
export OVS_RUNDIR
stop() {
  kill "$(cat "$OVS_RUNDIR/switch.pid")" "$(cat "$OVS_RUNDIR/database.pid")" 2>/dev/null || true
  rm -rf "$OVS_RUNDIR"
}
trap stop EXIT
"$top/bin/faucet" plan "$top/examples/quick-start/faucet.yaml" sw1 >/dev/null

cd "$OVS_RUNDIR"
ovsdb-tool create database.db /usr/share/openvswitch/vswitch.ovsschema
ovsdb-server database.db --remote=punix:database.sock --unixctl="$OVS_RUNDIR/database.ctl" --detach --pidfile="$OVS_RUNDIR/database.pid" --log-file="$OVS_RUNDIR/database.log" 2>/dev/null
set_up() { ovs-vsctl --db="unix:$OVS_RUNDIR/database.sock" "$@"; }
set_up --no-wait init
ovs-vswitchd "unix:$OVS_RUNDIR/database.sock" --disable-system --enable-dummy=override --unixctl="$OVS_RUNDIR/switch.ctl" --detach --pidfile="$OVS_RUNDIR/switch.pid" --log-file="$OVS_RUNDIR/switch.log" 2>/dev/null
set_up set Open_vSwitch . other_config:vlan-limit=2
set_up add-br br0 -- set bridge br0 datapath_type=dummy protocols=OpenFlow13 fail_mode=secure -- set-controller br0 ptcp:6653:127.0.0.1
for port in 1 2 3 4 5 6 12 13 21; do
  set_up add-port br0 "p$port" -- set interface "p$port" type=dummy "ofport_request=$port" "options:tx_pcap=$OVS_RUNDIR/$port.pcap"
done
ovs-vswitchd --version | head -n 1

python3 "$top/bench/switch.py" examples "$top/bin/faucet" "$top/examples"
python3 "$top/bench/switch.py" frames "${1:-90}" >cases
(cd "$top/crates/test_plans" && rt run <"$OVS_RUNDIR/cases") >answers
python3 "$top/bench/switch.py" answers answers
if /usr/bin/python3 -c "import scapy" 2>/dev/null; then
  PYTHONDONTWRITEBYTECODE=1 /usr/bin/python3 "$top/bench/switch.py" fields "$top/crates/test_packets/stdout"
else
  echo "skipped: matches and actions on IPv6: scapy is missing"
fi
