#!/usr/bin/env bash
# Tests of the tools, outside the gate. Each is skipped by name where a package or the built program is missing, and runs on
# loopback or in a namespace of its own. Status 1 where one fails.
# Usage: tools/test.sh [NAME..]    the tests to run; all where none is named. FAUCET may say where the program stands
set -u
top=$(cd "$(dirname "$(readlink -f "$0")")/.." && pwd)
tools=$top/tools
export FAUCET=${FAUCET:-$top/crates/faucet/out/faucet} PYTHONDONTWRITEBYTECODE=1 PYTHONPATH=$tools
work=$(mktemp -d)
trap 'rm -rf "$work"' EXIT
asked=" $* " failed=0 ran=0 skipped=0

has() {
  case $1 in
    program) [ -x "$FAUCET" ] ;;
    root) [ "$(id -u)" -eq 0 ] && unshare --net true ;;
    python3-yaml) /usr/bin/python3 -c "import yaml" ;;
    python3-dpkt) /usr/bin/python3 -c "import dpkt" ;;
    *) command -v "$1" ;;
  esac >/dev/null 2>&1
}

# Runs a test in an empty folder, where all that it needs is there.
try() {
  local name=$1 need
  shift
  [ "$asked" = "  " ] || [[ $asked == *" $name "* ]] || return 0
  for need in "$@"; do
    if ! has "$need"; then
      echo "skipped: $name: $need is missing"
      skipped=$((skipped + 1))
      return
    fi
  done
  ran=$((ran + 1))
  mkdir "$work/$name"
  # As a command of its own, so that its first failing line ends it.
  (
    cd "$work/$name" || exit 1
    set -e
    "$name"
  ) >"$work/$name.log" 2>&1
  status=$?
  if [ "$status" -eq 0 ]; then
    echo "ok: $name$(sed -n 's/^told: /, /p' "$work/$name.log" | tr -d '\n')"
  else
    echo "FAILED: $name"
    sed 's/^/    /' "$work/$name.log"
    failed=$((failed + 1))
  fi
}

quick=$top/examples/quick-start

same() {
  diff -u "$1" "$2"
}

# A configuration of each datapath of each example, as FILE and NAME.
datapaths() {
  local file
  for file in "$top"/examples/*/faucet.yaml; do
    "$FAUCET" check "$file" | /usr/bin/python3 -c 'import json, sys; [print(sys.argv[1], it) for it in json.load(sys.stdin)["dps"]]' "$file"
  done
}

# ---- said

said_reads_a_recording() {
  "$tools/said" "$quick/switch.rec" >text
  [ "$(wc -l <text)" -eq 15 ]
  grep -qx '    3000 ms  conn 1  heard PORT_STATUS xid 0: MODIFY port 2 br1p2 PORT_DOWN LINK_DOWN' text
  head -c -1 "$quick/switch.rec" >cut.rec
  "$tools/said" cut.rec 2>line >less
  [ "$(wc -l <less)" -eq 14 ]
  grep -q 'ends inside a record' line
  [ "$("$tools/said" --conn 2 "$quick/switch.rec" | wc -l)" -eq 0 ]
}

said_reads_what_replay_wrote() {
  "$FAUCET" replay "$quick/faucet.yaml" "$quick/switch.rec" >said.rec 2>/dev/null
  "$tools/said" said.rec >text
  [ "$(grep -c 'said FLOW_MOD' text)" -eq "$("$top/bin/records" said.rec | grep -c 'said: FLOW_MOD')" ]
  grep -q 'said FLOW_MOD xid 6: ADD priority=1,in_port=1 cookie:0x5adc15c0 actions=goto_table:1$' text
}

said_speaks_as_ovs_ofctl() {
  local file name
  while read -r file name; do "$FAUCET" plan "$file" "$name"; done < <(datapaths) >plans
  /usr/bin/python3 "$tools/test_words.py" plans 500 >mine
  ovs-ofctl ofp-parse plans.and.more | sed -n 's/^OFPT_FLOW_MOD (OF1.3) (xid=0x[0-9a-f]*): //p' >theirs
  same theirs mine
  echo "told: $(wc -l <mine) flow entries"
}

# ---- preview

preview_tells_what_changes() {
  sed 's/^\( *\)2:$/\12:\n\1    acl_in: none/' "$quick/faucet.yaml" >new.yaml
  printf 'acls:\n    none:\n        - rule: {actions: {allow: false}}\n' >>new.yaml
  "$tools/preview" --entries "$quick/faucet.yaml" new.yaml "$quick/switch.rec" >text
  grep -qx '    ~ table=0, priority=1,in_port=2 actions=drop' text
  grep -qx '    + table=0, priority=10000,in_port=2 actions=drop' text
  grep -qx '0 hosts are forgotten, 0 connections close' text
}

preview_tells_of_hosts_and_closings() {
  sed 's/^\( *\)1:$/\11:\n\1    enabled: false/' "$quick/faucet.yaml" >new.yaml
  "$tools/preview" "$quick/faucet.yaml" new.yaml "$quick/switch.rec" >text
  grep -qx '    forgotten: 02:00:00:00:00:01 in VLAN 100 at port 1' text
  sed 's/dp_id: 0x1/dp_id: 0x2/' "$quick/faucet.yaml" >other.yaml
  "$tools/preview" "$quick/faucet.yaml" other.yaml "$quick/switch.rec" >text
  grep -q 'closes with UnknownDp' text
  grep -q '1 connections close' text
}

preview_tells_a_refusal() {
  sed 's/native_vlan: office/native_vlan: ofice/' "$quick/faucet.yaml" >new.yaml
  local status=0
  "$tools/preview" "$quick/faucet.yaml" new.yaml "$quick/switch.rec" 2>line || status=$?
  [ "$status" -eq 2 ]
  grep -q 'dps.sw1.interfaces.1.native_vlan: Unresolved' line
}

preview_joins_includes() {
  printf 'include: [vlans.yaml]\n' >new.yaml
  sed '/^vlans:/,/^dps:/{/^dps:/!d}' "$quick/faucet.yaml" >>new.yaml
  sed -n '/^vlans:/,/^dps:/{/^dps:/!p}' "$quick/faucet.yaml" >vlans.yaml
  "$tools/preview" "$quick/faucet.yaml" new.yaml "$quick/switch.rec" >text
  grep -q ': 0 entries go, 0 come, 0 change' text
}

# ---- why

why_names_lines() {
  "$tools/why" "$top/examples/access-lists/faucet.yaml" - sw1 3 "ffffffffffff 020000000003 0800 4500001c0000000040110000 00000000ffffffff 0043 0044 0008 0000" >text
  grep -q 'faucet.yaml:41: rule 0 of the ACL no-dhcp-replies' text
  grep -q 'sent to port 1: ' text
  grep -q 'it ends here' text
}

why_knows_what_was_learned() {
  "$tools/why" "$quick/faucet.yaml" "$quick/switch.rec" sw1 2 "020000000001 020000000002 0800" >text
  grep -q 'the host 02:00:00:00:00:01 of VLAN 100 was learned' text
  grep -q 'sent to port 1: 02:00:00:00:00:02 > 02:00:00:00:00:01 type 0x0800' text
}

why_has_a_place_for_each_entry() {
  datapaths >names
  /usr/bin/python3 "$tools/test_places.py" <names
}

why_goes_as_open_vswitch() {
  datapaths >names
  unshare --net -- /usr/bin/python3 "$tools/test_switch.py" trace "$PWD" <names
}

# ---- preflight

preflight_holds_on_open_vswitch() {
  unshare --net -- /usr/bin/python3 "$tools/test_switch.py" preflight "$PWD"
}

preflight_sees_what_does_not_hold() {
  /usr/bin/python3 "$tools/test_switch.py" broken "$PWD"
}

# ---- topology

topology_draws_each_example() {
  local file at
  for file in "$top"/examples/*/faucet.yaml; do
    at=$(dirname "$file")
    "$tools/topology" --dot "$file" >the.dot
    "$tools/topology" "$file" >svg
    grep -q '^</svg>' svg
    if [ "$(grep -o 'graphviz version [0-9.]*' svg)" = "$(grep -o 'graphviz version [0-9.]*' "$at/topology.svg")" ]; then
      same "$at/topology.svg" svg
    fi
  done
}

# ---- from-faucet

from_faucet_writes_what_is_accepted() {
  local name
  for name in vlans acls routing stacks; do
    "$tools/from-faucet" "$tools/migrating/$name.yaml" >"$name.yaml"
    "$FAUCET" check "$name.yaml" >/dev/null
    (cd "$top" && tools/from-faucet "tools/migrating/$name.yaml" 2>"$OLDPWD/report" >/dev/null)
    /usr/bin/python3 - "$top/docs/MIGRATING.md" "$name" >told <<'END'
import re, sys
text = open(sys.argv[1]).read()
print(re.search(rf"(?s)\$ tools/from-faucet tools/migrating/{sys.argv[2]}\.yaml >[^\n]*\n(.*?)\n\n(?!    )", text)[1].replace("\n    ", "\n").removeprefix("    "))
END
    same told report
  done
}

from_faucet_keeps_what_is_accepted() {
  local file
  for file in "$top"/examples/*/faucet.yaml "$top"/examples/campus/faucet.yaml; do
    "$tools/from-faucet" "$file" >again.yaml 2>report
    [ "$(grep -c '^refused' report)" -eq 0 ]
    cmp <("$FAUCET" check "$file") <("$FAUCET" check again.yaml)
  done
}

# ---- captures

captures_come_back() {
  "$FAUCET" replay "$quick/faucet.yaml" "$quick/switch.rec" >said.rec 2>/dev/null
  "$tools/rec2pcap" "$quick/switch.rec" said.rec >both.pcap
  "$tools/pcap2rec" --said again.said both.pcap >again.rec
  same <("$tools/said" "$quick/switch.rec") <("$tools/said" again.rec)
  same <("$tools/said" said.rec) <("$tools/said" again.said)
}

captures_are_put_together() {
  /usr/bin/python3 "$tools/test_segments.py" "$quick/switch.rec"
}

tshark_shows_openflow() {
  "$FAUCET" replay "$quick/faucet.yaml" "$quick/switch.rec" >said.rec 2>/dev/null
  "$tools/rec2pcap" "$quick/switch.rec" said.rec >both.pcap
  tshark -r both.pcap -o tcp.check_checksum:TRUE -Y openflow_v4 -T fields -e openflow_v4.type 2>/dev/null | tr ',' '\n' | sort -n | uniq -c >theirs
  cat "$quick/switch.rec" said.rec | /usr/bin/python3 -c '
import collections, openflow, sys
count = collections.Counter(openflow.kind_of(it) for _, kind, _, data in openflow.records(sys.stdin.buffer) if kind in (2, 130) for it in openflow.cut(data)[0])
print("".join(f"{count[it]:7} {it}\n" for it in sorted(count)), end="")' >mine
  same mine theirs
  [ "$(tshark -r both.pcap -o tcp.check_checksum:TRUE -Y 'tcp.analysis.flags or tcp.checksum.status==0 or _ws.malformed' 2>/dev/null | wc -l)" -eq 0 ]
  echo "told: $(awk '{ sum += $1 } END { print sum }' mine) messages"
}

captures_of_a_live_run_replay() {
  timeout 300 unshare --net -- /usr/bin/python3 "$tools/test_capture.py" "$PWD"
}

# ---- what is installed

pages_are_right() {
  local page
  for page in "$tools"/man/*; do
    man --warnings -l "$page" 2>faults >/dev/null
    [ ! -s faults ]
  done
}

completion_completes() {
  cp "$quick/faucet.yaml" ./here.yaml
  ln -s "$FAUCET" faucet
  cat >asks <<'END'
source "$1"
ask() { COMP_WORDS=("$@") COMP_CWORD=$(($# - 1)); _faucet; echo "${COMPREPLY[*]}"; }
ask faucet g
ask faucet plan her
ask ./faucet plan here.yaml ""
ask faucet serve here.yaml --
ask faucet serve here.yaml --events 5 --
ask faucet_recorded here.yaml --re
END
  bash asks "$tools/completion/faucet.bash" >answers
  printf '%s\n' "gauge gauge-serve" here.yaml sw1 "--events --reload-ms --listen" "--reload-ms --listen" "--record --reload-ms" | same - answers
}

install_is_taken_out_exactly() {
  mkdir -p there/bin && echo mine >there/bin/other
  find there | sort >before
  "$tools/install" "$PWD/there"
  "$tools/install" "$PWD/there"
  there/bin/faucet check "$quick/faucet.yaml" >/dev/null
  env -u FAUCET there/bin/faucet-topology --dot "$quick/faucet.yaml" >/dev/null
  grep -q "ExecStart=$PWD/there/bin/faucet serve" there/lib/systemd/system/faucet@.service
  find there -type f -o -type l | sed 's|^there/|file |' | grep -v bin/other | sort | same - <(grep '^file' there/share/faucet/manifest | sort)
  "$tools/uninstall" "$PWD/there"
  find there | sort | same before -
  "$tools/install" "$PWD/new"
  "$tools/uninstall" "$PWD/new"
  [ ! -e new ]
  echo other >there/bin/faucet
  if "$tools/install" "$PWD/there"; then false; fi
  [ "$(cat there/bin/faucet)" = other ]
}

# ---- pages

believe_is_fresh() {
  "$tools/believe"
}

# The newest block of each datapath and kind, lines of text dbs passed over; and nothing of what is too old.
textfile_keeps_the_newest_blocks() {
  cat >stream <<'END'
f.log	10000	sw1	0:1:00010004	packets	5
# TYPE of_flow_packets counter
of_flow_packets{dp_id="1",dp_name="sw1",table="0",priority="1",match="00010004"} 5
# TYPE of_flow_bytes counter
of_flow_bytes{dp_id="1",dp_name="sw1",table="0",priority="1",match="00010004"} 320

# TYPE of_port_state gauge
of_port_state{dp_id="10",dp_name="sw10",port="2",port_name="a\"b"} 0

# TYPE of_port_state gauge
of_port_state{dp_id="2",dp_name="sw2",port="1",port_name="host1"} 1

# TYPE of_flow_packets counter
of_flow_packets{dp_id="1",dp_name="sw1",table="0",priority="1",match="00010004"} 7
# TYPE of_flow_bytes counter
of_flow_bytes{dp_id="1",dp_name="sw1",table="0",priority="1",match="00010004"} 448

# TYPE of_port_state gauge
of_port_state{dp_id="2",dp_name="sw2",port="1",port_name="host1"} 0
END
  "$tools/textfile" out.prom <stream
  cat >wanted <<'END'
# HELP of_flow_bytes Bytes of these packets.
# TYPE of_flow_bytes counter
of_flow_bytes{dp_id="1",dp_name="sw1",table="0",priority="1",match="00010004"} 448
# HELP of_flow_packets Packets that the flow entry was applied to.
# TYPE of_flow_packets counter
of_flow_packets{dp_id="1",dp_name="sw1",table="0",priority="1",match="00010004"} 7
# HELP of_port_state 1 where the port is up, 0 where it is down or was deleted.
# TYPE of_port_state gauge
of_port_state{dp_id="2",dp_name="sw2",port="1",port_name="host1"} 1
of_port_state{dp_id="10",dp_name="sw10",port="2",port_name="a\"b"} 0
END
  same wanted out.prom
  { cat stream; sleep 5; } | "$tools/textfile" --interval 1 old.prom
  [ -f old.prom ] && [ ! -s old.prom ]
}

bgp2file_keeps_the_newest_text() {
  python3 - <<'END'
import openflow
own, first, second = b"vlans: {}\n", b"first\n", b"second\n" * 30000
said = [openflow.record(5, openflow.SAID, 1, b"said"), openflow.record(6, openflow.RELOAD, 0, first), openflow.record(6, openflow.CLOSED, 1, bytes([12, 6, 0]))]
for name, data in (("own", own), ("first", first), ("second", second), ("stream", b"".join(said)), ("more", openflow.record(7, openflow.RELOAD, 0, second)), ("cut", said[1][:-1])):
    with open(name, "wb") as out:
        out.write(data)
END
  mkfifo pipe
  "$tools/bgp2file" own kept <pipe 2>report &
  exec 3>pipe
  sleep 1
  same own kept
  cat stream >&3
  sleep 1
  same first kept
  cat stream more >&3
  sleep 1
  same second kept
  cat cut >&3
  sleep 1
  same second kept
  exec 3>&-
  wait
  same own kept
  grep -q 'left out' report
  [ ! -e kept.new ]
}

try said_reads_a_recording
try said_reads_what_replay_wrote program
try said_speaks_as_ovs_ofctl program ovs-ofctl
try preview_tells_what_changes program python3-yaml
try preview_tells_of_hosts_and_closings program python3-yaml
try preview_tells_a_refusal program python3-yaml
try preview_joins_includes program python3-yaml
try why_names_lines program python3-yaml
try why_knows_what_was_learned program python3-yaml
try why_has_a_place_for_each_entry program python3-yaml
try why_goes_as_open_vswitch program python3-yaml ovs-vswitchd root
try preflight_holds_on_open_vswitch ovs-vswitchd root
try preflight_sees_what_does_not_hold
try textfile_keeps_the_newest_blocks
try bgp2file_keeps_the_newest_text
try topology_draws_each_example program dot
try from_faucet_writes_what_is_accepted program python3-yaml
try from_faucet_keeps_what_is_accepted program python3-yaml
try captures_come_back program python3-dpkt
try captures_are_put_together python3-dpkt
try tshark_shows_openflow program tshark
try captures_of_a_live_run_replay program python3-dpkt tcpdump ovs-vswitchd root
try pages_are_right man
try completion_completes program
try install_is_taken_out_exactly program python3-yaml
try believe_is_fresh
echo "$ran tests, $failed failed, $skipped skipped"
[ "$failed" -eq 0 ]
