# Sixteen trunks on three machines, for `sh rack.sh | crm configure load update -` (crmsh). Put your names, addresses
# and fencing in. Each trunk has two of the machines, whose --feed and --standby name each other (port 7100 + N); when a
# machine dies its trunks go to both others. A machine without quorum carries nothing.
echo 'property stonith-enabled=true no-quorum-policy=stop transition-delay=100ms
rsc_defaults resource-stickiness=100 migration-threshold=3 failure-timeout=10min
rsc_template e1gw ocf:wudrakt:e1gw \
    op start timeout=20s op stop timeout=30s op promote timeout=30s op demote timeout=30s \
    op monitor role=Promoted interval=9s timeout=10s op monitor role=Unpromoted interval=10s timeout=10s'
for m in a b c; do
  echo "primitive fence-$m stonith:fence_ipmilan params pcmk_host_list=rack-$m ip=$m.ipmi username=fence password=yours
location fence-$m-elsewhere fence-$m -inf: rack-$m"
done
for n in 1 2 3 4 5 6 7 8 9 10 11 12 13 14 15 16; do
  case $((n % 6)) in
    0) on=a not=b ;; 1) on=b not=c ;; 2) on=c not=a ;; 3) on=a not=c ;; 4) on=b not=a ;; 5) on=c not=b ;;
  esac
  echo "primitive t$n @e1gw params trunk=t$n addresses=\"eth0 192.0.2.$((98 + 2 * n))/24 192.0.2.$((99 + 2 * n))/24\"
clone t$n-clone t$n meta clone-max=2 promotable=true interleave=true notify=false
location t$n-not t$n-clone -inf: rack-$not
location t$n-on t$n-clone rule \$role=Promoted 10: #uname eq rack-$on"
done
