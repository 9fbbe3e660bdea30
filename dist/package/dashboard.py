"""Prints the dashboard for Grafana, which the package has as dashboard.json."""
import json

# Each panel: its title, its unit, and of each line the expression and the legend; TRUNK is the trunks that are chosen.
PANELS = [
    ('Trunks and their versions', '', [
        ('max by (trunk, version) (e1gw_build_info{TRUNK})', '{{trunk}} {{version}}')]),
    ('Alarms (1: loss of alignment, RAI, no trunk or no octets)', '', [
        ('e1gw_alarm{TRUNK}', '{{trunk}} {{end}} end, {{alignment}}'),
        ('1 - e1gw_trunk_up{TRUNK}', '{{trunk}} no trunk'),
        ('e1gw_trunk_stalled{TRUNK}', '{{trunk}} no octets')]),
    ('Calls that are answered', '', [
        ('sum by (trunk) (e1gw_circuit_state{TRUNK,state="answered"})', '{{trunk}}')]),
    ('Octets of the trunk a second (256,000)', '', [('irate(e1gw_trunk_octets_total{TRUNK}[5m])', '{{trunk}}')]),
    ('Packets a second', '', [
        ('sum by (trunk, direction) (rate(e1gw_rtp_packets_total{TRUNK}[5m]))', '{{trunk}} {{direction}}')]),
    ('Packets discarded a second, by cause', '', [
        ('sum by (trunk, cause) (rate(e1gw_rtp_discarded_total{TRUNK}[5m])) > 0', '{{trunk}} {{cause}}')]),
    ('Packets lost, in all', '', [('sum by (trunk) (e1gw_rtp_lost{TRUNK})', '{{trunk}}')]),
    ('Jitter, the worst circuit', 's', [('max by (trunk) (e1gw_rtp_jitter_seconds{TRUNK})', '{{trunk}}')]),
    ('Slips and losses of alignment in 15 minutes', '', [
        ('increase(e1gw_trunk_gaps_total{TRUNK}[15m])', '{{trunk}} slips'),
        ('increase(e1gw_alignment_losses_total{TRUNK}[15m])', '{{trunk}} {{alignment}} alignment')]),
    ('Times without octets of the trunk', 'short', [('increase(e1gw_trunk_stalls_total{TRUNK}[15m])', '{{trunk}}')]),
    ('Rate of the trunk relative to this machine\'s clock', 'ppm', [('e1gw_trunk_rate_ppm{TRUNK}', '{{trunk}}')]),
    ('Invalid line signals, and seizures that were not acknowledged, in 15 minutes', '', [
        ('sum by (trunk) (increase(e1gw_circuit_faults_total{TRUNK}[15m]))', '{{trunk}} invalid signals'),
        ('sum by (trunk) (increase(e1gw_circuit_unacknowledged_total{TRUNK}[15m]))', '{{trunk}} not acknowledged')]),
]
WIDTH, HEIGHT = 12, 8           # of a panel; a row has 24
SOURCE = {'type': 'prometheus', 'uid': '${datasource}'}
ALL = {'text': 'All', 'value': ['$__all']}
CHOICES = [
    {'name': 'datasource', 'type': 'datasource', 'query': 'prometheus', 'label': 'Prometheus'},
    {'name': 'trunk', 'type': 'query', 'label': 'Trunk', 'datasource': SOURCE, 'refresh': 2, 'multi': True,
     'query': {'query': 'label_values(e1gw_uptime_seconds, trunk)', 'refId': 'trunk'},
     'includeAll': True, 'allValue': '.*', 'current': ALL}]


def panel(number: int, title: str, unit: str, lines: list[tuple[str, str]]) -> dict[str, object]:
    """A panel, two of which stand side by side."""
    targets = [{'refId': chr(ord('A') + at), 'expr': expr.replace('TRUNK', 'trunk=~"$trunk"'), 'legendFormat': legend}
               for at, (expr, legend) in enumerate(lines)]
    place = {'h': HEIGHT, 'w': WIDTH, 'x': number % 2 * WIDTH, 'y': number // 2 * HEIGHT}
    return {'id': number + 1, 'title': title, 'type': 'timeseries', 'datasource': SOURCE, 'gridPos': place,
            'fieldConfig': {'defaults': {'unit': unit} if unit else {}, 'overrides': []}, 'targets': targets}


def dashboard() -> dict[str, object]:
    return {'title': 'e1gw trunks', 'uid': 'e1gw-trunks', 'schemaVersion': 37, 'version': 1, 'refresh': '30s',
            'time': {'from': 'now-6h', 'to': 'now'}, 'editable': True, 'templating': {'list': CHOICES},
            'panels': [panel(number, *each) for number, each in enumerate(PANELS)]}


if __name__ == '__main__':
    print(json.dumps(dashboard(), indent=1))
