"""Plans, and what `afdx_bench check` and `afdx_bench report` must print of them, as fixed texts."""
from collections.abc import Iterator

from trying import DEMO, REPORT

# Two links, the higher identifier first, and a port on each, in the other order.
TWO_LINKS = """\
end_system = { id = 65535 }
vl = [
    { id = 7, bag_ms = 128, lmax = 64, sub_vls = 4, capacity = 256 },
    { id = 0, bag_ms = 2, lmax = 1518, sub_vls = 1, capacity = 1 },
]
port = [
    { id = 3, vl = 0, sub = 0, partition = 31, kind = 'sampling', source = 1, destination = 65535, max = 1471,
      dest_ip = '10.255.0.10' },
    { id = 2, vl = 7, sub = 3, partition = 0, kind = 'queuing', source = 65535, destination = 1, max = 1 },
]
"""
REPORT_OF_TWO_LINKS = """\
end system 65535
link 7: bag 128 ms, lmax 64, sub-VLs 4, capacity 256
link 0: bag 2 ms, lmax 1518, sub-VLs 1, capacity 1
port 3: link 0 sub 0, partition 31, sampling, 1 to 65535, max 1471, 10.255.0.10
port 2: link 7 sub 3, partition 0, queuing, 65535 to 1, max 1, multicast
jitter 169760 ns, limit 500000
"""
# A line of the demonstration in version 2, and one after it; words of its report, and what follows them.
MORE = [
    ("max = 8192", "", "multicast", ""),
    ("max = 8192", "checksum = 'none'", "multicast", ""),
    ("max = 8192", "checksum = 'udp'", "multicast", ", checksum udp"),
    ("capacity = 2", "networks = 'both'", "capacity 2", ""),
    ("capacity = 2", "networks = 'a'", "capacity 2", ", network A"),
    ("capacity = 2", "networks = 'b'", "capacity 2", ", network B"),
]
# Greatest frames of the last of four links like the demonstration's, and the jitter.
JITTERS = {1518: "532160 ns, limit 500000, exceeded", 1117: "500080 ns, limit 500000, exceeded", 1116: "500000 ns, limit 500000"}

# A link of four sub-VLs, two of which have ports with unequal maxima, and a link on network B alone.
UNEQUAL = """\
version = 2
end_system = { id = 1 }
vl = [
    { id = 1, bag_ms = 2, lmax = 200, sub_vls = 4, capacity = 3 },
    { id = 2, bag_ms = 128, lmax = 65, sub_vls = 1, capacity = 1, networks = 'b' },
]
port = [
    { id = 10, vl = 1, sub = 0, partition = 0, kind = 'queuing', source = 1, destination = 1, max = 10 },
    { id = 11, vl = 1, sub = 0, partition = 1, kind = 'queuing', source = 1, destination = 1, max = 1000 },
    { id = 12, vl = 1, sub = 3, partition = 2, kind = 'queuing', source = 1, destination = 1, max = 200 },
    { id = 13, vl = 2, sub = 0, partition = 3, kind = 'queuing', source = 1, destination = 1, max = 41 },
]
"""
# Plans with the lateness of their polls, and their analyses. In the demonstration 11 fragments may come before the six of a
# message. In the other plan a port waits for the longest of its sub-VL, and two of four sub-VLs of its link have a port: port
# 10 waits 2 (3 * 7 - 1 + 1) 2,250 microseconds.
ANALYSES = {
    (DEMO, 0): """\
loads within limits, jitter within limits, deadlines not given, queues not judged, partitions apart
end system 1, polls up to 0 us late
 link bag-ms lmax subs  nets    load-kbit/s  share-%  jitter-ns
    1      1 1518    1   A+B      12304.000    12.31     123040
jitter 163040 ns of 500000
network    load-kbit/s  share-%  exceeded  jitter-ns
      A      12304.000    12.31        no     163040
      B      12304.000    12.31        no     163040
 port  link sub fragments        wait-us   messages/s
   10     1   0         6          17000      166.666
 link sub capacity ports partitions greatest         bytes
    1   0        2     1          1     8192         33160
memory 242009 bytes
""",
    (UNEQUAL, 250): """\
loads within limits, jitter within limits, deadlines not given, queues not judged, sub-VLs of several partitions: 1
end system 1, polls up to 250 us late
 link bag-ms lmax subs  nets    load-kbit/s  share-%  jitter-ns
    1      2  200    4   A+B        880.000     0.88      17600
    2    128   65    1     B          5.313     0.01       6800
jitter 64400 ns of 500000
network    load-kbit/s  share-%  exceeded  jitter-ns
      A        880.000     0.88        no      57600
      B        885.313     0.89        no      64400
 port  link sub fragments        wait-us   messages/s
   10     1   0         1          94500      500.000
   11     1   0         7         121500       71.428
   12     1   3         2          31500      250.000
   13     2   0         2         384750        3.906
 link sub capacity ports partitions greatest         bytes
    1   0        3     2          2     1000          6432
    1   1        3     0          0        0           432
    1   2        3     0          0        0           432
    1   3        3     1          1      200          1432
    2   0        1     1          1       41           475
memory 219508 bytes
""",
}


def checks() -> Iterator[tuple[str, str]]:
    """Plans, and what `check` prints of them."""
    yield DEMO, REPORT
    yield TWO_LINKS, REPORT_OF_TWO_LINKS
    for line, more, words, end in MORE:
        yield "version = 2\n" + DEMO.replace(line, f"{line}\n{more}"), REPORT.replace(words, words + end)
    plan = TWO_LINKS.replace("capacity = 256", "capacity = 256, networks = 'b'").replace("capacity = 1 ", "capacity = 1, networks = 'a' ")
    lines = REPORT_OF_TWO_LINKS.replace("capacity 256\n", "capacity 256, network B\n").replace("capacity 1\n", "capacity 1, network A\n")
    yield "version = 2\n" + plan, lines
    for last, jitter in JITTERS.items():
        links = [(2, 1518), (3, 1518), (4, last)]
        plan = DEMO + "".join(f"[[vl]]\nid = {k}\nbag_ms = 1\nlmax = {lmax}\nsub_vls = 1\ncapacity = 2\n" for k, lmax in links)
        lines = "".join(f"link {k}: bag 1 ms, lmax {lmax}, sub-VLs 1, capacity 2\n" for k, lmax in links)
        yield plan, REPORT.replace("capacity 2\n", "capacity 2\n" + lines).replace("163040 ns, limit 500000", jitter)
