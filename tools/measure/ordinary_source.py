#!/usr/bin/env python3
"""Prints a file of ordinary source, for counting what a byte and a token of it take: the members of one interface, numbered.

python3 tools/measure/ordinary_source.py > FILE
"""
MEMBERS = """
    const int FLAG_WAKE_UP_{n} = 1 << 3;
    const int FLAG_ONE_SHOT_{n} = FLAG_WAKE_UP_{n} << 1;
    const String DEFAULT_VENDOR_{n} = "acme" + " sensors";

    SensorInfo[] getSensors{n}();
    @nullable SensorInfo find{n}(@utf8InCpp String name);
    boolean activate{n}(int handle, int rate);
    /** Fills the events that are waiting. */
    int poll{n}(out SensorEvent[] events, inout int[] handles);
    oneway void flush{n}(int handle);

    parcelable Calibration{n} {{
        long madeAt;
        int offset;
        int scale = 1000;
        int flags = FLAG_WAKE_UP_{n} | FLAG_ONE_SHOT_{n};
        int[] rates = {{10, 50, 1000 / 10}};
        List<SensorEvent> events;
    }}
"""
LENGTH = 180_000

parts = ["package sensors;\n\ninterface ISensorService {"]
n = 0
while sum(map(len, parts)) + len(MEMBERS) < LENGTH:
    parts.append(MEMBERS.format(n=n))
    n += 1
print("".join(parts) + "}")
